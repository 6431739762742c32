/* Two jugs and a tap: which pours leave so many litres in one of them? One arena is used in three ways, side by side: a search's
 * states come from the heap in batches and go back all at once, each answer has a block of the pool, and which states were seen
 * stands in a page that is held by hand. States and short answers have one size; neither can be given back as the other. */
#include <stdio.h>
#include <stdlib.h>
#include <string.h>

#include "vigbuso.h"

enum { PAGES = 16, HOST = VIGBUSO_HOST_GRANTED, WORDS = VIGBUSO_BOOK_WORDS(PAGES) };
static char arena[PAGES * VIGBUSO_PAGE_BYTES];
static uint32_t book[WORDS];

/* Litres in each jug, below 256, and the place of the state before: 12 bytes, so the class is the first. */
typedef struct { uint32_t litres[2], before; } state;
enum { STATE_CLASS = 0, MOST = 1024 };

/* The blocks of a search's states, in its order; how many were taken, and how many have a state. */
static uint64_t states[MOST];
static uint32_t taken, used, seen_page;

/* Ends the program with what a refusal means. */
static void must(uint32_t refusal) {
    if (refusal != 0) { fprintf(stderr, "%s\n", vigbuso_refusal_text(refusal)); exit(1); }
}

static char *bytes_of(uint64_t block) { return arena + VIGBUSO_BYTE_OFFSET(block); }
static char *seen(void) { return arena + (size_t)seen_page * VIGBUSO_PAGE_BYTES; }

/* Adds a state that was not seen. Where every block has one, there is a batch more. */
static void add(state next, uint32_t before) {
    char *mark = seen() + 256 * next.litres[0] + next.litres[1];
    uint32_t count = 1, virgin = 0;
    if (*mark) { return; }
    *mark = 1;
    next.before = before;
    if (used == taken) {
        must(vigbuso_take_blocks(book, WORDS, STATE_CLASS, HOST, states + taken, MOST - taken, &count, &virgin));
        taken += count;
    }
    if (count == 0) { exit(2); }
    memcpy(bytes_of(states[used++]), &next, sizeof next);
}

/* The place of the first state with so many litres in a jug; 0 if there is none. */
static uint32_t search(const uint32_t *jugs, uint32_t litres) {
    state now = {{0, 0}, 0};
    memset(seen(), 0, VIGBUSO_PAGE_BYTES);
    taken = used = 0;
    add(now, 0);
    for (uint32_t place = 0; place < used; place++) {
        memcpy(&now, bytes_of(states[place]), sizeof now);
        if (now.litres[0] == litres || now.litres[1] == litres) { return place; }
        for (int jug = 0; jug < 2; jug++) {
            const uint32_t has = now.litres[jug], room = jugs[1 - jug] - now.litres[1 - jug], pours = room < has ? room : has;
            state full = now, none = now, poured = now;
            full.litres[jug] = jugs[jug];
            none.litres[jug] = 0;
            poured.litres[jug] -= pours;
            poured.litres[1 - jug] += pours;
            add(full, place); add(none, place); add(poured, place);
        }
    }
    return 0;
}

/* The block of the answer's text: the pours, from the last to the first. All states are back then. */
static uint64_t answer(const uint32_t *jugs, uint32_t litres) {
    static char text[8 * MOST + 16];
    uint64_t block = VIGBUSO_NONE;
    size_t released = 0;
    uint32_t place = search(jugs, litres);
    int len = sprintf(text, place == 0 ? "%u: never" : "%u:", (unsigned)litres);
    for (state now; place != 0; place = now.before) {
        memcpy(&now, bytes_of(states[place]), sizeof now);
        len += sprintf(text + len, " %u+%u", (unsigned)now.litres[0], (unsigned)now.litres[1]);
    }
    must(vigbuso_release_all(book, WORDS, STATE_CLASS, HOST, states, taken, &released));
    must(vigbuso_alloc(book, WORDS, vigbuso_class_for_size((uint64_t)len + 1), HOST, &block));
    if (block == VIGBUSO_NONE) { exit(2); }
    memcpy(bytes_of(block), text, (size_t)len + 1);
    return block;
}

int main(void) {
    const uint32_t row[VIGBUSO_ROW] = VIGBUSO_NOTHING_PARKED, jugs[4][2] = {{5, 3}, {6, 4}, {9, 4}, {11, 7}}, litres[4] = {4, 5, 6, 5};
    uint64_t answers[4];
    uint32_t fresh = 0, fate = 0;
    must(vigbuso_open(book, WORDS, PAGES, row, VIGBUSO_ROW));
    must(vigbuso_commit(book, WORDS, HOST, 1, &seen_page, &fresh));
    for (int at = 0; at < 4; at++) { answers[at] = answer(jugs[at], litres[at]); }
    /* The second is as short as a state, and yet it is none. */
    printf("released: %s\n", vigbuso_refusal_text(vigbuso_release_blocks(book, WORDS, STATE_CLASS, HOST, &answers[1], 1, &fate)));
    for (int at = 0; at < 4; at++) {
        printf("%u and %u leave %s\n", (unsigned)jugs[at][0], (unsigned)jugs[at][1], bytes_of(answers[at]));
        must(vigbuso_free(book, WORDS, vigbuso_class_of(book, WORDS, answers[at]), HOST, answers[at]));
    }
    must(vigbuso_release(book, WORDS, HOST, seen_page, 1));
    return 0;
}
