/* Every function of include/vigbuso.h, called from C or C++. Prints each difference; exit status 0 if there is none. */
#include <stdio.h>
#include <stdlib.h>
#include <string.h>

#include "vigbuso.h"

static int differences = 0;

/* One comparison, with the line that it stands in. */
#define IS(found, expected) is(__LINE__, #found, (uint64_t)(found), (uint64_t)(expected))

static void is(int line, const char *what, uint64_t found, uint64_t expected) {
    if (found != expected) {
        printf("line %d: %s is %llu, not %llu\n", line, what, (unsigned long long)found, (unsigned long long)expected);
        differences++;
    }
}

enum { PAGES = 64, HOST = VIGBUSO_HOST_GRANTED };

static const size_t words = VIGBUSO_BOOK_WORDS(PAGES);
static uint32_t *book, *before;

/* The call is refused, and no word of the book changes. */
#define REFUSED(call, number)                                \
    do {                                                     \
        memcpy(before, book, words * sizeof *book);          \
        IS(call, number);                                    \
        IS(memcmp(before, book, words * sizeof *book), 0);   \
    } while (0)

/* A size is of this class; too large leaves the out-parameter. */
static void sized(uint64_t size, uint32_t kind, uint32_t number) {
    uint32_t found = 99;
    IS(vigbuso_size_class(size, &found), kind);
    IS(found, kind == VIGBUSO_NONE ? 99 : number);
}

static void lookups(void) {
    sized(0, VIGBUSO_SMALL, 0);
    sized(16384, VIGBUSO_SMALL, 45);
    sized(16385, VIGBUSO_MEDIUM, 0);
    sized(65472, VIGBUSO_MEDIUM, 11);
    sized(65473, VIGBUSO_NONE, 0);
    sized(((uint64_t)1 << 32) + 16, VIGBUSO_NONE, 0);
    sized(UINT64_MAX, VIGBUSO_NONE, 0);
}

/* Each class's blocks are large enough for the sizes that the lookup gives it, and for no more. */
static void block_bytes(void) {
    for (uint32_t c = 0; c < 45; c++) {
        sized(vigbuso_block_bytes(c), VIGBUSO_SMALL, c);
        sized(vigbuso_block_bytes(c) + 1, VIGBUSO_SMALL, c + 1);
    }
    for (uint32_t c = 45; c < VIGBUSO_SMALL_CLASSES; c++) {
        IS(vigbuso_block_bytes(c), 16384);
    }
    for (uint32_t c = 0; c < VIGBUSO_MEDIUM_CLASSES; c++) {
        sized(vigbuso_medium_block_bytes(c), VIGBUSO_MEDIUM, c);
        sized(vigbuso_medium_block_bytes(c) + 1, c < 11 ? VIGBUSO_MEDIUM : VIGBUSO_NONE, c + 1);
    }
    IS(vigbuso_block_bytes(VIGBUSO_SMALL_CLASSES), 0);
    IS(vigbuso_medium_block_bytes(VIGBUSO_MEDIUM_CLASSES), 0);
}

/* The classes by one number: a heap of one run has just a run's blocks, each starts where the class says, and no others can. */
static void runs_of_classes(void) {
    for (uint32_t c = 0; c < VIGBUSO_CLASSES; c++) {
        const uint32_t bytes = vigbuso_class_bytes(c), pages = vigbuso_class_pages(c);
        const uint64_t kind = c < VIGBUSO_SMALL_CLASSES ? VIGBUSO_SMALL : VIGBUSO_MEDIUM;
        uint32_t starts = 0, blocks = 0;
        uint64_t block = 7;
        IS(vigbuso_class_for_size(bytes), c < 46 || c > 63 ? c : 45);
        IS(vigbuso_open(book, words, pages, NULL, 0), 0);
        while (vigbuso_alloc(book, words, c, HOST, &block) == 0 && block != VIGBUSO_NONE) {
            IS(vigbuso_first_page(c, block), 0);
            IS(vigbuso_first_page(c, block + 5 * 4096), 5);
            IS(vigbuso_first_page(c < VIGBUSO_SMALL_CLASSES ? 70 : 0, block), VIGBUSO_NO_PAGE);
            blocks++;
        }
        for (uint64_t granule = 0; granule < (uint64_t)pages * 4096; granule++) {
            starts += vigbuso_first_page(c, kind << 62 | granule) == 0;
        }
        IS(starts, blocks);
        IS(vigbuso_first_page(c, (kind << 62 | (uint64_t)1 << 32) + 3), VIGBUSO_NO_PAGE);
    }
    IS(vigbuso_class_for_size(65473), VIGBUSO_CLASSES);
    IS(vigbuso_class_bytes(VIGBUSO_CLASSES), 0);
    IS(vigbuso_class_pages(VIGBUSO_CLASSES), 0);
    IS(vigbuso_class_pages(64), 3);
    IS(vigbuso_class_pages(75), 8);
    IS(vigbuso_first_page(VIGBUSO_CLASSES, (uint64_t)VIGBUSO_MEDIUM << 62 | 4), VIGBUSO_NO_PAGE);
    IS(vigbuso_first_page(0, VIGBUSO_NONE), VIGBUSO_NO_PAGE);
}

/* A length of 0 goes with a null pointer: no call reads or writes there. */
static void nothing_lent(void) {
    uint32_t number = 7, fate = 7;
    uint64_t total = 7, figures[VIGBUSO_FIGURES], done[3] = {7, 7, 7};
    size_t released = 7;
    IS(vigbuso_open(NULL, 0, 1, NULL, 0), VIGBUSO_E_BOOK_TOO_SHORT);
    IS(vigbuso_report(NULL, 0, figures), VIGBUSO_E_ARENA_LENGTH);
    IS(vigbuso_contains(NULL, 0, 0, 0), 0);
    IS(vigbuso_class_of(NULL, 0, (uint64_t)VIGBUSO_SMALL << 62 | 3), VIGBUSO_CLASSES);
    IS(vigbuso_granted(NULL, 0, 0, (uint64_t)VIGBUSO_SMALL << 62 | 3), 0);
    IS(vigbuso_stocked(NULL, 0, 0), 0);
    IS(vigbuso_alloc(NULL, 0, 0, HOST, &total), VIGBUSO_E_ARENA_LENGTH);
    IS(vigbuso_open(book, words, PAGES, NULL, 0), 0);
    IS(vigbuso_take_blocks(book, words, 0, HOST, NULL, 0, &number, &fate), VIGBUSO_E_LIST_TOO_SHORT);
    IS(vigbuso_medium_take_blocks(book, words, 0, HOST, NULL, 0, &number, &fate), VIGBUSO_E_LIST_TOO_SHORT);
    IS(vigbuso_release_blocks(book, words, 0, HOST, NULL, 0, &fate), VIGBUSO_E_EMPTY_LIST);
    IS(vigbuso_medium_release_blocks(book, words, 0, HOST, NULL, 0, &fate), VIGBUSO_E_EMPTY_LIST);
    IS(vigbuso_release_bin_chunks(book, words, 0, HOST, NULL, 0, NULL, 0, NULL, 0), VIGBUSO_E_EMPTY_LIST);
    IS(vigbuso_class_table(9, 8, 16384, 1, NULL, 0), VIGBUSO_E_SLOTS);
    IS(vigbuso_plan(NULL, 0, NULL, 0, &total), VIGBUSO_E_PLAN);
    IS(number == 7 && fate == 7 && total == 7, 1);
    IS(vigbuso_short_histories(1, 0, NULL, 0, &total), 0);
    IS(total, 0);
    IS(vigbuso_trace(book, words, PAGES, NULL, 0, NULL, 0, NULL, 0, done), 0);
    IS(done[0] + done[1] + done[2], 0);
    IS(vigbuso_release_all(book, words, 0, HOST, NULL, 0, &released), 0);
    IS(released, 0);
}

static void texts(void) {
    char version[32];
    sprintf(version, "%d.%d.%d", VIGBUSO_VERSION_MAJOR, VIGBUSO_VERSION_MINOR, VIGBUSO_VERSION_PATCH);
    IS(strcmp(version, VIGBUSO_VERSION), 0);
    IS(vigbuso_abi_7(), VIGBUSO_ABI);
    IS(strcmp(vigbuso_refusal_text(VIGBUSO_E_HOST_WORD), "the host word exceeds 15"), 0);
    IS(strcmp(vigbuso_refusal_text(0), "carried out"), 0);
    IS(strcmp(vigbuso_refusal_text(UINT32_MAX), "no refusal has this number"), 0);
}

static void opening(void) {
    IS(VIGBUSO_BOOK_WORDS(VIGBUSO_MAX_PAGES), (uint64_t)4311784512);
    IS(vigbuso_open(book, words, 0, NULL, 0), VIGBUSO_E_ARENA_LENGTH);
    IS(vigbuso_open(book, words, VIGBUSO_MAX_PAGES + 1, NULL, 0), VIGBUSO_E_ARENA_LENGTH);
    IS(vigbuso_open(book, words, VIGBUSO_MAX_PAGES, NULL, 0), VIGBUSO_E_BOOK_TOO_SHORT);
    IS(vigbuso_open(book, words - 1, PAGES, NULL, 0), VIGBUSO_E_BOOK_TOO_SHORT);
    IS(vigbuso_contains(book, words, 0, 1), 0);
    IS(vigbuso_open(book, words, PAGES, NULL, 0), 0);
}

/* Class 45 parks nothing, the other small classes as much as can be, the medium ones a little. */
static void rules(void) {
    const uint32_t rows[4 * VIGBUSO_ROW] = {46, 63, VIGBUSO_LIMIT, VIGBUSO_LIMIT, 64, 75, 1, 0, 45, 45, 0, 0, 0, 44, 256, 256};
    uint64_t list[VIGBUSO_BATCH];
    uint32_t count = 0, virgin = 0, fate = 7;
    IS(vigbuso_open(book, words, PAGES, rows, 15), VIGBUSO_E_ROWS);
    IS(vigbuso_open(book, words, PAGES, rows + 1, 12), VIGBUSO_E_ROWS);
    IS(vigbuso_open(book, words, PAGES, rows, 12), VIGBUSO_E_NO_ROW);
    IS(vigbuso_open(book, words, PAGES, rows, 16), 0);
    IS(vigbuso_take_blocks(book, words, 45, HOST, list, VIGBUSO_BATCH, &count, &virgin), 0);
    IS(vigbuso_release_blocks(book, words, 45, HOST, list, count, &fate), 0);
    IS(fate, VIGBUSO_TO_ARENA);
    IS(vigbuso_take_blocks(book, words, 44, HOST, list, VIGBUSO_BATCH, &count, &virgin), 0);
    IS(vigbuso_release_blocks(book, words, 44, HOST, list, count, &fate), 0);
    IS(fate, VIGBUSO_KEPT);
}

/* A page and a span: either goes to the arena when its blocks are back, and then nothing is held. */
static void nothing_parked(void) {
    const uint32_t row[VIGBUSO_ROW] = VIGBUSO_NOTHING_PARKED;
    uint64_t list[VIGBUSO_BATCH], figures[VIGBUSO_FIGURES];
    uint32_t count = 0, virgin = 0, fate = 7;
    IS(row[1], 75);
    IS(vigbuso_open(book, words, PAGES, row, VIGBUSO_ROW), 0);
    IS(vigbuso_take_blocks(book, words, 0, HOST, list, VIGBUSO_BATCH, &count, &virgin), 0);
    IS(vigbuso_release_blocks(book, words, 0, HOST, list, count, &fate), 0);
    IS(fate, VIGBUSO_TO_ARENA);
    fate = 7;
    IS(vigbuso_medium_take_blocks(book, words, 11, HOST, list, VIGBUSO_BATCH, &count, &virgin), 0);
    IS(count, 8);
    IS(vigbuso_medium_release_blocks(book, words, 11, HOST, list, count, &fate), 0);
    IS(fate, VIGBUSO_TO_ARENA);
    IS(vigbuso_report(book, words, figures), 0);
    IS(figures[3], 0);
}

static void small_blocks(void) {
    uint64_t list[VIGBUSO_BATCH];
    uint32_t count = 7, virgin = 7, fate = 7;
    IS(vigbuso_take_blocks(book, words, 0, HOST, list, VIGBUSO_BATCH - 1, &count, &virgin), VIGBUSO_E_LIST_TOO_SHORT);
    IS(count, 7);
    IS(vigbuso_take_blocks(book, words, 0, HOST, list, VIGBUSO_BATCH, &count, &virgin), 0);
    IS(count, 64);
    IS(virgin, 1);
    IS(list[0], 4611686018427387970u);
    IS(VIGBUSO_KIND(list[0]), VIGBUSO_SMALL);
    IS(VIGBUSO_BYTE_OFFSET(list[0]), 66 * 16);
    IS(VIGBUSO_PAGE(list[0]), 0);
    IS(vigbuso_release_blocks(book, words, 0, HOST, list, 0, &fate), VIGBUSO_E_EMPTY_LIST);
    IS(vigbuso_release_blocks(book, words, 0, 16, list, 3, &fate), VIGBUSO_E_HOST_WORD);
    IS(fate, 7);
    IS(vigbuso_release_blocks(book, words, 0, HOST, list, 3, &fate), 0);
    IS(fate, VIGBUSO_KEPT);
    IS(vigbuso_release_blocks(book, words, 0, HOST, list, 3, &fate), VIGBUSO_E_NOT_OUT);
    /* A granule beyond the arena: no bit of it is cut. */
    list[0] = list[4] + ((uint64_t)1 << 32);
    IS(VIGBUSO_PAGE(list[0]), (uint64_t)1 << 20);
    IS(VIGBUSO_BYTE_OFFSET(list[0]) - VIGBUSO_BYTE_OFFSET(list[4]), (uint64_t)1 << 36);
    IS(vigbuso_release_blocks(book, words, 0, HOST, list, 1, &fate), VIGBUSO_E_NOT_OUT);
    list[0] = list[4];
    IS(vigbuso_release_blocks(book, words, 0, HOST, list, 5, &fate), VIGBUSO_E_REPEATED);
    IS(vigbuso_release_blocks(book, words, VIGBUSO_SMALL_CLASSES, HOST, list, 3, &fate), VIGBUSO_E_CLASS);
}

static void medium_blocks(void) {
    uint64_t list[VIGBUSO_BATCH];
    uint32_t count = 0, virgin = 0, fate = 7;
    IS(vigbuso_medium_take_blocks(book, words, 0, HOST, list, VIGBUSO_BATCH, &count, &virgin), 0);
    IS(count, 10);
    IS(VIGBUSO_KIND(list[0]), VIGBUSO_MEDIUM);
    IS(vigbuso_release_blocks(book, words, 0, HOST, list, count, &fate), VIGBUSO_E_WRONG_KIND);
    IS(vigbuso_medium_release_blocks(book, words, 0, HOST, list, count, &fate), 0);
    IS(fate, VIGBUSO_KEPT);
}

static void runs(void) {
    uint32_t first = 0, fresh = 7, grown = 7;
    IS(vigbuso_commit(book, words, HOST, 0, &first, &fresh), VIGBUSO_E_RUN_LENGTH);
    IS(vigbuso_commit(book, words, HOST, 2, &first, &fresh), 0);
    IS(fresh, 1);
    IS(vigbuso_grow_frontier(book, words, HOST, first, 2, 3, &grown), 0);
    IS(grown, 1);
    IS(vigbuso_contains(book, words, (uint64_t)first * VIGBUSO_PAGE_BYTES, 3 * VIGBUSO_PAGE_BYTES), 1);
    IS(vigbuso_release(book, words, HOST, first, 4), VIGBUSO_E_NOT_HELD);
    IS(vigbuso_release(book, words, HOST, first, 3), 0);
    IS(vigbuso_commit(book, words, HOST, PAGES, &first, &fresh), 0);
    IS(first, VIGBUSO_NO_PAGE);
    IS(fresh, 0);
}

/* After all the calls above: a page of class 0 and the three of a span are held; the span is parked, so its pages are idle too. */
static void report(void) {
    uint64_t figures[VIGBUSO_FIGURES];
    IS(vigbuso_report(book, words, figures), 0);
    IS(figures[3], 4);
    IS(figures[4], PAGES - 1);
    IS(figures[5], 3);
}

static void chunks(void) {
    uint64_t list[VIGBUSO_BATCH], chunk;
    uint32_t count = 0, virgin = 0, fates[2] = {7, 7};
    IS(vigbuso_take_blocks(book, words, 45, HOST, list, VIGBUSO_BATCH, &count, &virgin), 0);
    IS(count, 3);
    chunk = VIGBUSO_CHUNK_WORD(count, VIGBUSO_PAGE(list[0]) + 262144);
    IS(VIGBUSO_KIND(chunk), VIGBUSO_CHUNK);
    IS(vigbuso_release_bin_chunks(book, words, 45, HOST, list, count, &chunk, 1, fates, 2), VIGBUSO_E_OTHER_PAGE);
    chunk = VIGBUSO_CHUNK_WORD(count, VIGBUSO_PAGE(list[0]));
    IS(vigbuso_release_bin_chunks(book, words, 45, HOST, list, count, &chunk, 1, fates, 0), VIGBUSO_E_CHUNKS);
    IS(vigbuso_release_bin_chunks(book, words, 45, HOST, list, count, &chunk, 1, fates, 2), 0);
    IS(fates[0], VIGBUSO_KEPT + VIGBUSO_RETIRED);
    IS(fates[1], 7);
}

/* Numbers that go up and down without a pattern, the same at each run. */
static uint64_t next_number(uint64_t *state) {
    *state = *state * UINT64_C(6364136223846793005) + UINT64_C(1442695040888963407);
    return *state >> 33;
}

/* Some of a class's blocks, of several pages or spans and in no order, go back at once; then one of them is refused. */
static void all_of(uint32_t size_class, uint32_t takes) {
    enum { MOST = 16 * VIGBUSO_BATCH };
    static uint64_t list[MOST];
    uint64_t state = size_class, figures[VIGBUSO_FIGURES];
    size_t len = 0, released = 7;
    uint32_t count = 0, virgin = 0;
    const uint32_t row[VIGBUSO_ROW] = VIGBUSO_NOTHING_PARKED;
    IS(vigbuso_open(book, words, PAGES, row, VIGBUSO_ROW), 0);
    for (; takes > 0; takes--, len += count) {
        IS((size_class < VIGBUSO_SMALL_CLASSES ? vigbuso_take_blocks : vigbuso_medium_take_blocks)(
               book, words, size_class % VIGBUSO_SMALL_CLASSES, HOST, list + len, VIGBUSO_BATCH, &count, &virgin), 0);
        IS(count > 0, 1);
    }
    for (size_t at = len - 1; at > 0; at--) {
        const size_t other = (size_t)(next_number(&state) % (at + 1));
        const uint64_t word = list[at];
        list[at] = list[other];
        list[other] = word;
    }
    /* The last one stands twice: nothing of its page or span goes back, all before it does. */
    list[len] = list[0];
    for (size_t at = 1; at < len; at++) {
        list[len] = list[len] > list[at] ? list[len] : list[at];
    }
    IS(vigbuso_release_all(book, words, size_class, HOST, list, len + 1, &released), VIGBUSO_E_REPEATED);
    IS(list[len - 1], list[len]);
    IS(released < len && vigbuso_first_page(size_class, list[released]) == vigbuso_first_page(size_class, list[len]), 1);
    IS(released == 0 || vigbuso_first_page(size_class, list[released - 1]) < vigbuso_first_page(size_class, list[len]), 1);
    for (size_t at = 1; at <= len; at++) {
        IS(list[at - 1] <= list[at], 1);
    }
    len -= released;
    IS(vigbuso_release_all(book, words, size_class, HOST, list + released, len, &released), 0);
    IS(released, len);
    IS(vigbuso_report(book, words, figures), 0);
    IS(figures[3], 0);
    IS(vigbuso_release_all(book, words, size_class, HOST, list, 1, &released), VIGBUSO_E_NOT_OUT);
    IS(released, 0);
    list[0] ^= (uint64_t)3 << 62; /* the other kind */
    IS(vigbuso_release_all(book, words, size_class, HOST, list, 1, &released), VIGBUSO_E_WRONG_KIND);
    IS(vigbuso_release_all(book, words, size_class, 16, list, 1, &released), VIGBUSO_E_HOST_WORD);
    IS(vigbuso_release_all(book, words, VIGBUSO_CLASSES, HOST, list, 1, &released), VIGBUSO_E_CLASS);
}

static void release_all(void) {
    uint64_t list[7] = {5, UINT64_MAX, 5, 0, 9, 1, 2};
    for (size_t len = 0; len <= 7; len++) {
        vigbuso_sort(list, len);
        for (size_t at = 1; at < len; at++) {
            IS(list[at - 1] <= list[at], 1);
        }
    }
    IS(list[0] == 0 && list[4] == 5 && list[6] == UINT64_MAX, 1);
    all_of(0, 1);
    all_of(0, 15);
    all_of(30, 12);
    all_of(45, 15);
    all_of(64, 15);
    all_of(70, 9);
    all_of(75, 7);
}

/* One block out and back: a wrong free is refused, and the stock's blocks go back one by one. */
static void pool(void) {
    uint64_t block = 7, other = 7;
    IS(vigbuso_alloc(book, words, VIGBUSO_CLASSES, HOST, &block), VIGBUSO_E_CLASS);
    IS(block, 7);
    IS(vigbuso_alloc(book, words, 10, HOST, &block), 0);
    IS(VIGBUSO_KIND(block), VIGBUSO_SMALL);
    IS(vigbuso_alloc(book, words, 75, HOST, &other), 0);
    IS(VIGBUSO_KIND(other), VIGBUSO_MEDIUM);
    IS(vigbuso_class_of(book, words, block), 10);
    IS(vigbuso_class_of(book, words, other), 75);
    IS(vigbuso_class_of(book, words, UINT64_MAX), VIGBUSO_CLASSES);
    IS(vigbuso_granted(book, words, 10, block), 1);
    IS(vigbuso_granted(book, words, 11, block), 0);
    IS(vigbuso_granted(book, words, 10, block + 1), 0);
    IS(vigbuso_granted(book, words, VIGBUSO_CLASSES, block), 0);
    IS(vigbuso_granted(book, 0, 10, block), 0);
    IS(vigbuso_stocked(book, words, 10), VIGBUSO_BATCH - 1);
    IS(vigbuso_stocked(book, words, VIGBUSO_CLASSES), 0);
    IS(vigbuso_stocked(book, 0, 10), 0);
    IS(vigbuso_free(book, words, 75, HOST, block), VIGBUSO_E_WRONG_KIND);
    IS(vigbuso_free(book, words, 11, HOST, block), VIGBUSO_E_NOT_OUT);
    IS(vigbuso_free(book, words, 10, HOST, block + 1), VIGBUSO_E_NOT_OUT);
    IS(vigbuso_free(book, words, 10, HOST, block), 0);
    IS(vigbuso_granted(book, words, 10, block), 0);
    IS(vigbuso_stocked(book, words, 10), VIGBUSO_BATCH);
    IS(vigbuso_free(book, words, 10, HOST, block), VIGBUSO_E_NOT_OUT);
    IS(vigbuso_free(book, words, 75, HOST, other), 0);
    for (uint32_t left = VIGBUSO_BATCH; left > 0; left--) {
        IS(vigbuso_trim(book, words, 10, HOST, &block), 0);
        IS(VIGBUSO_KIND(block), VIGBUSO_SMALL);
    }
    IS(vigbuso_trim(book, words, 10, HOST, &block), 0);
    IS(block, VIGBUSO_NONE);
}

/* No two blocks of so many bytes share one. */
static void disjoint(uint64_t *list, size_t len, uint64_t bytes) {
    vigbuso_sort(list, len);
    for (size_t at = 1; at < len; at++) {
        IS(VIGBUSO_BYTE_OFFSET(list[at - 1]) + bytes <= VIGBUSO_BYTE_OFFSET(list[at]), 1);
    }
}

/* Heap and pool on one book, of one size. Were the release done, the take would get the block that the pool has granted. */
static void granted_and_released(void) {
    uint64_t block = 0, list[VIGBUSO_BATCH];
    const uint64_t chunk = VIGBUSO_CHUNK_WORD(1, 0);
    uint32_t count = 0, virgin = 0, fate = 7;
    IS(vigbuso_open(book, words, PAGES, NULL, 0), 0);
    IS(vigbuso_alloc(book, words, 45, HOST, &block), 0);
    IS(VIGBUSO_GRANULE(block), 3);
    REFUSED(vigbuso_release_blocks(book, words, 45, HOST, &block, 1, &fate), VIGBUSO_E_NOT_OUT);
    REFUSED(vigbuso_release_bin_chunks(book, words, 45, HOST, &block, 1, &chunk, 1, &fate, 1), VIGBUSO_E_NOT_OUT);
    IS(fate, 7);
    IS(vigbuso_take_blocks(book, words, 45, HOST, list, VIGBUSO_BATCH, &count, &virgin), 0);
    IS(count, 3);
    list[3] = block;
    IS(vigbuso_alloc(book, words, 45, HOST, &list[4]), 0);
    IS(vigbuso_alloc(book, words, 45, HOST, &list[5]), 0);
    IS(vigbuso_alloc(book, words, 45, HOST, &list[6]), 0);
    disjoint(list, 7, 16384);
    IS(vigbuso_class_of(book, words, block), 45);
    IS(vigbuso_free(book, words, 45, HOST, block), 0);
}

/* Were the release done, the block would be in stock and yet the heap's to hand out. */
static void freed_and_released(void) {
    uint64_t block = 0, list[VIGBUSO_BATCH + 1];
    uint32_t count = 0, virgin = 0, fate = 7;
    IS(vigbuso_open(book, words, PAGES, NULL, 0), 0);
    IS(vigbuso_alloc(book, words, 75, HOST, &block), 0);
    IS(vigbuso_free(book, words, 75, HOST, block), 0);
    REFUSED(vigbuso_medium_release_blocks(book, words, 11, HOST, &block, 1, &fate), VIGBUSO_E_NOT_OUT);
    IS(vigbuso_alloc(book, words, 45, HOST, &block), 0);
    IS(vigbuso_free(book, words, 45, HOST, block), 0);
    REFUSED(vigbuso_release_blocks(book, words, 45, HOST, &block, 1, &fate), VIGBUSO_E_NOT_OUT);
    IS(vigbuso_take_blocks(book, words, 45, HOST, list, VIGBUSO_BATCH, &count, &virgin), 0);
    IS(vigbuso_alloc(book, words, 45, HOST, &list[count]), 0);
    disjoint(list, count + 1, 16384);
    IS(fate, 7);
}

/* Were the free done, the pool would grant what a take has handed out, the caller's or a trace's. */
static void taken_and_freed(void) {
    const uint32_t take = VIGBUSO_TRACE_TAKE(45);
    uint64_t list[VIGBUSO_BATCH], done[3];
    uint32_t count = 0, virgin = 0, fate = 7;
    for (int traced = 0; traced < 2; traced++) {
        if (traced) {
            IS(vigbuso_trace(book, words, PAGES, &take, 1, list, VIGBUSO_BATCH, NULL, 0, done), 0);
            count = (uint32_t)done[1];
        } else {
            IS(vigbuso_open(book, words, PAGES, NULL, 0), 0);
            IS(vigbuso_take_blocks(book, words, 45, HOST, list, VIGBUSO_BATCH, &count, &virgin), 0);
        }
        IS(count, 3);
        for (uint32_t at = 0; at < count; at++) {
            IS(vigbuso_class_of(book, words, list[at]), 45);
            IS(vigbuso_granted(book, words, 45, list[at]), 0);
            REFUSED(vigbuso_free(book, words, 45, HOST, list[at]), VIGBUSO_E_NOT_OUT);
        }
        IS(vigbuso_alloc(book, words, 45, HOST, &list[count]), 0);
        disjoint(list, count + 1, 16384);
        IS(vigbuso_release_blocks(book, words, 45, HOST, list, count, &fate), 0);
    }
}

/* Zeros but for the length: whatever the book was made for, no opening of this layout has made it. */
static void never_opened(void) {
    uint64_t list[VIGBUSO_BATCH], block = 7, figures[VIGBUSO_FIGURES];
    uint32_t count = 7, virgin = 7;
    memset(book, 0, words * sizeof *book);
    book[0] = PAGES;
    REFUSED(vigbuso_report(book, words, figures), VIGBUSO_E_BOOK_WORD);
    REFUSED(vigbuso_commit(book, words, HOST, 1, &count, &virgin), VIGBUSO_E_BOOK_WORD);
    REFUSED(vigbuso_take_blocks(book, words, 0, HOST, list, VIGBUSO_BATCH, &count, &virgin), VIGBUSO_E_BOOK_WORD);
    REFUSED(vigbuso_alloc(book, words, 0, HOST, &block), VIGBUSO_E_BOOK_WORD);
    REFUSED(vigbuso_trim(book, words, 0, HOST, &block), VIGBUSO_E_BOOK_WORD);
    IS(count == 7 && virgin == 7 && block == 7, 1);
    IS(vigbuso_contains(book, words, 0, 0), 0);
    IS(vigbuso_class_of(book, words, (uint64_t)VIGBUSO_SMALL << 62 | 3), VIGBUSO_CLASSES);
    IS(vigbuso_stocked(book, words, 0), 0);
    IS(vigbuso_open(book, words, PAGES, NULL, 0), 0);
    IS(vigbuso_report(book, words, figures), 0);
}

/* A take, a release and a report; then a place that is not out. On a book of its own: a trace opens it. */
static void trace(void) {
    const uint32_t says[4] = {VIGBUSO_TRACE_TAKE(45), VIGBUSO_TRACE_RELEASE(1), VIGBUSO_TRACE_REPORT, VIGBUSO_TRACE_RELEASE(1)};
    uint64_t blocks[4] = {7, 7, 7, 7};
    uint64_t figures[6] = {7, 7, 7, 7, 7, 7}, done[3] = {7, 7, 7};
    IS(vigbuso_trace(book, words, 0, says, 4, blocks, 4, figures, 6, done), VIGBUSO_E_ARENA_LENGTH);
    IS(vigbuso_trace(book, words, PAGES + 1, says, 4, blocks, 4, figures, 6, done), VIGBUSO_E_BOOK_TOO_SHORT);
    IS(done[0], 7);
    IS(vigbuso_trace(book, words, PAGES, says, 4, blocks, 4, figures, 6, done), VIGBUSO_E_STOPPED);
    IS(done[0], 3);
    IS(done[1], 3);
    IS(done[2], 5);
    IS(VIGBUSO_BYTE_OFFSET(blocks[0]), 2051 * 16);
    IS(blocks[3], 7);
    IS(figures[0], 2);
    IS(figures[1], 2 * 16384);
    IS(figures[2], 1);
    IS(figures[3], PAGES - 1);
    IS(figures[4], 3 * 16384);
    IS(figures[5], 7);
    IS(vigbuso_trace(book, words, PAGES, says, 3, blocks, 4, figures, 6, done), 0);
    IS(done[0], 3);
    /* A place that no word can name stops the trace, and releases no other. */
    IS(VIGBUSO_TRACE_RELEASE(((uint32_t)1 << 30) - 1), UINT32_C(0x7fffffff));
    const uint32_t beyond[2] = {VIGBUSO_TRACE_TAKE(45), VIGBUSO_TRACE_RELEASE((uint64_t)1 << 32)};
    IS(VIGBUSO_TRACE_RELEASE((uint32_t)1 << 30), beyond[1]);
    IS(vigbuso_trace(book, words, PAGES, beyond, 2, blocks, 4, figures, 6, done), VIGBUSO_E_STOPPED);
    IS(done[0], 1);
}

static void class_table(void) {
    uint32_t list[66];
    list[64] = list[65] = 7;
    IS(vigbuso_class_table(8, 8, 16384, 64, list, 66), VIGBUSO_E_GROWTH);
    IS(vigbuso_class_table(9, 8, 16385, 64, list, 66), VIGBUSO_E_TOP);
    IS(vigbuso_class_table(9, 8, 16384, 67, list, 66), VIGBUSO_E_SLOTS);
    IS(vigbuso_class_table(9, 8, 16384, 64, list, 66), 0);
    for (uint32_t c = 0; c < VIGBUSO_SMALL_CLASSES; c++) {
        IS(list[c], vigbuso_block_bytes(c));
    }
    IS(list[64], 7);
    IS(list[65], 7);
}

static void game(void) {
    uint32_t wins = 7;
    IS(vigbuso_asker_wins(7, 3, 6, &wins), VIGBUSO_E_GAME);
    IS(wins, 7);
    IS(vigbuso_asker_wins(3, 3, 6, &wins), 0);
    IS(wins, 1);
    IS(vigbuso_asker_wins(3, 3, 0, &wins), 0);
    IS(wins, 0);
}

/* Sizes up to 16 have 64 takes a page, 16,385 a span of three pages a take. */
static void plan(void) {
    const uint32_t sizes[3] = {0, 16385, 16}, takes[3] = {60, 2, 5};
    uint64_t total = 7;
    IS(vigbuso_plan(sizes, 3, takes, 2, &total), VIGBUSO_E_PLAN);
    IS(total, 7);
    IS(vigbuso_plan(sizes, 3, takes, 3, &total), 0);
    IS(total, 2 + 6);
}

static void short_histories(void) {
    uint32_t list[5] = {7, 7, 7, 7, 7};
    uint64_t written = 7;
    IS(vigbuso_short_histories(4, 2, list, 5, &written), VIGBUSO_E_LISTING);
    IS(vigbuso_short_histories(1, 2, list, 3, &written), VIGBUSO_E_LISTING);
    IS(list[0], 7);
    IS(written, 7);
    IS(vigbuso_short_histories(1, 2, list, 5, &written), 0);
    IS(written, 4);
    IS(list[0] == 1 && list[1] == 1 && list[2] == 1 && list[3] == 4, 1);
    IS(list[4], 7);
}

int main(void) {
    book = (uint32_t *)calloc(words, sizeof *book);
    before = (uint32_t *)calloc(words, sizeof *before);
    if (book == NULL || before == NULL) {
        return 2;
    }
    lookups();
    block_bytes();
    texts();
    opening();
    small_blocks();
    medium_blocks();
    runs();
    report();
    chunks();
    pool();
    trace();
    class_table();
    game();
    plan();
    short_histories();
    rules();
    nothing_parked();
    release_all();
    runs_of_classes();
    nothing_lent();
    granted_and_released();
    freed_and_released();
    taken_and_freed();
    never_opened();
    free(before);
    free(book);
    printf("%d differences\n", differences);
    return differences != 0;
}
