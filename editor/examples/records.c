/* Records of any length in one arena: the pool says where each stands, and the bytes are the program's own. */
#include <stdio.h>
#include <stdlib.h>
#include <string.h>

#include "vigbuso.h"

enum { PAGES = 16, HOST = VIGBUSO_HOST_GRANTED, WORDS = VIGBUSO_BOOK_WORDS(PAGES) };
static char arena[PAGES * VIGBUSO_PAGE_BYTES];
static uint32_t book[WORDS];

/* Ends the program with what a refusal means. */
static void must(uint32_t refusal) {
    if (refusal != 0) {
        fprintf(stderr, "%s\n", vigbuso_refusal_text(refusal));
        exit(1);
    }
}

static char *text_of(uint64_t block) { return arena + VIGBUSO_BYTE_OFFSET(block); }

/* A block that has the text; VIGBUSO_NONE if the arena is full. */
static uint64_t put(const char *text) {
    uint64_t block = VIGBUSO_NONE;
    must(vigbuso_alloc(book, WORDS, vigbuso_class_for_size(strlen(text) + 1), HOST, &block));
    if (block != VIGBUSO_NONE) { strcpy(text_of(block), text); }
    return block;
}

static uint32_t drop(uint64_t block) { return vigbuso_free(book, WORDS, vigbuso_class_of(book, WORDS, block), HOST, block); }

int main(void) {
    must(vigbuso_open(book, WORDS, PAGES, NULL, 0));
    const uint64_t clue = put("Keeps bees (8)"), answer = put("APIARIST");
    if (clue == VIGBUSO_NONE || answer == VIGBUSO_NONE) { return 1; }
    printf("%s: %s\n", text_of(clue), text_of(answer));
    must(drop(clue));
    printf("dropped again: %s\n", vigbuso_refusal_text(drop(clue)));
    return 0;
}
