/*
 * Vigbuso's block heap, for C.
 *
 * Link libvigbuso.a: a release has it in lib/, `package/archive` writes it to target/staticlib/. docs/CALLS.md describes the
 * calls; document 01, the paper that it cites, states their rules.
 *
 * The book is a slice of 32-bit words that the caller lends to every call: a pointer, then a length in words of at least
 * VIGBUSO_BOOK_WORDS(pages). The heap keeps all that it knows there and nothing elsewhere. It never reads or writes the
 * arena's bytes, so they may stand anywhere. A book that was never opened, or opened by an archive of another layout, is refused: as 13 where
 * no earlier number applies.
 *
 * Blocks in batches (takes and releases), blocks one by one (the pool) and pages by hand (vigbuso_commit) may be mixed on one book in
 * any way. Whatever the order of the calls, no two blocks or pages that are out share a byte.
 *
 * vigbuso_size_class, vigbuso_contains, vigbuso_class_of, vigbuso_granted and vigbuso_stocked return their answer. Every other call of the archive
 * returns 0 if it was carried out, otherwise the number of its refusal (enum vigbuso_refusal); the first that applies is returned. A refused call leaves the book, every
 * list and every out-parameter as they were; only a trace that stopped (16) leaves what its earlier words did.
 *
 * Any number, any list and any book is accepted. A list or book of length 0 may be NULL; an out-parameter may not. What a call is
 * lent must not overlap, and nobody else may write it during the call. No function keeps a pointer, allocates or blocks.
 */
#ifndef VIGBUSO_H
#define VIGBUSO_H

#include <stddef.h>
#include <stdint.h>

#ifdef __cplusplus
extern "C" {
#endif

/* The version of this header and of the archive that it is for. */
#define VIGBUSO_VERSION_MAJOR 0
#define VIGBUSO_VERSION_MINOR 7
#define VIGBUSO_VERSION_PATCH 0
#define VIGBUSO_VERSION "0.7.0"

/*
 * The number of the calls' form and of the book's words. It changes when a program or a book of before would be misread, and with
 * it the name below, which is no call and returns the number. Every file that includes this header refers to that name, so that no
 * archive of another number links.
 */
#define VIGBUSO_ABI 7u
uint32_t vigbuso_abi_7(void);

/* The reference. It is kept by a compiler that finds it unused, and by a linker that drops sections (retain). */
#if defined(__GNUC__)
#if defined(__has_attribute)
#if __has_attribute(retain)
#define VIGBUSO_KEPT_BY_THE_LINKER __attribute__((used, retain))
#endif
#endif
#ifndef VIGBUSO_KEPT_BY_THE_LINKER
#define VIGBUSO_KEPT_BY_THE_LINKER __attribute__((used))
#endif
static uint32_t (*const vigbuso_abi)(void) VIGBUSO_KEPT_BY_THE_LINKER = vigbuso_abi_7;
#undef VIGBUSO_KEPT_BY_THE_LINKER
#endif

/* Bytes of a page, and of a granule: every block starts at a multiple of it. */
#define VIGBUSO_PAGE_BYTES 65536u
#define VIGBUSO_GRANULE_BYTES 16u

/* The most pages of an arena. */
#define VIGBUSO_MAX_PAGES 1048576u

/* Words that a book for an arena of so many pages has at least. */
#define VIGBUSO_BOOK_WORDS(pages) ((size_t)40000 + (size_t)4112 * (size_t)(pages))

/* Small classes are 0 to 63, medium ones 0 to 11. */
#define VIGBUSO_SMALL_CLASSES 64u
#define VIGBUSO_MEDIUM_CLASSES 12u

/* The pool's calls number all classes: 0 to 63 small, then 64 to 75 medium. */
#define VIGBUSO_CLASSES 76u

/* The most blocks of one take: the length of a list that is long enough for every class. */
#define VIGBUSO_BATCH 64u

/* The most chunks (document 01's groups) of a release by chunks. */
#define VIGBUSO_MAX_CHUNKS 2056u

/* Words of a row of parking rules, and the most that a limit in it may be. */
#define VIGBUSO_ROW 4u
#define VIGBUSO_LIMIT 256u

/* The one row with which no class keeps a run whose blocks are all back, so that its pages serve every class:
 * const uint32_t row[VIGBUSO_ROW] = VIGBUSO_NOTHING_PARKED; */
#define VIGBUSO_NOTHING_PARKED {0u, VIGBUSO_SMALL_CLASSES + VIGBUSO_MEDIUM_CLASSES - 1u, 0u, 0u}

/* How many figures vigbuso_report writes. */
#define VIGBUSO_FIGURES 6u

/* What vigbuso_commit writes as first page for none. */
#define VIGBUSO_NO_PAGE UINT32_MAX

/*
 * The host word: what the system answers within one call. An arena in plain memory, of which nothing is ever discarded, is
 * VIGBUSO_HOST_GRANTED. VIGBUSO_HOST_ALL promises that the caller discards each page which goes cold and that it reads as
 * zeroes then. With 0 the first take or commit disables the arena for good.
 */
enum vigbuso_host {
    VIGBUSO_HOST_RESERVATION = 1, /* the arena's reservation is granted */
    VIGBUSO_HOST_COMMIT = 2,      /* a commit of pages is granted */
    VIGBUSO_HOST_DISCARD = 4,     /* a discard is done */
    VIGBUSO_HOST_ZEROES = 8,      /* a done discard leaves zeroes */
    VIGBUSO_HOST_GRANTED = 3,     /* reservation and commits are granted, nothing is discarded */
    VIGBUSO_HOST_ALL = 15         /* everything is granted, and discards leave zeroes */
};

/* A block or a chunk is named by a word of 64 bits, with its kind in the top two. A block word has its first granule, counted from
 * the arena's start, in the low 62; a chunk word has a count in the 12 below the kind and a page in the low 50. Every bit counts: a
 * block or page beyond the arena is refused, not cut. */
enum vigbuso_kind { VIGBUSO_NONE = 0, VIGBUSO_SMALL = 1, VIGBUSO_MEDIUM = 2, VIGBUSO_CHUNK = 3 };

#define VIGBUSO_KIND(word) ((uint32_t)((uint64_t)(word) >> 62))

/* The first granule of a block, counted from the arena's start. */
#define VIGBUSO_GRANULE(word) ((uint64_t)(word) & (UINT64_MAX >> 2))

/* The first byte of a block that was handed out, counted from the arena's start. */
#define VIGBUSO_BYTE_OFFSET(word) (VIGBUSO_GRANULE(word) * VIGBUSO_GRANULE_BYTES)

/* The page of a block's first byte. */
#define VIGBUSO_PAGE(word) (VIGBUSO_GRANULE(word) / (VIGBUSO_PAGE_BYTES / VIGBUSO_GRANULE_BYTES))

/* The word of a chunk of count blocks on a page. */
#define VIGBUSO_CHUNK_WORD(count, page) (((uint64_t)VIGBUSO_CHUNK << 62) | ((uint64_t)(count) << 50) | (uint64_t)(page))

/* What a release did with the page or span; VIGBUSO_RETIRED is added to the fate of a chunk that returned all blocks which
 * its page had out. */
enum vigbuso_fate { VIGBUSO_KEPT = 0, VIGBUSO_COLD = 1, VIGBUSO_TO_ARENA = 2, VIGBUSO_RETIRED = 4 };

/* Numbers of refusals, in checking order; vigbuso_refusal_text says what each means. 13 stands twice in that order: in a release by list or
 * by chunks a word of marks that is not 0 comes between 9 and 15, every other book word last, the book's format among them (a trim tests the format, COUNT and its top entry before 10). */
enum vigbuso_refusal {
    VIGBUSO_E_ARENA_LENGTH = 1,
    VIGBUSO_E_BOOK_TOO_SHORT = 2,
    VIGBUSO_E_ROWS = 19,
    VIGBUSO_E_TWO_ROWS = 18,
    VIGBUSO_E_NO_ROW = 17,
    VIGBUSO_E_PLAN = 14,
    VIGBUSO_E_STOPPED = 16,
    VIGBUSO_E_LISTING = 20,
    VIGBUSO_E_GAME = 21,
    VIGBUSO_E_GROWTH = 22,
    VIGBUSO_E_TOP = 23,
    VIGBUSO_E_SLOTS = 24,
    VIGBUSO_E_HOST_WORD = 3,
    VIGBUSO_E_CLASS = 4,
    VIGBUSO_E_LIST_TOO_SHORT = 5,
    VIGBUSO_E_RUN_LENGTH = 6,
    VIGBUSO_E_EMPTY_LIST = 7,
    VIGBUSO_E_CHUNKS = 8,
    VIGBUSO_E_WRONG_KIND = 9,
    VIGBUSO_E_REPEATED = 15,
    VIGBUSO_E_NOT_OUT = 10,
    VIGBUSO_E_OTHER_PAGE = 11,
    VIGBUSO_E_NOT_HELD = 12,
    VIGBUSO_E_BOOK_WORD = 13
};

/* What the number that a call returned means. */
static inline const char *vigbuso_refusal_text(uint32_t number) {
    switch (number) {
    case 1:
        return "the arena length, given at opening or stored as the book's first word, is 0 (an empty book reads so) or "
               "above 1,048,576";
    case 2:
        return "the book is too short";
    case 3:
        return "the host word exceeds 15";
    case 4:
        return "the class is 64 or more, medium 12 or more, of the pool 76 or more";
    case 5:
        return "the list lent to a take is shorter than 64, medium than one span's blocks";
    case 6:
        return "a run has 0 pages or 2^48 or more, or growth isn't to more pages";
    case 7:
        return "the list of blocks or of chunks is empty";
    case 8:
        return "there are more than 2,056 chunks, or fewer fates than chunks";
    case 9:
        return "a word has the wrong kind";
    case 10:
        return "a block is not out in this class";
    case 11:
        return "a block is on another page or span than the first; for chunks, a page twice, a count 0 or not the list's, "
               "a page missing";
    case 12:
        return "the run handed to release or to growth isn't wholly held by the direct calls";
    case 13:
        return "the book is of another format, another word of it that the call reads is out of its range, or a listed page yields "
               "no block";
    case 14:
        return "the plan is empty, has lists of unequal length or above 4,096 entries, names a size above 65,472 or has a number "
               "above 1,000,000";
    case 15:
        return "a block that is out in this class stands twice in the list";
    case 16:
        return "a word of the trace has kind 3, is a report with other bits set, names a class above 75 or a place not out, or a lent "
               "list is full";
    case 17:
        return "parking rules are given and a class has no row";
    case 18:
        return "a class has two rows";
    case 19:
        return "the list of parking rules isn't whole rows of four, a limit exceeds 256, or a row's last class is below its first "
               "or above 75";
    case 20:
        return "the listing's arena isn't 1 to 3 pages, its length is above 4, or the lent list is shorter than the listing";
    case 21:
        return "the game's pages are not 1 to 6, its live limit not 1 to the pages, or its moves above 8";
    case 22:
        return "the growth's a is not above b, b is 0, or either exceeds 1,000";
    case 23:
        return "the top is below 16, not a multiple of 16 or above 65,472";
    case 24:
        return "the slots are 0, more than the lent list or too few to reach the top";
    default:
        return number == 0 ? "carried out" : "no refusal has this number";
    }
}

/* Bytes of a small class's blocks; 0 if there is no such class. */
static inline uint32_t vigbuso_block_bytes(uint32_t size_class) {
    static const uint16_t bytes[46] = {
        16,   32,   48,   64,   80,   96,   112,  128,  144,  176,  208,  240,  272,   320,   368,   416,
        480,  544,  624,  704,  800,  912,  1040, 1184, 1344, 1520, 1712, 1936, 2192,  2480,  2800,  3152,
        3552, 4000, 4512, 5088, 5728, 6448, 7264, 8176, 9200, 10352, 11648, 13104, 14752, 16384};
    return size_class < 46u ? bytes[size_class] : size_class < VIGBUSO_SMALL_CLASSES ? 16384u : 0u;
}

/* Bytes of a medium class's blocks; 0 if there is no such class. */
static inline uint32_t vigbuso_medium_block_bytes(uint32_t size_class) {
    static const uint32_t bytes[12] = {18432, 20736, 23328, 26256, 29552, 33248,
                                       37408, 42096, 47360, 53280, 59952, 65472};
    return size_class < VIGBUSO_MEDIUM_CLASSES ? bytes[size_class] : 0u;
}

/*
 * The class for a size in bytes: the first whose blocks are not smaller, small up to 16,384 and medium up to 65,472. A larger
 * size is for vigbuso_commit.
 *   size_class  the class, 0 to 45 small or 0 to 11 medium; as it was where the size is too large
 * Returns the kind that its blocks' words have: VIGBUSO_SMALL, VIGBUSO_MEDIUM, or VIGBUSO_NONE for too large.
 */
uint32_t vigbuso_size_class(uint64_t size, uint32_t *size_class);

/* The same class by the one number that the pool and a trace have, 0 to 75; VIGBUSO_CLASSES where the size is too large. */
static inline uint32_t vigbuso_class_for_size(uint64_t size) {
    uint32_t size_class = 0;
    const uint32_t kind = vigbuso_size_class(size, &size_class);
    return kind == VIGBUSO_SMALL ? size_class : kind == VIGBUSO_MEDIUM ? VIGBUSO_SMALL_CLASSES + size_class : VIGBUSO_CLASSES;
}

/* Of a class by the one number, 0 to 75: bytes of its blocks, and pages of its runs, 1 for a small class and those of a span for a
 * medium one; 0 if there is no such class. */
static inline uint32_t vigbuso_class_bytes(uint32_t size_class) {
    return size_class < VIGBUSO_SMALL_CLASSES ? vigbuso_block_bytes(size_class)
                                              : vigbuso_medium_block_bytes(size_class - VIGBUSO_SMALL_CLASSES);
}

static inline uint32_t vigbuso_class_pages(uint32_t size_class) {
    if (size_class < VIGBUSO_SMALL_CLASSES) {
        return 1;
    }
    /* A span has a header of 64 bytes and at least 8 blocks. */
    return size_class < VIGBUSO_CLASSES ? (64u + 8u * vigbuso_class_bytes(size_class) - 1u) / VIGBUSO_PAGE_BYTES + 1u : 0u;
}

/*
 * The first page of the page or span that a block is in, whose length is vigbuso_class_pages; VIGBUSO_NO_PAGE where no block of the
 * class can start. The class is one number, 0 to 75 (vigbuso_class_of tells it). It does not say that the block is out.
 */
static inline uint32_t vigbuso_first_page(uint32_t size_class, uint64_t block) {
    const int is_small = size_class < VIGBUSO_SMALL_CLASSES;
    const uint64_t header = is_small ? 48u : 64u, bytes = vigbuso_class_bytes(size_class);
    const uint32_t pages = vigbuso_class_pages(size_class);
    uint32_t page, before;
    if (VIGBUSO_KIND(block) != (is_small ? VIGBUSO_SMALL : VIGBUSO_MEDIUM) || VIGBUSO_PAGE(block) >= VIGBUSO_MAX_PAGES) {
        return VIGBUSO_NO_PAGE;
    }
    page = (uint32_t)VIGBUSO_PAGE(block);
    /* No two blocks of a span have the same place on their pages, so at most one first page fits. */
    for (before = 0; before < pages && before <= page; before++) {
        const uint64_t place = VIGBUSO_BYTE_OFFSET(block) - (uint64_t)(page - before) * VIGBUSO_PAGE_BYTES;
        if (place >= header && (place - header) % bytes == 0 && place + bytes <= (uint64_t)pages * VIGBUSO_PAGE_BYTES) {
            return page - before;
        }
    }
    return VIGBUSO_NO_PAGE;
}

/*
 * Opens a heap on an arena of so many pages, 1 to 1,048,576. Every other call works on a book that was opened.
 *   book   book_len words, written; VIGBUSO_BOOK_WORDS(pages) at least
 *   rows   rows_len words, read: parking rules, VIGBUSO_ROW words to a row. A row has a first and a last class, small ones 0 to 63,
 *          medium ones 64 to 75, then how many empty and how many cold runs each of them keeps, 0 to VIGBUSO_LIMIT. Each class has just
 *          one row; their order is free. With none, rows_len 0, a small class keeps 4 empty and 256 cold pages, a medium one 32 empty
 *          and 256 cold spans. The empty spans of a medium class have 8 MiB at most in any case. A row is for the pool's class of
 *          that number too, which parks for itself
 * Returns 0, or 1, 2, 19, 18, 17.
 */
uint32_t vigbuso_open(uint32_t *book, size_t book_len, uint64_t pages, const uint32_t *rows, size_t rows_len);

/*
 * Asks for a run of so many pages, to be used directly.
 *   book   book_len words, written
 *   first  the run's first page, or VIGBUSO_NO_PAGE for none
 *   fresh  1 if it came from the frontier, 0 if from a hole or for none
 * Returns 0, or 1, 2, 3, 6, 13.
 */
uint32_t vigbuso_commit(uint32_t *book, size_t book_len, uint32_t host, uint64_t pages, uint32_t *first, uint32_t *fresh);

/*
 * Grows a run of old_pages from page first on to new_pages, in place.
 *   book   book_len words, written
 *   grown  1, or 0 if the run does not end at the frontier, the arena is too short or the commit is not granted
 * Returns 0, or 1, 2, 3, 6, 12, 13.
 */
uint32_t vigbuso_grow_frontier(uint32_t *book, size_t book_len, uint32_t host, uint64_t first, uint64_t old_pages,
                               uint64_t new_pages, uint32_t *grown);

/*
 * Gives a run back to the arena whose pages are all held by vigbuso_commit and vigbuso_grow_frontier.
 *   book   book_len words, written
 * Returns 0, or 1, 2, 3, 6, 12, 13.
 */
uint32_t vigbuso_release(uint32_t *book, size_t book_len, uint32_t host, uint64_t first, uint64_t pages);

/*
 * Whether length bytes from byte offset on, counted from the arena's start, are in the arena; no before the reservation,
 * where offset + length overflows, and on a book that 1, 2 or 13 would refuse.
 *   book   book_len words, read
 * Returns 1 for yes, 0 for no.
 */
uint32_t vigbuso_contains(const uint32_t *book, size_t book_len, uint64_t offset, uint64_t length);

/*
 * The arena's figures. A run whose blocks are all back is parked in its class's empty or cold store: its pages are held, and idle
 * as well. Idle are also the pages of holes and those above the frontier.
 *   book     book_len words, read
 *   figures  VIGBUSO_FIGURES numbers: commits, granted growths among them; reuses, the commits from a hole; abandoned, the runs given
 *            back that had no room among the holes, 4,096 with 65,536 pages together; pages held, idle pages, pages that are both
 * Returns 0, or 1, 2, 13.
 */
uint32_t vigbuso_report(const uint32_t *book, size_t book_len, uint64_t *figures);

/*
 * Takes up to 64 blocks of a small class.
 *   book    book_len words, written
 *   list    list_len block words, 64 at least; the first *count are written, the latest popped first, the others kept
 *   count   how many blocks came; 0 for none
 *   virgin  1 if a block came and each came from a virgin page: no block was released to it since it came from the arena, or went
 *           cold with a discard that zeroed it; else 0
 * Returns 0, or 1, 2, 3, 4, 5, 13.
 */
uint32_t vigbuso_take_blocks(uint32_t *book, size_t book_len, uint32_t size_class, uint32_t host, uint64_t *list,
                             size_t list_len, uint32_t *count, uint32_t *virgin);

/*
 * Takes up to one span's blocks, 8 to 10, of a medium class. The list needs room for one span's blocks, and a span that comes back
 * from cold is never virgin; all else as vigbuso_take_blocks.
 * Returns 0, or 1, 2, 3, 4, 5, 13.
 */
uint32_t vigbuso_medium_take_blocks(uint32_t *book, size_t book_len, uint32_t size_class, uint32_t host, uint64_t *list,
                                    size_t list_len, uint32_t *count, uint32_t *virgin);

/*
 * Releases blocks of a small class that are all on one page.
 *   book   book_len words, written
 *   list   list_len block words, read; 1 at least
 *   fate   the page's: VIGBUSO_KEPT, VIGBUSO_COLD or VIGBUSO_TO_ARENA
 * Returns 0, or 1, 2, 3, 4, 7, 9, 13 (a mark), 15, 10, 11, 13.
 */
uint32_t vigbuso_release_blocks(uint32_t *book, size_t book_len, uint32_t size_class, uint32_t host, const uint64_t *list,
                                size_t list_len, uint32_t *fate);

/*
 * Releases blocks of a medium class that are all in one span.
 *   book   book_len words, written
 *   list   list_len block words, read; 1 at least
 *   fate   the span's: VIGBUSO_KEPT, for cold too, or VIGBUSO_TO_ARENA
 * Returns 0, or 1, 2, 3, 4, 7, 9, 13 (a mark), 15, 10, 11, 13.
 */
uint32_t vigbuso_medium_release_blocks(uint32_t *book, size_t book_len, uint32_t size_class, uint32_t host,
                                       const uint64_t *list, size_t list_len, uint32_t *fate);

/*
 * Releases blocks of a small class on several pages, with a chunk for each page that tells how many of them it has.
 *   book    book_len words, written
 *   list    list_len block words, read; 1 at least
 *   chunks  chunks_len chunk words, read; 1 to 2,056
 *   fates   fates_len words, chunks_len at least; the first chunks_len are written, in the chunks' order, the others kept
 * Returns 0, or 1, 2, 3, 4, 7, 8, 9, 13 (a mark), 15, 10, 11, 13.
 */
uint32_t vigbuso_release_bin_chunks(uint32_t *book, size_t book_len, uint32_t size_class, uint32_t host,
                                    const uint64_t *list, size_t list_len, const uint64_t *chunks, size_t chunks_len,
                                    uint32_t *fates, size_t fates_len);

/* Sorts the words of a list, the least first: in place, and in n log n steps whatever the list is. */
static inline void vigbuso_sort(uint64_t *list, size_t list_len) {
    size_t heads = list_len / 2, len = list_len; /* the words from heads on are a heap: none is below its two children */
    while (len > 1) {
        size_t at, child;
        uint64_t word;
        if (heads > 0) {
            word = list[--heads];
            at = heads;
        } else {
            word = list[--len];
            list[len] = list[0];
            at = 0;
        }
        while ((child = 2 * at + 1) < len) {
            if (child + 1 < len && list[child] < list[child + 1]) {
                child++;
            }
            if (list[child] <= word) {
                break;
            }
            list[at] = list[child];
            at = child;
        }
        list[at] = word;
    }
}

/*
 * Releases blocks of one class, small or medium, wherever they are and in whatever order: the list is sorted, and goes back by a
 * call for each page or span.
 *   book        book_len words, written
 *   size_class  the class by the one number, 0 to 75
 *   list        list_len block words, sorted in place. An empty list is carried out, whatever else is given
 *   released    how many words of the sorted list, from its front, are back
 * Returns 0, or the refusal of the first page or span that was refused, 1, 2, 3, 4, 9, 13 (a mark), 15, 10, 13: of its blocks, from
 * *released on, none is back, and none of those behind them.
 */
static inline uint32_t vigbuso_release_all(uint32_t *book, size_t book_len, uint32_t size_class, uint32_t host, uint64_t *list,
                                           size_t list_len, size_t *released) {
    vigbuso_sort(list, list_len);
    *released = 0;
    while (*released < list_len) {
        const uint64_t *rest = list + *released;
        const uint32_t first = vigbuso_first_page(size_class, rest[0]);
        uint32_t fate = 0, refusal;
        size_t len = 1;
        while (len < list_len - *released && vigbuso_first_page(size_class, rest[len]) == first) {
            len++;
        }
        refusal = size_class < VIGBUSO_SMALL_CLASSES
                      ? vigbuso_release_blocks(book, book_len, size_class, host, rest, len, &fate)
                      : vigbuso_medium_release_blocks(book, book_len, size_class - VIGBUSO_SMALL_CLASSES, host, rest, len, &fate);
        if (refusal != 0) {
            return refusal;
        }
        *released += len;
    }
    return 0;
}

/*
 * The pool: one block out, one block back. It keeps a stock of blocks for each class in the book itself, and makes at most one take
 * or release for a call. Classes are 0 to 75 by one number: 0 to 63 small, 64 to 75 medium. They have the sizes of the classes that
 * takes and releases name, and yet are the pool's own, with pages of their own. So takes, releases and the pool's calls may be mixed
 * in any way, of one size too: a release of a block that vigbuso_alloc gave is refused as 10, and so is vigbuso_free of a block that
 * a take or a trace gave.
 *
 * Grants a block that nobody has.
 *   book   book_len words, written
 *   block  its word; VIGBUSO_NONE for none, where the stock is empty, no page of the class has a block and the arena has no run.
 *          Other classes may still have blocks in stock: vigbuso_trim gives them back
 * Returns 0, or 1, 2, 3, 4, 13.
 */
uint32_t vigbuso_alloc(uint32_t *book, size_t book_len, uint32_t size_class, uint32_t host, uint64_t *block);

/*
 * Takes a block back that vigbuso_alloc gave in that class and that was not given back since. Any other is refused: 9 for the
 * other kind, 10 for one that is not out, is in stock, or that a take or a trace gave.
 *   book   book_len words, written
 * Returns 0, or 1, 2, 3, 4, 9, 10, 13.
 */
uint32_t vigbuso_free(uint32_t *book, size_t book_len, uint32_t size_class, uint32_t host, uint64_t block);

/*
 * Gives one block of a class's stock back to the heap. A stock is emptied by calls until block is VIGBUSO_NONE.
 *   book   book_len words, written
 *   block  the block that went back; VIGBUSO_NONE where the stock is empty
 * Returns 0, or 1, 2, 3, 4, 13; on a damaged book alone 10.
 */
uint32_t vigbuso_trim(uint32_t *book, size_t book_len, uint32_t size_class, uint32_t host, uint64_t *block);

/*
 * The number of the class that has the page of a block's word, the heap's and the pool's alike: for vigbuso_free where the class is not
 * at hand. It does not say that the block is out, nor whose it is; of a granted one it is the class that granted it.
 *   book   book_len words, read
 * Returns 0 to 75; VIGBUSO_CLASSES, which vigbuso_free refuses as 4, where no class has the page, where it was never handed out, and on
 * a book that another call refuses as 1, 2 or, for its format or its frontier, as 13.
 */
uint32_t vigbuso_class_of(const uint32_t *book, size_t book_len, uint64_t block);

/*
 * Whether vigbuso_alloc gave the block in that class and it was not given back since: what vigbuso_free takes.
 *   book   book_len words, read
 * Returns 1 or 0; 0 on a book that another call refuses as 1, 2 or, for its format, as 13, and for VIGBUSO_CLASSES or more.
 */
uint32_t vigbuso_granted(const uint32_t *book, size_t book_len, uint32_t size_class, uint64_t block);

/*
 * How many blocks a class has in stock: so many trims empty it.
 *   book   book_len words, read
 * Returns 0 to 255; 0 on a book that another call refuses as 1, 2 or, for its format, as 13, for VIGBUSO_CLASSES or more, and where
 * the number in the book is out of its range (13).
 */
uint32_t vigbuso_stocked(const uint32_t *book, size_t book_len, uint32_t size_class);

/*
 * Opens the heap as vigbuso_open does and carries a trace out on it, with everything granted (VIGBUSO_HOST_ALL). A word of the
 * trace has its kind in the top two bits: 0 a take from the class in the low 30 bits, small ones 0 to 63, medium ones 64 to 75;
 * 1 the release of the block with that place in the order of handing out, from 0; 2 a report. Within one take the listed order
 * counts; a take that the arena cannot serve hands out nothing.
 *   book     book_len words, written
 *   trace    trace_len words of 32 bits, read: a place from 2^30 on cannot be named
 *   blocks   blocks_len block words; those of the blocks handed out are written, in order, the others kept
 *   figures  figures_len numbers; at each report five are written: blocks out, their bytes, pages held, idle pages, and the
 *            highest bytes out so far; the others kept
 *   done     3 numbers: words carried out, blocks written, figures written; for 16 too, kept for 1 and 2
 * Returns 0, or 1, 2; or 16, where the trace stopped before a word, and the book and the lists have what the earlier words did.
 */
uint32_t vigbuso_trace(uint32_t *book, size_t book_len, uint64_t pages, const uint32_t *trace, size_t trace_len,
                       uint64_t *blocks, size_t blocks_len, uint64_t *figures, size_t figures_len, uint64_t *done);

/* The words of a trace. A release names a place below 2^30; of a greater one it makes a word of kind 3, which stops the trace. It evaluates
 * its argument twice. */
#define VIGBUSO_TRACE_TAKE(size_class) ((uint32_t)(size_class))
#define VIGBUSO_TRACE_RELEASE(place) \
    ((uint64_t)(place) >> 30 ? (uint32_t)3 << 30 : ((uint32_t)1 << 30) | (uint32_t)(place))
#define VIGBUSO_TRACE_REPORT ((uint32_t)2 << 30)

/*
 * A class table from a growth rate: so many sizes in bytes, from 16 on. Each size times a is divided by b, rounded up, then up to
 * a multiple of 16, and cut at the top; the slots that remain hold the top. 9, 8, 16384, 64 is the small class table.
 *   list   list_len words, slots at least; the first slots are written, the others kept
 * Returns 0, or 22, 23, 24.
 */
uint32_t vigbuso_class_table(uint64_t a, uint64_t b, uint64_t top, uint64_t slots, uint32_t *list, size_t list_len);

/*
 * Whether an asker can break an arena of so many pages, 1 to 6, whatever the placing: in each of at most so many moves, 0 to 8, it
 * asks for a run that keeps the live pages within live, 1 to pages, or releases a run; it wins when a run has no place.
 *   wins   1 for yes, 0 for no
 * Returns 0, or 21.
 */
uint32_t vigbuso_asker_wins(uint64_t pages, uint64_t live, uint64_t moves, uint32_t *wins);

/*
 * The pages that a plan of takes needs on a newly opened heap, with every host answer granted and no release: all its takes
 * succeed, in whatever order, exactly if the arena has so many. No book is lent.
 *   sizes  sizes_len sizes in bytes, read; 1 to 4,096 of them, each at most 65,472. Several may be of one class
 *   takes  takes_len numbers, read; as many: the takes of each, 0 to 1,000,000
 *   total  the pages
 * Returns 0, or 14.
 */
uint32_t vigbuso_plan(const uint32_t *sizes, size_t sizes_len, const uint32_t *takes, size_t takes_len, uint64_t *total);

/*
 * Every history of so many direct calls, 0 to 4, on an arena of so many pages, 1 to 3, all granted: commits of 1 page up to the
 * arena's length, whether they succeed or not, and releases of one whole run still held. Each stands there once, commits before
 * releases, smaller before larger, the run committed earlier before the later. No book is lent.
 *   list     list_len words; a commit of p pages is written as p, the release of the run from the history's i-th call (from 1) as
 *            3 + i, without a mark between histories. 792 are enough for every listing; those past it are kept
 *   written  how many were written
 * Returns 0, or 20.
 */
uint32_t vigbuso_short_histories(uint64_t pages, uint64_t length, uint32_t *list, size_t list_len, uint64_t *written);

#ifdef __cplusplus
}
#endif

#endif
