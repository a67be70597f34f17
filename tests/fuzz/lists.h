/* Lists between pages that cannot be touched. */
#include <stdint.h>
#include <stdlib.h>
#include <sys/mman.h>

enum { PAGE = 4096, ROOM = 8 * PAGE, MARGIN = 32, CONTROL = 32, MOST_PLACES = 4096, MOST_STARTS = 500 };
enum { MOST_FILE = ROOM - MARGIN };

struct list {
    uint8_t *room; /* ROOM bytes */
    uint8_t *start;
    size_t bytes;
};
enum {
    FILE_LIST, NUMBERS, START, TABLE, JUDGE_TABLE, OUT, JUDGE_OUT, LINE, JUDGE_LINE, PAIRS, JUDGE_PAIRS, ORDER,
    JUDGE_ORDER, OUTPUT, JUDGE_OUTPUT, NAME, METRICS, TRACE, STRINGS, VOLUMES, RECORDING, TIMES, BOARDS, WORK, JUDGE_WORK,
    ANSWERS, JUDGE_ANSWERS, LINES, HASHES, YEAR_ANSWERS, ROWS, JUDGE_ROWS, WIDE_PAIRS, JUDGE_WIDE_PAIRS, PIECE, LISTS
};
static struct list lists[LISTS];
static int empty_pointer;

static void make_lists(void) {
    for (int i = 0; i < LISTS; i++) {
        uint8_t *all = mmap(NULL, ROOM + 2 * PAGE, PROT_NONE, MAP_PRIVATE | MAP_ANONYMOUS, -1, 0);
        if (all == MAP_FAILED || mprotect(all + PAGE, ROOM, PROT_READ | PROT_WRITE)) abort();
        lists[i].room = all + PAGE;
    }
}

/* At the front of the room or at its end. */
static void lay(struct list *list, size_t bytes, int at_front) {
    list->bytes = bytes;
    list->start = at_front ? list->room : list->room + ROOM - bytes;
}

/* The bytes of a list, and those beside it that are no part of it. */
static uint8_t *around(const struct list *list) {
    return list->start == list->room ? list->start : list->start - MARGIN;
}

static void *pointer(const struct list *list) {
    if (list->bytes) return list->start;
    switch (empty_pointer) {
    case 1: return (void *)1;
    case 2: return list->room + ROOM;
    default: return NULL;
    }
}

static uint64_t noise_state;
static uint8_t noise(void) {
    noise_state = noise_state * 6364136223846793005u + 1442695040888963407u;
    return noise_state >> 56;
}

/* The same noise in both and beside both. */
static void lay_pair(int one, int other, size_t bytes, int at_front) {
    lay(&lists[one], bytes, at_front);
    lay(&lists[other], bytes, at_front);
    uint8_t *a = around(&lists[one]), *b = around(&lists[other]);
    for (size_t i = 0; i < bytes + MARGIN; i++) a[i] = b[i] = noise();
}
