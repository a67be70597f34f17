/* One input: 32 bytes of choices, then the bytes of the file. Each call goes to the library and to the judge, on lists
 * filled with the same noise; what both give back and leave behind must be the same.
 *
 *   0      the call, CALLS and above: all of them
 *   1      bits 0 to 2: file, table and out lie behind or before a page that cannot be touched; 3, 4: pointer of an empty
 *          list; 5, 6: an odd last number in the metrics and the trace of a file to be written; 7: a recording is given
 *          as bytes, eleven for each line, and catalogue lines four for each
 *   2      length of out, 0 to 3 more than the readers write
 *   3      low four bits: slots, as the file's trace count says, one fewer, one more, none, or as bytes 4, 5 say; high
 *          four: bytes of the output for a file, chosen likewise by its size. Of a replay the low four choose the places
 *          of work, by the number of starts; of a year's table, numbers of the answers
 *   4      slots, or bytes of that output, 2 bytes
 *   6      2 bytes: 0 for the whole file, else a cut behind that many bytes less one
 *   8, 16  i and k; the four fields of a line to be written; of a swap, p and the old hash; k is how many units the name
 *          of a file to be written has, to 63
 *   24     seed of the noise
 *   28     length of the output for a line, 0 to 39
 *   29     low four bits: length of the list of pairs, 0 to 15; high four: places for the order of a walk, chosen
 *          as the slots are, with bytes 4, 5 for any, or numbers for the answers of a replay or the rows of a table
 *   30     2 bytes: how many of the file's last bytes are the start of a swap or of a path search, or the starts of a
 *          replay, nine for each; what stands before them is its recording. Bits 0, 1 of i: 2, 3: half as many boards, or
 *          times. Or the starts of a year's table, five for each, behind its lines; i says how many more it has, and
 *          whether before them
 *
 * Of a replay in pieces k says how long they are, low byte first and then again, 0 for a piece of 256; bits 2, 3 of i: 1: one
 * place of work is put out of order before the last piece, 2: lines begin just below 2 to the 64, 3: with a bad line.
 *
 * A file is written from what the file says: the fields of its head, and of its sections what lies in its bytes.
 */
#define _GNU_SOURCE
#include "hivesaddle.h"
#include "lists.h"
#include "reached.h"
#include <stdio.h>
#include <stdlib.h>
#include <string.h>

/* ---- The judge: each function beside the library's of that name ---- */

uint32_t judge_read_prefix(const uint8_t *, size_t, uint32_t *, size_t, uint64_t *, size_t);
uint32_t judge_read_file(const uint8_t *, size_t, uint32_t *, size_t, uint64_t *, size_t);
uint32_t judge_walk(const uint8_t *, size_t, uint32_t *, size_t, uint32_t *, size_t, uint64_t *, size_t);
uint32_t judge_write_file(uint32_t, const uint16_t *, size_t, uint32_t, uint64_t, uint32_t, const uint32_t *, size_t,
                          const uint32_t *, size_t, const uint8_t *, size_t, const uint8_t *, size_t, uint32_t, uint32_t *,
                          size_t, uint8_t *, size_t, uint64_t *, size_t);
uint32_t judge_places(const uint8_t *, size_t, uint64_t *, size_t);
uint32_t judge_program_name(const uint8_t *, size_t, uint64_t *, size_t);
uint32_t judge_entry_name(const uint8_t *, size_t, uint64_t, uint64_t *, size_t);
uint32_t judge_volume(const uint8_t *, size_t, uint64_t, uint64_t *, size_t);
uint32_t judge_reference(const uint8_t *, size_t, uint64_t, uint64_t, uint64_t *, size_t);
uint32_t judge_find_path(const uint8_t *, size_t, uint64_t *, size_t);
uint64_t judge_list_paths(const uint8_t *, size_t, uint32_t *, size_t);
uint32_t judge_hash_xp(const uint32_t *, size_t);
uint32_t judge_hash_vista(const uint32_t *, size_t);
uint32_t judge_hash_2008(const uint32_t *, size_t);
uint32_t judge_hash_xp_bytes(const uint8_t *, size_t);
uint32_t judge_hash_vista_bytes(const uint8_t *, size_t);
uint32_t judge_hash_2008_bytes(const uint8_t *, size_t);
uint32_t judge_hash_powers(const uint32_t *, size_t);
uint32_t judge_hash_powers_bytes(const uint8_t *, size_t);
uint32_t judge_hash_swap(uint32_t, const uint32_t *, size_t, uint64_t, const uint32_t *, size_t, uint64_t *, size_t);
uint32_t judge_hash_swap_bytes(uint32_t, const uint8_t *, size_t, uint64_t, const uint8_t *, size_t, uint64_t *, size_t);
uint32_t judge_catalogue_read(const uint8_t *, size_t, uint64_t *, size_t);
uint32_t judge_catalogue_write(uint32_t, uint32_t, uint32_t, uint32_t, uint8_t *, size_t);
uint32_t judge_replay(const uint8_t *, size_t, const uint64_t *, size_t, const uint8_t *, size_t, uint32_t *, size_t,
                      uint64_t *, size_t, uint64_t *, size_t);
uint64_t judge_directories(const uint8_t *, size_t, uint64_t, uint32_t *, size_t);
uint64_t judge_references(const uint8_t *, size_t, uint64_t, uint64_t *, size_t);
uint32_t judge_entry_reference(const uint8_t *, size_t, uint64_t, uint64_t *, size_t);
uint32_t judge_find_path_from(const uint8_t *, size_t, uint64_t, const uint8_t *, size_t, uint64_t *, size_t);
uint32_t judge_cost(const uint8_t *, size_t, uint64_t *, size_t);
uint32_t judge_replay_begin(const uint64_t *, size_t, const uint8_t *, size_t, uint32_t *, size_t, uint64_t *, size_t,
                            uint64_t *, size_t);
uint32_t judge_replay_feed(uint64_t, uint64_t, const uint8_t *, size_t, const uint64_t *, size_t, const uint8_t *, size_t,
                           const uint32_t *, size_t, uint64_t *, size_t, uint64_t *, size_t);
uint32_t judge_replay_finish(uint64_t, uint64_t, uint64_t, const uint64_t *, size_t, const uint8_t *, size_t, uint32_t *,
                             size_t, uint64_t *, size_t, uint64_t *, size_t);
uint32_t judge_year_table(const uint8_t *, size_t, const uint32_t *, size_t, const uint64_t *, size_t, uint64_t *, size_t,
                          uint64_t *, size_t);

enum call {
    READ_PREFIX, READ_FILE, PROGRAM_NAME, ENTRY_NAME, VOLUME, REFERENCE, FIND_PATH, HASH_XP, HASH_VISTA, HASH_2008,
    HASH_XP_BYTES, HASH_VISTA_BYTES, HASH_2008_BYTES, CATALOGUE_READ, CATALOGUE_WRITE, PLACES, LIST_PATHS,
    HASH_POWERS, HASH_POWERS_BYTES, HASH_SWAP, HASH_SWAP_BYTES, WALK, WRITE_FILE, REPLAY, YEAR_TABLE, DIRECTORIES,
    REFERENCES, ENTRY_REFERENCE, FIND_PATH_FROM, COST, REPLAY_PIECES, CALLS
};
static const char *const names[CALLS] = {
    "read_prefix", "read_file", "program_name", "entry_name", "volume", "reference", "find_path", "hash_xp", "hash_vista",
    "hash_2008", "hash_xp_bytes", "hash_vista_bytes", "hash_2008_bytes", "catalogue_read", "catalogue_write", "places",
    "list_paths", "hash_powers", "hash_powers_bytes", "hash_swap", "hash_swap_bytes", "walk", "write_file", "replay",
    "year_table", "directories", "references", "entry_reference", "find_path_from", "cost", "replay_pieces"
};

/* ---- What has been seen, as the library answered ---- */

/* The greatest refusal number of the readers is 21, that of the walk 23. */
enum { CODES = 27, REFUSALS = 24 };
static uint64_t calls[CALLS], answers[CALLS][CODES], refusals[2][REFUSALS], accepted[2][32], numbers_found[9];
static uint64_t numbers_found_from[9];
static uint64_t walk_refusals[REFUSALS], large_totals, write_refusals[REFUSALS], written[32], readings_found, bad_later;

static void count(enum call call, uint64_t code, const uint64_t *out, size_t out_length) {
    calls[call]++;
    if ((call >= HASH_XP && call <= HASH_2008_BYTES) || call == HASH_POWERS || call == HASH_POWERS_BYTES) return;
    int lists_pairs = call == LIST_PATHS || call == DIRECTORIES || call == REFERENCES;
    if (lists_pairs && code >= CODES) code = CODES - 1; /* that many pairs, or more */
    answers[call][code]++;
    if (call == FIND_PATH && code == 1 && out_length > 1) numbers_found[out[1]]++;
    if (call == FIND_PATH_FROM && code == 1 && out_length > 1) numbers_found_from[out[1]]++;
    if (call == WALK && code == HS_REFUSED && out_length > HS_WALK_NUMBER) walk_refusals[out[HS_WALK_NUMBER]]++;
    if (call == WALK && out_length > HS_WALK_TOTAL) large_totals += out[HS_WALK_TOTAL] > UINT32_MAX;
    if (call == WRITE_FILE && code == HS_REFUSED && out_length > HS_NUMBER) write_refusals[out[HS_NUMBER]]++;
    if (call == WRITE_FILE && code == HS_ACCEPTED && out_length > HS_VERSION) written[out[HS_VERSION]]++;
    if (call == REPLAY && code == 22 && out_length > 0) bad_later += out[0] > 1;
    if (call <= READ_FILE && code == HS_REFUSED && out_length > HS_NUMBER) refusals[call][out[HS_NUMBER]]++;
    if (call <= READ_FILE && code == HS_ACCEPTED && out_length > HS_VERSION) accepted[call][out[HS_VERSION]]++;
}

static void report_year(void);
static void report_pieces(void);

static void report(void) {
    for (int call = 0; call < CALLS; call++) {
        fprintf(stderr, "seen: %s: %lu calls", names[call], calls[call]);
        for (int code = 0; code < CODES; code++)
            if (answers[call][code]) fprintf(stderr, ", %d: %lu", code, answers[call][code]);
        fputc('\n', stderr);
    }
    for (int call = READ_PREFIX; call <= READ_FILE; call++) {
        fprintf(stderr, "seen: %s: accepted", names[call]);
        for (int version = 0; version < 32; version++)
            if (accepted[call][version]) fprintf(stderr, ", version %d: %lu", version, accepted[call][version]);
        fprintf(stderr, "; refusals");
        for (int number = 0; number < REFUSALS; number++)
            if (refusals[call][number]) fprintf(stderr, ", %d: %lu", number, refusals[call][number]);
        fputc('\n', stderr);
    }
    fprintf(stderr, "seen: walk: totals past 32 bits: %lu; refusals", large_totals);
    for (int number = 0; number < REFUSALS; number++)
        if (walk_refusals[number]) fprintf(stderr, ", %d: %lu", number, walk_refusals[number]);
    fputc('\n', stderr);
    fprintf(stderr, "seen: write_file: version 17: %lu, version 23: %lu; refusals", written[17], written[23]);
    for (int number = 0; number < REFUSALS; number++)
        if (write_refusals[number]) fprintf(stderr, ", %d: %lu", number, write_refusals[number]);
    fputc('\n', stderr);
    fprintf(stderr, "seen: replay: readings found: %lu; bad lines behind the first: %lu\n", readings_found, bad_later);
    report_year();
    fprintf(stderr, "seen: find_path: by number");
    for (int number = 0; number <= 8; number++) fprintf(stderr, ", %d: %lu", number, numbers_found[number]);
    fprintf(stderr, "\nseen: find_path_from: by number");
    for (int number = 0; number <= 8; number++) fprintf(stderr, ", %d: %lu", number, numbers_found_from[number]);
    fputc('\n', stderr);
    report_pieces();
    if (!instruction_count) return;
    fprintf(stderr, "seen: %zu of %zu instructions of the library\n", reached_count, instruction_count);
    for (size_t i = 0; i < instruction_count; i++)
        if (!instructions[i].reached) fprintf(stderr, "not reached: %lx\n", (unsigned long)instructions[i].at);
}

int LLVMFuzzerInitialize(int *argc, char ***argv) {
    (void)argc, (void)argv;
    make_lists();
    const char *path = getenv("FUZZ_INSTRUCTIONS");
    if (path) set_breakpoints(path);
    atexit(report);
    return 0;
}

/* ---- The comparison ---- */

struct input {
    const uint8_t *control, *bytes;
    size_t length, out_length, places, order_length, start_length;
    uint64_t i, k;
};

static uint64_t number(const uint8_t *bytes, int width) {
    uint64_t number = 0;
    while (width--) number = 256 * number + bytes[width];
    return number;
}

static void differ(enum call call, const char *what) {
    fprintf(stderr, "difference: %s: %s\n", names[call], what);
    for (size_t j = 0; j < lists[OUT].bytes / 8; j++)
        fprintf(stderr, "  out %zu: library %lu, judge %lu\n", j, ((uint64_t *)lists[OUT].start)[j],
                ((uint64_t *)lists[JUDGE_OUT].start)[j]);
    abort();
}

static void same_list(enum call call, const char *what, int one, int other) {
    if (memcmp(around(&lists[one]), around(&lists[other]), lists[one].bytes + MARGIN)) differ(call, what);
}

/* ---- What a file is written from ---- */

/* The number at a place of the file, 0 where the file ends before it. */
static uint64_t field(const struct input *in, size_t at, int width) {
    return at + width <= in->length ? number(in->bytes + at, width) : 0;
}

/* Of so many bytes at an offset, those that lie in the file. */
static size_t within(const struct input *in, size_t offset, size_t bytes) {
    if (offset >= in->length) return 0;
    return bytes < in->length - offset ? bytes : in->length - offset;
}

static void lay_copy(int list, const uint8_t *bytes, size_t length, int at_front) {
    lay(&lists[list], length, at_front);
    if (length) memcpy(lists[list].start, bytes, length);
}

/* A section, by the fields that have its offset and its size. */
static void lay_section(int list, const struct input *in, size_t offset_field, size_t size_field) {
    size_t offset = field(in, offset_field, 4), bytes = within(in, offset, field(in, size_field, 4));
    lay_copy(list, in->bytes + offset, bytes, in->control[1] & 1);
}

/* The pair at one place of each entry, and another number where the last is to be odd. */
static void lay_pairs(int list, const struct input *in, size_t offset_field, size_t entry, size_t place, int odd) {
    size_t offset = field(in, offset_field, 4);
    size_t count = within(in, offset, field(in, offset_field + 4, 4) * entry) / entry;
    lay(&lists[list], 8 * count + (odd ? 4 : 0), in->control[1] & 1);
    uint8_t *to = lists[list].start;
    for (size_t i = 0; i < count; i++) memcpy(to + 8 * i, in->bytes + offset + i * entry + place, 8);
    if (odd) memset(to + 8 * count, in->control[24], 4);
}

static size_t entries(int list) { return lists[list].bytes / 8; }

/* The lists that a file is written from; gives the file's size. */
static size_t lay_description(const struct input *in, int is_17) {
    size_t entry = is_17 ? 20 : 32, flags = in->control[1];
    lay_copy(NAME, in->bytes + 16, within(in, 16, 2 * (in->k % 64)) & -(size_t)2, flags & 1);
    lay_pairs(METRICS, in, 84, entry, is_17 ? 8 : 12, flags & 32);
    lay_pairs(TRACE, in, 92, 12, 0, flags & 64);
    lay_section(STRINGS, in, 100, 104);
    lay_section(VOLUMES, in, 108, 116);
    return (is_17 ? 152 : 240) + entry * entries(METRICS) + 12 * entries(TRACE) + lists[STRINGS].bytes +
           lists[VOLUMES].bytes;
}

/* The file's size, one byte fewer, one more, none, or any. */
static size_t output_length(const struct input *in, size_t size) {
    if (size > MOST_FILE - 1) size = MOST_FILE - 1;
    switch (in->control[3] >> 4) {
    case 3: return size - 1;
    case 4: return size + 1;
    case 5: return 0;
    case 6: case 7: return number(in->control + 4, 2) % MOST_FILE;
    default: return size;
    }
}

static void write_both(const struct input *in, uint64_t *given, uint64_t *expected) {
    static uint8_t kept[LISTS][ROOM];
    int is_17 = field(in, 0, 4) == 17;
    size_t length = output_length(in, lay_description(in, is_17)), head = is_17 ? 120 : 128;
    lay_pair(OUTPUT, JUDGE_OUTPUT, length, in->control[1] & 4);
    for (int list = NAME; list <= VOLUMES; list++) memcpy(kept[list], lists[list].start, lists[list].bytes);
#define WRITE(function, table, output, out)                                                                                \
    function(field(in, 0, 4), pointer(&lists[NAME]), lists[NAME].bytes / 2, field(in, 76, 4), field(in, head, 8),          \
             field(in, head + 24, 4), pointer(&lists[METRICS]), lists[METRICS].bytes / 4, pointer(&lists[TRACE]),          \
             lists[TRACE].bytes / 4, pointer(&lists[STRINGS]), lists[STRINGS].bytes, pointer(&lists[VOLUMES]),             \
             lists[VOLUMES].bytes, field(in, 112, 4), pointer(&lists[table]), in->places, pointer(&lists[output]), length, \
             pointer(&lists[out]), in->out_length)
    *given = WRITE(hs_write_file, TABLE, OUTPUT, OUT);
    *expected = WRITE(judge_write_file, JUDGE_TABLE, JUDGE_OUTPUT, JUDGE_OUT);
    for (int list = NAME; list <= VOLUMES; list++)
        if (memcmp(kept[list], lists[list].start, lists[list].bytes)) differ(WRITE_FILE, "a list was changed");
}

/* ---- What is replayed ---- */

/* By some number: as it is, one fewer, one more, none, or any to the most. */
static size_t chosen(uint8_t choice, const uint8_t *control, size_t exact, size_t most) {
    switch (choice % 8) {
    case 0: case 1: case 2: return exact;
    case 3: return exact ? exact - 1 : 0;
    case 4: return exact + 1;
    case 5: return 0;
    default: return number(control + 4, 2) % (most + 1);
    }
}

/* The bytes as they are, or each eleven of them as a line of digits. */
static void lay_recording(const struct input *in, size_t bytes) {
    size_t lines = bytes / 11 < MOST_FILE / HS_READING_LINE_LENGTH ? bytes / 11 : MOST_FILE / HS_READING_LINE_LENGTH;
    if (!(in->control[1] & 128)) {
        lay_copy(RECORDING, in->bytes, bytes, in->control[1] & 1);
        return;
    }
    lay(&lists[RECORDING], lines * HS_READING_LINE_LENGTH, in->control[1] & 1);
    uint8_t *to = lists[RECORDING].start;
    for (size_t i = 0; i < 11 * lines; i++) {
        *to++ = "0123456789ABCDEF"[in->bytes[i] >> 4];
        *to++ = "0123456789ABCDEF"[in->bytes[i] & 15];
        if (i % 11 == 10) *to++ = '\n';
    }
}

/* Time and board, most significant byte first as the lines have them. Gives how many starts there are. */
static size_t lay_starts(const struct input *in, uint64_t i, const uint8_t *bytes) {
    size_t starts = in->start_length / 9 < MOST_STARTS ? in->start_length / 9 : MOST_STARTS;
    size_t times = i % 4 == 3 ? starts / 2 : starts, boards = i % 4 == 2 ? starts / 2 : starts;
    lay(&lists[TIMES], 8 * times, in->control[1] & 2);
    lay(&lists[BOARDS], boards, in->control[1] & 4);
    for (size_t k = 0; k < times; k++) {
        uint64_t time = 0;
        for (size_t j = 0; j < 8; j++) time = 256 * time + bytes[9 * k + j];
        memcpy(lists[TIMES].start + 8 * k, &time, 8);
    }
    for (size_t k = 0; k < boards; k++) lists[BOARDS].start[k] = bytes[9 * k + 8];
    return times < boards ? times : boards;
}

static void replay_both(const struct input *in, uint64_t i, uint64_t *given, uint64_t *expected) {
    static uint8_t kept[LISTS][ROOM];
    size_t recording = in->length - in->start_length, starts = lay_starts(in, i, in->bytes + recording);
    size_t work = chosen(in->control[3], in->control, starts, MOST_PLACES);
    size_t numbers = chosen(in->control[29] >> 4, in->control, 4 * starts, 4 * MOST_STARTS);
    lay_recording(in, recording);
    lay_pair(WORK, JUDGE_WORK, 4 * work, in->control[1] & 2);
    lay_pair(ANSWERS, JUDGE_ANSWERS, 8 * numbers, in->control[1] & 4);
    for (int list = RECORDING; list <= BOARDS; list++) memcpy(kept[list], lists[list].start, lists[list].bytes);
#define REPLAY_BY(function, work_list, answers_list, out)                                                                \
    function(pointer(&lists[RECORDING]), lists[RECORDING].bytes, pointer(&lists[TIMES]), lists[TIMES].bytes / 8,           \
             pointer(&lists[BOARDS]), lists[BOARDS].bytes, pointer(&lists[work_list]), work, pointer(&lists[answers_list]), \
             numbers, pointer(&lists[out]), in->out_length)
    *given = REPLAY_BY(hs_replay, WORK, ANSWERS, OUT);
    *expected = REPLAY_BY(judge_replay, JUDGE_WORK, JUDGE_ANSWERS, JUDGE_OUT);
    same_list(REPLAY, "work", WORK, JUDGE_WORK);
    same_list(REPLAY, "answers", ANSWERS, JUDGE_ANSWERS);
    for (int list = RECORDING; list <= BOARDS; list++)
        if (memcmp(kept[list], lists[list].start, lists[list].bytes)) differ(REPLAY, "a list was changed");
    for (size_t k = 0; k < starts && 4 * k + 3 < numbers; k++) readings_found += ((uint64_t *)lists[ANSWERS].start)[4 * k];
}

#include "pieces.h"
#include "year.h"

static void one_call(enum call call, const struct input *in, uint64_t i, uint64_t k) {
    int flags = in->control[1];
    size_t n = in->length, count_32 = n / 4, line = in->control[28] % 40, pairs = in->control[29] % 16;
    lay_pair(TABLE, JUDGE_TABLE, call <= READ_FILE || call == WALK || call == WRITE_FILE ? 4 * in->places : 0, flags & 2);
    lay_pair(OUT, JUDGE_OUT, 8 * in->out_length, flags & 4);
    lay_pair(LINE, JUDGE_LINE, line, flags & 4);
    lay_pair(PAIRS, JUDGE_PAIRS, 4 * pairs, flags & 2);
    lay_pair(WIDE_PAIRS, JUDGE_WIDE_PAIRS, 8 * pairs, flags & 2);
    lay_pair(ORDER, JUDGE_ORDER, call == WALK ? 4 * in->order_length : 0, flags & 4);
    lay_pair(OUTPUT, JUDGE_OUTPUT, 0, flags & 4);
    size_t start_length = in->start_length, start_count = start_length / 4;
    const uint8_t *start_bytes = in->bytes + n - start_length;
    lay(&lists[START], call == HASH_SWAP ? 4 * start_count : start_length, flags & 1);
    memcpy(lists[START].start, start_bytes, lists[START].bytes);
    const uint8_t *file = pointer(&lists[FILE_LIST]);
    const uint32_t *numbers = pointer(&lists[NUMBERS]);
    uint32_t *table = pointer(&lists[TABLE]), *judge_table = pointer(&lists[JUDGE_TABLE]);
    uint64_t *out = pointer(&lists[OUT]), *judge_out = pointer(&lists[JUDGE_OUT]);
    size_t o = in->out_length, p = in->places, w = in->order_length;
    uint64_t given = 0, expected = 0;
    switch (call) {
    case READ_PREFIX:
        given = hs_read_prefix(file, n, table, p, out, o);
        expected = judge_read_prefix(file, n, judge_table, p, judge_out, o);
        break;
    case READ_FILE:
        given = hs_read_file(file, n, table, p, out, o);
        expected = judge_read_file(file, n, judge_table, p, judge_out, o);
        break;
    case PROGRAM_NAME:
        given = hs_program_name(file, n, out, o);
        expected = judge_program_name(file, n, judge_out, o);
        break;
    case ENTRY_NAME:
        given = hs_entry_name(file, n, i, out, o);
        expected = judge_entry_name(file, n, i, judge_out, o);
        break;
    case VOLUME:
        given = hs_volume(file, n, i, out, o);
        expected = judge_volume(file, n, i, judge_out, o);
        break;
    case REFERENCE:
        given = hs_reference(file, n, i, k, out, o);
        expected = judge_reference(file, n, i, k, judge_out, o);
        break;
    case FIND_PATH:
        given = hs_find_path(file, n, out, o);
        expected = judge_find_path(file, n, judge_out, o);
        break;
    case HASH_XP:
        given = hs_hash_xp(numbers, count_32);
        expected = judge_hash_xp(numbers, count_32);
        break;
    case HASH_VISTA:
        given = hs_hash_vista(numbers, count_32);
        expected = judge_hash_vista(numbers, count_32);
        break;
    case HASH_2008:
        given = hs_hash_2008(numbers, count_32);
        expected = judge_hash_2008(numbers, count_32);
        break;
    case HASH_XP_BYTES:
        given = hs_hash_xp_bytes(file, n);
        expected = judge_hash_xp_bytes(file, n);
        break;
    case HASH_VISTA_BYTES:
        given = hs_hash_vista_bytes(file, n);
        expected = judge_hash_vista_bytes(file, n);
        break;
    case HASH_2008_BYTES:
        given = hs_hash_2008_bytes(file, n);
        expected = judge_hash_2008_bytes(file, n);
        break;
    case CATALOGUE_READ:
        given = hs_catalogue_read(file, n, out, o);
        expected = judge_catalogue_read(file, n, judge_out, o);
        break;
    case CATALOGUE_WRITE:
        given = hs_catalogue_write(i, i >> 32, k, k >> 32, pointer(&lists[LINE]), line);
        expected = judge_catalogue_write(i, i >> 32, k, k >> 32, pointer(&lists[JUDGE_LINE]), line);
        break;
    case PLACES:
        given = hs_places(file, n, out, o);
        expected = judge_places(file, n, judge_out, o);
        break;
    case LIST_PATHS:
        given = hs_list_paths(file, n, pointer(&lists[PAIRS]), pairs);
        expected = judge_list_paths(file, n, pointer(&lists[JUDGE_PAIRS]), pairs);
        break;
    case HASH_POWERS:
        given = hs_hash_powers(numbers, count_32);
        expected = judge_hash_powers(numbers, count_32);
        break;
    case HASH_POWERS_BYTES:
        given = hs_hash_powers_bytes(file, n);
        expected = judge_hash_powers_bytes(file, n);
        break;
    case HASH_SWAP:
        given = hs_hash_swap(k, numbers, count_32, i, pointer(&lists[START]), start_count, out, o);
        expected = judge_hash_swap(k, numbers, count_32, i, pointer(&lists[START]), start_count, judge_out, o);
        break;
    case HASH_SWAP_BYTES:
        given = hs_hash_swap_bytes(k, file, n, i, pointer(&lists[START]), start_length, out, o);
        expected = judge_hash_swap_bytes(k, file, n, i, pointer(&lists[START]), start_length, judge_out, o);
        break;
    case WALK:
        given = hs_walk(file, n, table, p, pointer(&lists[ORDER]), w, out, o);
        expected = judge_walk(file, n, judge_table, p, pointer(&lists[JUDGE_ORDER]), w, judge_out, o);
        break;
    case WRITE_FILE: write_both(in, &given, &expected); break;
    case REPLAY: replay_both(in, i, &given, &expected); break;
    case YEAR_TABLE: year_both(in, i, &given, &expected); break;
    case DIRECTORIES:
        given = hs_directories(file, n, i, pointer(&lists[PAIRS]), pairs);
        expected = judge_directories(file, n, i, pointer(&lists[JUDGE_PAIRS]), pairs);
        break;
    case REFERENCES:
        given = hs_references(file, n, i, pointer(&lists[WIDE_PAIRS]), pairs);
        expected = judge_references(file, n, i, pointer(&lists[JUDGE_WIDE_PAIRS]), pairs);
        break;
    case ENTRY_REFERENCE:
        given = hs_entry_reference(file, n, i, out, o);
        expected = judge_entry_reference(file, n, i, judge_out, o);
        break;
    case FIND_PATH_FROM:
        given = hs_find_path_from(file, n, i, pointer(&lists[START]), start_length, out, o);
        expected = judge_find_path_from(file, n, i, pointer(&lists[START]), start_length, judge_out, o);
        break;
    case COST:
        given = hs_cost(file, n, out, o);
        expected = judge_cost(file, n, judge_out, o);
        break;
    case REPLAY_PIECES: pieces_both(in, i, k, &given, &expected); break;
    default: abort();
    }
    if (given != expected) {
        fprintf(stderr, "library %lu, judge %lu\n", given, expected);
        differ(call, "answer");
    }
    same_list(call, "out", OUT, JUDGE_OUT);
    same_list(call, "predecessors", TABLE, JUDGE_TABLE);
    same_list(call, "line", LINE, JUDGE_LINE);
    same_list(call, "pairs", PAIRS, JUDGE_PAIRS);
    same_list(call, "wide pairs", WIDE_PAIRS, JUDGE_WIDE_PAIRS);
    same_list(call, "order", ORDER, JUDGE_ORDER);
    same_list(call, "output", OUTPUT, JUDGE_OUTPUT);
    if (n && memcmp(lists[FILE_LIST].start, in->bytes, n)) differ(call, "the file was changed");
    if (count_32 && memcmp(lists[NUMBERS].start, in->bytes, 4 * count_32)) differ(call, "the numbers were changed");
    if (start_length && memcmp(lists[START].start, start_bytes, lists[START].bytes)) differ(call, "the start was changed");
    count(call, given, out, o);
}

/* The index given, small ones, and ones that come back to them in 32 bits or in a product of 64. */
static void all_calls(const struct input *in) {
    const uint64_t indexes[] = {in->i, 0, 1, 2, in->i + (1ull << 32), UINT64_MAX, UINT64_MAX / 32 + 1};
    for (enum call call = 0; call < CALLS; call++) {
        one_call(call, in, in->i, in->k);
        if (call == HASH_SWAP || call == HASH_SWAP_BYTES) {
            size_t length = call == HASH_SWAP ? in->length / 4 : in->length;
            one_call(call, in, in->i % (length + 1), in->k);
            one_call(call, in, length, in->k);
            one_call(call, in, length + 1, in->k);
        }
        int of_the_new = call >= DIRECTORIES && call <= FIND_PATH_FROM;
        if ((call < ENTRY_NAME || call > REFERENCE) && !of_the_new) continue;
        for (size_t a = 0; a < sizeof indexes / sizeof *indexes; a++) {
            one_call(call, in, indexes[a], in->k);
            if (call == REFERENCE) one_call(call, in, in->k % 4, indexes[a]);
        }
    }
}

int LLVMFuzzerTestOneInput(const uint8_t *data, size_t size) {
    uint8_t control[CONTROL] = {0};
    size_t head = size < CONTROL ? size : CONTROL;
    if (size - head > MOST_FILE) return 0;
    memcpy(control, data, head);
    struct input in = {.control = control, .bytes = data + head, .length = size - head};
    size_t cut = number(control + 6, 2);
    if (cut && cut - 1 < in.length) in.length = cut - 1;
    in.out_length = control[2] % (HS_READER_OUT + 4);
    size_t traces = in.length >= 100 ? number(in.bytes + 96, 4) : 0;
    if (traces > MOST_PLACES) traces = MOST_PLACES;
    in.places = chosen(control[3], control, traces, MOST_PLACES);
    in.order_length = chosen(control[29] >> 4, control, traces, MOST_PLACES);
    in.i = number(control + 8, 8);
    in.k = number(control + 16, 8);
    in.start_length = number(control + 30, 2) % (in.length + 1);
    noise_state = number(control + 24, 4);
    empty_pointer = control[1] >> 3 & 3;
    lay(&lists[FILE_LIST], in.length, control[1] & 1);
    lay(&lists[NUMBERS], in.length / 4 * 4, control[1] & 1);
    memcpy(lists[FILE_LIST].start, in.bytes, in.length);
    memcpy(lists[NUMBERS].start, in.bytes, in.length / 4 * 4);
    if (control[0] < CALLS) one_call(control[0], &in, in.i, in.k);
    else all_calls(&in);
    return 0;
}
