/* stack FILE..
 *
 * Runs every call of the library on a stack of its own that was filled with a pattern, and shows the deepest byte that
 * was changed, less what a call that does nothing changes. The greatest over all files is shown for each function.
 */
#include <stdio.h>
#include <stdlib.h>
#include <string.h>
#include <ucontext.h>

#include "hivesaddle.h"

/* The deepest call keeps the sums of the year's 1,024 hashes there. */
#define STACK_BYTES 262144
#define PATTERN 0xA5

static _Alignas(64) unsigned char stack[STACK_BYTES];
static uint8_t *file;
static size_t length, places;
static uint32_t *predecessors, *order;
static uint64_t out[HS_READER_OUT];
static uint32_t numbers[1000], pairs[64];
static uint64_t wide_pairs[64];
static uint8_t line[HS_CATALOGUE_LINE_LENGTH];
static const uint16_t name[] = {65, 66, 67};
static uint32_t *metrics, *trace;
static size_t metrics_length, trace_length, output_length;
static uint8_t *output;

/* Starts of all boards, and readings of them out of order; the last line is bad in every other call. */
#define STARTS 300
#define READINGS 700
static uint64_t times[STARTS], answers[HS_ANSWER_LENGTH * STARTS];
static uint8_t boards[STARTS], recording[READINGS * HS_READING_LINE_LENGTH + 1];
static uint32_t work[STARTS];
static size_t recording_length;

/* As many hashes as a table has, of lines and of starts out of order; every other call has one more. */
#define LINES 900
#define YEAR_STARTS 2000
static uint8_t lines[LINES * HS_CATALOGUE_LINE_LENGTH + 1];
static uint32_t hashes[YEAR_STARTS];
static uint64_t year_answers[HS_ANSWER_LENGTH * YEAR_STARTS], rows[HS_YEAR_ROW_LENGTH * HS_YEAR_MOST_ROWS];
static size_t year_starts;

static volatile uint32_t answer;

/* A call through a pointer, with the arguments of a reader. Those that another call has on the stack count as its own. */
static uint32_t nothing(const uint8_t *a, size_t b, uint32_t *c, size_t d, uint64_t *e, size_t f)
{
    (void)a, (void)b, (void)c, (void)d, (void)e, (void)f;
    return 0;
}

/* The number at a place of the file, 0 where the file ends before it. */
static uint32_t number(size_t at)
{
    return at + 4 > length ? 0 : file[at] | file[at + 1] << 8 | file[at + 2] << 16 | (uint32_t)file[at + 3] << 24;
}

/* A part of the file, as long as it is or empty where it does not lie in it. */
static size_t part(size_t start, size_t bytes)
{
    return start > length || bytes > length - start ? 0 : bytes;
}

/* The pairs of an array whose offset and count stand in the head, for hs_write_file; how many numbers they are. */
static size_t pairs_of(uint32_t *list, size_t field, size_t entry, size_t place)
{
    size_t start = number(field), count = part(start, number(field + 4) * entry) / entry;
    for (size_t i = 0; i < count; i++) {
        list[2 * i] = number(start + i * entry + place);
        list[2 * i + 1] = number(start + i * entry + place + 4);
    }
    return 2 * count;
}

static uint32_t (*volatile nothing_called)(const uint8_t *, size_t, uint32_t *, size_t, uint64_t *, size_t) = nothing;

static void call_nothing(void) { answer = nothing_called(file, length, predecessors, places, out, HS_READER_OUT); }
static void read_file(void) { answer = hs_read_file(file, length, predecessors, places, out, HS_READER_OUT); }
static void read_prefix(void) { answer = hs_read_prefix(file, length, predecessors, places, out, HS_READER_OUT); }
static void walk(void) { answer = hs_walk(file, length, predecessors, places, order, places, out, HS_WALK_OUT); }
static void write_file(void)
{
    size_t strings = part(number(100), number(104)), volumes = part(number(108), number(116));
    answer = hs_write_file(number(0), name, 3, 1, 2, 3, metrics, metrics_length, trace, trace_length,
                           strings ? file + number(100) : file, strings, volumes ? file + number(108) : file, volumes,
                           number(112), predecessors, places, output, output_length, out, HS_READER_OUT);
}
static void places_needed(void) { answer = hs_places(file, length, out, HS_READER_OUT); }
static void find_path(void) { answer = hs_find_path(file, length, out, HS_READER_OUT); }
static void list_paths(void) { answer = (uint32_t)hs_list_paths(file, length, pairs, 64); }
static void program_name(void) { answer = hs_program_name(file, length, out, HS_READER_OUT); }
static void entry_name(void) { answer = hs_entry_name(file, length, 1, out, HS_READER_OUT); }
static void volume(void) { answer = hs_volume(file, length, 1, out, HS_READER_OUT); }
static void reference(void) { answer = hs_reference(file, length, 1, 0, out, HS_READER_OUT); }
static void entry_reference(void) { answer = hs_entry_reference(file, length, 1, out, HS_READER_OUT); }
static void directories(void) { answer = (uint32_t)hs_directories(file, length, 0, pairs, 64); }
static void references(void) { answer = (uint32_t)hs_references(file, length, 0, wide_pairs, 64); }
static void find_path_from(void) { answer = hs_find_path_from(file, length, 0, (const uint8_t *)name, 6, out, HS_READER_OUT); }
static void cost(void) { answer = hs_cost(file, length, out, HS_READER_OUT); }
static void interface(void) { answer = hs_interface(); }
static void hash_xp(void) { answer = hs_hash_xp(numbers, 1000); }
static void hash_vista(void) { answer = hs_hash_vista(numbers, 1000); }
static void hash_2008(void) { answer = hs_hash_2008(numbers, 1000); }
static void hash_xp_bytes(void) { answer = hs_hash_xp_bytes(file, length); }
static void hash_vista_bytes(void) { answer = hs_hash_vista_bytes(file, length); }
static void hash_2008_bytes(void) { answer = hs_hash_2008_bytes(file, length); }
static void hash_powers(void) { answer = hs_hash_powers(numbers, 1000); }
static void hash_powers_bytes(void) { answer = hs_hash_powers_bytes(file, length < 1000 ? length : 1000); }
static void hash_swap(void) { answer = hs_hash_swap(1, numbers, 1000, 46, numbers, 48, out, HS_READER_OUT); }
static void hash_swap_bytes(void) { answer = hs_hash_swap_bytes(1, file, length, 46, file, 48, out, HS_READER_OUT); }
static void replay(void)
{
    answer = hs_replay(recording, recording_length, times, STARTS, boards, STARTS, work, STARTS, answers,
                       HS_ANSWER_LENGTH * STARTS, out, HS_READER_OUT);
}
static void replay_in_blocks(void)
{
    answer = hs_replay(recording, recording_length, times, STARTS, boards, STARTS, work, STARTS / 7, answers,
                       HS_ANSWER_LENGTH * STARTS, out, HS_READER_OUT);
}
static void replay_begin(void)
{
    answer = hs_replay_begin(times, STARTS, boards, STARTS, work, STARTS, answers, HS_ANSWER_LENGTH * STARTS, out,
                             HS_READER_OUT);
}
/* Behind hs_replay_begin, and before hs_replay_finish, as the table has them. */
static void replay_feed(void)
{
    answer = hs_replay_feed(0, 0, recording, recording_length, times, STARTS, boards, STARTS, work, STARTS, answers,
                            HS_ANSWER_LENGTH * STARTS, out, HS_READER_OUT);
}
static void replay_finish(void)
{
    answer = hs_replay_finish(0, 0, recording_length % HS_READING_LINE_LENGTH, times, STARTS, boards, STARTS, work, STARTS,
                              answers, HS_ANSWER_LENGTH * STARTS, out, HS_READER_OUT);
}
static void year_table(void)
{
    answer = hs_year_table(lines, LINES * HS_CATALOGUE_LINE_LENGTH, hashes, year_starts, year_answers,
                           HS_ANSWER_LENGTH * YEAR_STARTS, rows, HS_YEAR_ROW_LENGTH * HS_YEAR_MOST_ROWS, out, HS_READER_OUT);
}
static void catalogue_write(void) { answer = hs_catalogue_write(148, 65, 1, 17, line, sizeof line); }
static void catalogue_read(void) { answer = hs_catalogue_read(line, sizeof line, out, HS_READER_OUT); }

static struct {
    const char *name;
    void (*call)(void);
    size_t bytes;
} calls[] = {
    {"a call that does nothing", call_nothing, 0},
    {"hs_read_prefix", read_prefix, 0},
    {"hs_read_file", read_file, 0},
    {"hs_walk", walk, 0},
    {"hs_write_file", write_file, 0},
    {"hs_places", places_needed, 0},
    {"hs_program_name", program_name, 0},
    {"hs_entry_name", entry_name, 0},
    {"hs_volume", volume, 0},
    {"hs_reference", reference, 0},
    {"hs_find_path", find_path, 0},
    {"hs_list_paths", list_paths, 0},
    {"hs_entry_reference", entry_reference, 0},
    {"hs_directories", directories, 0},
    {"hs_references", references, 0},
    {"hs_find_path_from", find_path_from, 0},
    {"hs_cost", cost, 0},
    {"hs_interface", interface, 0},
    {"hs_hash_xp", hash_xp, 0},
    {"hs_hash_vista", hash_vista, 0},
    {"hs_hash_2008", hash_2008, 0},
    {"hs_hash_xp_bytes", hash_xp_bytes, 0},
    {"hs_hash_vista_bytes", hash_vista_bytes, 0},
    {"hs_hash_2008_bytes", hash_2008_bytes, 0},
    {"hs_hash_powers", hash_powers, 0},
    {"hs_hash_powers_bytes", hash_powers_bytes, 0},
    {"hs_hash_swap", hash_swap, 0},
    {"hs_hash_swap_bytes", hash_swap_bytes, 0},
    {"hs_replay", replay, 0},
    {"hs_replay with fewer places", replay_in_blocks, 0},
    {"hs_replay_begin", replay_begin, 0},
    {"hs_replay_feed", replay_feed, 0},
    {"hs_replay_finish", replay_finish, 0},
    {"hs_year_table", year_table, 0},
    {"hs_catalogue_write", catalogue_write, 0},
    {"hs_catalogue_read", catalogue_read, 0},
};
#define CALLS (sizeof calls / sizeof *calls)

static size_t used_by(void (*call)(void))
{
    ucontext_t here, there;
    size_t untouched = 0;
    memset(stack, PATTERN, sizeof stack);
    getcontext(&there);
    there.uc_stack.ss_sp = stack;
    there.uc_stack.ss_size = sizeof stack;
    there.uc_link = &here;
    makecontext(&there, call, 0);
    swapcontext(&here, &there);
    while (untouched < sizeof stack && stack[untouched] == PATTERN) {
        untouched++;
    }
    return sizeof stack - untouched;
}

static void load(const char *path)
{
    FILE *opened = fopen(path, "rb");
    if (opened == NULL || fseek(opened, 0, SEEK_END) != 0) {
        perror(path);
        exit(2);
    }
    length = (size_t)ftell(opened);
    rewind(opened);
    places = length / 12 + 1;
    file = malloc(length + 1);
    predecessors = malloc(places * sizeof *predecessors);
    order = malloc(places * sizeof *order);
    metrics = malloc(length + 8);
    trace = malloc(length + 8);
    output_length = length + 240;
    output = malloc(output_length);
    if (file == NULL || predecessors == NULL || order == NULL || metrics == NULL || trace == NULL || output == NULL ||
        fread(file, 1, length, opened) != length) {
        perror(path);
        exit(2);
    }
    int is_17 = number(0) == 17;
    metrics_length = pairs_of(metrics, 84, is_17 ? 20 : 32, is_17 ? 8 : 12);
    trace_length = pairs_of(trace, 92, 12, 0);
    fclose(opened);
}

static void make_recording(void)
{
    for (unsigned i = 0; i < STARTS; i++) {
        times[i] = i * 7919 % 1000;
        boards[i] = (uint8_t)i;
    }
    for (unsigned i = 0; i < READINGS; i++) {
        snprintf((char *)recording + i * HS_READING_LINE_LENGTH, HS_READING_LINE_LENGTH + 1, "%016X%02X%04X\n",
                 i * 104729 % 1000, i % 256, i * 31 % 65536);
    }
}

static void make_year(void)
{
    for (unsigned i = 0; i < LINES; i++) {
        snprintf((char *)lines + i * HS_CATALOGUE_LINE_LENGTH, HS_CATALOGUE_LINE_LENGTH + 1, "%08X%08X%08X11\n", 148 + i,
                 i * 7919 % HS_YEAR_MOST_ROWS, i);
    }
    for (unsigned i = 0; i < YEAR_STARTS; i++) {
        hashes[i] = i * 104729 % HS_YEAR_MOST_ROWS;
        year_answers[HS_ANSWER_LENGTH * i] = i % 3;
        year_answers[HS_ANSWER_LENGTH * i + 3] = i * 31 % 65536;
    }
    hashes[YEAR_STARTS - 1] = HS_YEAR_MOST_ROWS;
}

int main(int count, char **paths)
{
    make_recording();
    make_year();
    /* The first turn of each resolves symbols and is not counted. */
    for (int i = 1; i < count; i++) {
        load(paths[i]);
        recording_length = READINGS * HS_READING_LINE_LENGTH - (size_t)(i % 2);
        year_starts = YEAR_STARTS - (size_t)(i % 2);
        for (size_t k = 0; k < CALLS; k++) {
            used_by(calls[k].call);
            size_t bytes = used_by(calls[k].call);
            if (bytes > calls[k].bytes) {
                calls[k].bytes = bytes;
            }
        }
        free(file);
        free(predecessors);
        free(order);
        free(metrics);
        free(trace);
        free(output);
    }
    printf("%d files\n", count - 1);
    for (size_t k = 1; k < CALLS; k++) {
        size_t more = calls[k].bytes > calls[0].bytes ? calls[k].bytes - calls[0].bytes : 0;
        printf("%s: %zu bytes\n", calls[k].name, more);
    }
    printf("%s: %zu bytes, taken off the others\n", calls[0].name, calls[0].bytes);
    return 0;
}
