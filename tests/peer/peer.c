/* peer time FILE..      opens and lists each file with libscca and with hivesaddle, turn and turn about; medians
 * peer fields FILE..    compares every field that both give
 * peer verdicts FILE..  what each says: hivesaddle, libscca with the names of the strings section, libscca with those
 *                       of the metrics entries
 *
 * Both read from memory: libscca through a libbfio memory range, hivesaddle from the same bytes.
 */
#include <libbfio.h>
#include <libscca.h>
#include <stdio.h>
#include <stdlib.h>
#include <string.h>
#include <time.h>

#include "hivesaddle.h"

struct bytes {
    uint8_t *start;
    size_t length;
};

/* A text as UTF-16 units, without its zero. */
struct text {
    uint16_t *units;
    size_t length;
};

struct volume {
    struct text path;
    uint64_t creation_time;
    uint32_t serial_number;
};

/* Of versions 26 and 30. The versions before them have one. */
#define MOST_RUN_TIMES 8

/* What a listing shows. The texts lie in one pool. */
struct listing {
    uint32_t version, hash, run_count;
    size_t run_times;
    uint64_t run_time[MOST_RUN_TIMES];
    struct text program;
    size_t names, volumes;
    struct text *name;
    struct volume *volume;
    size_t name_places, volume_places;
    uint16_t *pool;
    size_t used, room;
};

/* Where libscca takes the file names from. */
enum source { STRINGS, ENTRIES };

static void fail(const char *what)
{
    fprintf(stderr, "peer: %s\n", what);
    exit(2);
}

static void *need(void *memory)
{
    if (memory == NULL) {
        fail("no memory");
    }
    return memory;
}

static struct bytes load(const char *path)
{
    FILE *file = fopen(path, "rb");
    if (file == NULL || fseek(file, 0, SEEK_END) != 0) {
        fail(path);
    }
    struct bytes bytes = {NULL, (size_t)ftell(file)};
    rewind(file);
    bytes.start = need(malloc(bytes.length + 1));
    if (fread(bytes.start, 1, bytes.length, file) != bytes.length) {
        fail(path);
    }
    fclose(file);
    return bytes;
}

/* ---- A listing's places, allocated once and used again in every turn ---- */

static struct listing places(size_t file_length)
{
    struct listing list = {0};
    list.room = file_length + 4096;
    list.pool = need(malloc(list.room * sizeof *list.pool));
    list.name_places = file_length / 2 + 1;
    list.volume_places = file_length / 40 + 1;
    list.name = need(malloc(list.name_places * sizeof *list.name));
    list.volume = need(malloc(list.volume_places * sizeof *list.volume));
    return list;
}

static void leave(struct listing *list)
{
    free(list->pool);
    free(list->name);
    free(list->volume);
}

static void clear(struct listing *list)
{
    list->used = list->names = list->volumes = 0;
}

/* Room for so many units, or a null pointer. */
static uint16_t *room_for(struct listing *list, size_t units)
{
    if (units > list->room - list->used) {
        return NULL;
    }
    uint16_t *start = list->pool + list->used;
    list->used += units;
    return start;
}

/* ---- libscca ---- */

/* Expands to the two calls that fetch a text; sizes count a zero unit. */
#define FETCH(text, size_call, text_call)                                                                                  \
    do {                                                                                                                   \
        size_t size = 0;                                                                                                   \
        if ((size_call) != 1) {                                                                                            \
            return 0;                                                                                                      \
        }                                                                                                                  \
        (text).length = size > 0 ? size - 1 : 0;                                                                           \
        (text).units = room_for(list, size);                                                                               \
        if ((text).units == NULL || (size > 0 && (text_call) != 1)) {                                                      \
            return 0;                                                                                                      \
        }                                                                                                                  \
    } while (0)

static int scca_names(libscca_file_t *file, struct listing *list, enum source source)
{
    int count = 0;
    if (source == STRINGS) {
        if (libscca_file_get_number_of_filenames(file, &count, NULL) != 1 || (size_t)count > list->name_places) {
            return 0;
        }
        for (int i = 0; i < count; i++) {
            struct text *name = &list->name[i];
            FETCH(*name, libscca_file_get_utf16_filename_size(file, i, &size, NULL),
                  libscca_file_get_utf16_filename(file, i, name->units, size, NULL));
        }
    } else {
        if (libscca_file_get_number_of_file_metrics_entries(file, &count, NULL) != 1 ||
            (size_t)count > list->name_places) {
            return 0;
        }
        for (int i = 0; i < count; i++) {
            libscca_file_metrics_t *entry = NULL;
            struct text *name = &list->name[i];
            if (libscca_file_get_file_metrics_entry(file, i, &entry, NULL) != 1) {
                return 0;
            }
            FETCH(*name, libscca_file_metrics_get_utf16_filename_size(entry, &size, NULL),
                  libscca_file_metrics_get_utf16_filename(entry, name->units, size, NULL));
            libscca_file_metrics_free(&entry, NULL);
        }
    }
    list->names = (size_t)count;
    return 1;
}

static int scca_volumes(libscca_file_t *file, struct listing *list)
{
    int count = 0;
    if (libscca_file_get_number_of_volumes(file, &count, NULL) != 1 || (size_t)count > list->volume_places) {
        return 0;
    }
    for (int i = 0; i < count; i++) {
        libscca_volume_information_t *entry = NULL;
        struct volume *volume = &list->volume[i];
        if (libscca_file_get_volume_information(file, i, &entry, NULL) != 1 ||
            libscca_volume_information_get_creation_time(entry, &volume->creation_time, NULL) != 1 ||
            libscca_volume_information_get_serial_number(entry, &volume->serial_number, NULL) != 1) {
            return 0;
        }
        FETCH(volume->path, libscca_volume_information_get_utf16_device_path_size(entry, &size, NULL),
              libscca_volume_information_get_utf16_device_path(entry, volume->path.units, size, NULL));
        libscca_volume_information_free(&entry, NULL);
    }
    list->volumes = (size_t)count;
    return 1;
}

static int scca_fields(libscca_file_t *file, struct listing *list, enum source source)
{
    if (libscca_file_get_format_version(file, &list->version, NULL) != 1 ||
        libscca_file_get_prefetch_hash(file, &list->hash, NULL) != 1 ||
        libscca_file_get_run_count(file, &list->run_count, NULL) != 1) {
        return 0;
    }
    list->run_times = list->version < 26 ? 1 : MOST_RUN_TIMES;
    for (size_t i = 0; i < list->run_times; i++) {
        if (libscca_file_get_last_run_time(file, (int)i, &list->run_time[i], NULL) != 1) {
            return 0;
        }
    }
    FETCH(list->program, libscca_file_get_utf16_executable_filename_size(file, &size, NULL),
          libscca_file_get_utf16_executable_filename(file, list->program.units, size, NULL));
    return scca_names(file, list, source) && scca_volumes(file, list);
}

enum outcome { READ, NOT_LISTED, NOT_OPENED };

static enum outcome scca(struct bytes bytes, struct listing *list, enum source source)
{
    libbfio_handle_t *handle = NULL;
    libscca_file_t *file = NULL;
    enum outcome outcome = NOT_OPENED;
    clear(list);
    if (libbfio_memory_range_initialize(&handle, NULL) != 1 ||
        libbfio_memory_range_set(handle, bytes.start, bytes.length, NULL) != 1 ||
        libscca_file_initialize(&file, NULL) != 1) {
        fail("libscca can't be set up");
    }
    if (libscca_file_open_file_io_handle(file, handle, LIBSCCA_OPEN_READ, NULL) == 1) {
        outcome = scca_fields(file, list, source) ? READ : NOT_LISTED;
        libscca_file_close(file, NULL);
    }
    libscca_file_free(&file, NULL);
    libbfio_handle_free(&handle, NULL);
    return outcome;
}

/* ---- hivesaddle ---- */

/* Copied into the pool, so that both do the same with a text. */
static int take(struct bytes bytes, const uint64_t part[2], struct listing *list, struct text *text)
{
    text->length = part[1] / 2;
    text->units = room_for(list, text->length + 1);
    if (text->units == NULL) {
        return 0;
    }
    memcpy(text->units, bytes.start + part[0], part[1]);
    text->units[text->length] = 0;
    return 1;
}

static int saddle(struct bytes bytes, struct listing *list, uint32_t *predecessors, size_t count, uint64_t *out)
{
    uint64_t part[2];
    clear(list);
    if (hs_read_file(bytes.start, bytes.length, predecessors, count, out, HS_READER_OUT) != HS_ACCEPTED) {
        return 0;
    }
    list->version = (uint32_t)out[HS_VERSION];
    list->hash = (uint32_t)out[HS_STORED_HASH];
    list->run_count = (uint32_t)out[HS_RUN_COUNT];
    list->run_times = out[HS_TIME_COUNT];
    list->run_time[0] = out[HS_RUN_TIME];
    memcpy(list->run_time + 1, out + HS_RUN_TIME_2, (MOST_RUN_TIMES - 1) * sizeof *out);
    if (!hs_program_name(bytes.start, bytes.length, part, 2) || !take(bytes, part, list, &list->program)) {
        fail("hivesaddle accepts a file and gives no program name");
    }
    for (; list->names < out[HS_METRICS_COUNT]; list->names++) {
        if (!hs_entry_name(bytes.start, bytes.length, list->names, part, 2) ||
            !take(bytes, part, list, &list->name[list->names])) {
            fail("hivesaddle accepts a file and gives no name of an entry");
        }
    }
    for (; list->volumes < out[HS_VOLUME_COUNT]; list->volumes++) {
        uint64_t fields[6];
        struct volume *volume = &list->volume[list->volumes];
        if (!hs_volume(bytes.start, bytes.length, list->volumes, fields, 6) ||
            !take(bytes, fields + 4, list, &volume->path)) {
            fail("hivesaddle accepts a file and gives no volume");
        }
        volume->creation_time = fields[0];
        volume->serial_number = (uint32_t)fields[1];
    }
    return 1;
}

/* One slot for each trace entry that the file can have. */
static uint32_t *working_places(struct bytes bytes, size_t *count)
{
    *count = bytes.length / 12 + 1;
    return need(malloc(*count * sizeof(uint32_t)));
}

/* ---- Times ---- */

static double milliseconds(void)
{
    struct timespec time;
    clock_gettime(CLOCK_THREAD_CPUTIME_ID, &time);
    return 1e3 * (double)time.tv_sec + 1e-6 * (double)time.tv_nsec;
}

static int ascending(const void *a, const void *b)
{
    double difference = *(const double *)a - *(const double *)b;
    return (difference > 0) - (difference < 0);
}

static double median(double *list, size_t count)
{
    qsort(list, count, sizeof *list, ascending);
    return list[count / 2];
}

#define MOST_TURNS 51

static void time_file(const char *path)
{
    struct bytes bytes = load(path);
    struct listing list = places(bytes.length);
    size_t count;
    uint32_t *predecessors = working_places(bytes, &count);
    uint64_t out[HS_READER_OUT];
    double by_strings[MOST_TURNS], by_entries[MOST_TURNS], by_saddle[MOST_TURNS];
    size_t turns = bytes.length > 4000000 ? 5 : bytes.length > 1000000 ? 15 : MOST_TURNS;
    if (!saddle(bytes, &list, predecessors, count, out)) {
        fail("hivesaddle refuses a file to be timed");
    }
    /* As many places as trace entries, as a caller lends who has seen the head. */
    count = out[HS_TRACE_COUNT];
    for (size_t turn = 0; turn < turns; turn++) {
        double start = milliseconds();
        int read = scca(bytes, &list, STRINGS) == READ;
        double second = milliseconds();
        read = read && scca(bytes, &list, ENTRIES) == READ;
        double third = milliseconds();
        read = read && saddle(bytes, &list, predecessors, count, out);
        by_saddle[turn] = milliseconds() - third;
        by_entries[turn] = third - second;
        by_strings[turn] = second - start;
        if (!read) {
            fail("a file to be timed isn't read");
        }
    }
    double strings = median(by_strings, turns), entries = median(by_entries, turns), own = median(by_saddle, turns);
    printf("version %u, %zu bytes, %zu names: libscca by strings %.3f ms, by entries %.3f ms, hivesaddle %.3f ms; "
           "ratio %.1f, %.1f (%zu turns)\n",
           list.version, bytes.length, list.names, strings, entries, own, strings / own, entries / own, turns);
    leave(&list);
    free(predecessors);
    free(bytes.start);
}

/* ---- Fields ---- */

static int same_text(struct text a, struct text b)
{
    return a.length == b.length && memcmp(a.units, b.units, a.length * sizeof *a.units) == 0;
}

static size_t differing;

static void check(const char *path, const char *field, int same)
{
    if (!same) {
        printf("%s: %s differs\n", path, field);
        differing++;
    }
}

static void compare(const char *path, const struct listing *a, const struct listing *b)
{
    check(path, "version", a->version == b->version);
    check(path, "program name", same_text(a->program, b->program));
    check(path, "hash", a->hash == b->hash);
    check(path, "run count", a->run_count == b->run_count);
    check(path, "number of run times", a->run_times == b->run_times);
    for (size_t i = 0; i < a->run_times && i < b->run_times; i++) {
        check(path, "run time", a->run_time[i] == b->run_time[i]);
    }
    check(path, "number of names", a->names == b->names);
    check(path, "number of volumes", a->volumes == b->volumes);
    for (size_t i = 0; i < a->names && i < b->names; i++) {
        check(path, "file name", same_text(a->name[i], b->name[i]));
    }
    for (size_t i = 0; i < a->volumes && i < b->volumes; i++) {
        check(path, "volume path", same_text(a->volume[i].path, b->volume[i].path));
        check(path, "serial number", a->volume[i].serial_number == b->volume[i].serial_number);
        check(path, "creation time", a->volume[i].creation_time == b->volume[i].creation_time);
    }
}

static void print_outcome(enum outcome outcome, const struct listing *list)
{
    static const char *const words[] = {"listed", "opened, not listed", "not opened"};
    printf(" | %s", words[outcome]);
    if (outcome == READ) {
        printf(", %zu names, %zu volumes", list->names, list->volumes);
    }
}

/* Compares the listings where both read the file. */
static void fields(const char *path, int verdicts)
{
    struct bytes bytes = load(path);
    struct listing strings = places(bytes.length), entries = places(bytes.length), own = places(bytes.length);
    size_t count;
    uint32_t *predecessors = working_places(bytes, &count);
    uint64_t out[HS_READER_OUT];
    enum outcome by_strings = scca(bytes, &strings, STRINGS), by_entries = scca(bytes, &entries, ENTRIES);
    int accepted = saddle(bytes, &own, predecessors, count, out);
    if (verdicts) {
        const char *name = strrchr(path, '/');
        printf("| `%s` | ", name ? name + 1 : path);
        if (accepted) {
            printf("accepted");
        } else {
            printf("refused %llu %llu at %llu", (unsigned long long)out[HS_NUMBER], (unsigned long long)out[HS_INDEX],
                   (unsigned long long)out[HS_OFFSET]);
        }
        print_outcome(by_strings, &strings);
        print_outcome(by_entries, &entries);
        printf(" |\n");
    }
    size_t before = differing;
    if (accepted && by_strings == READ) {
        compare(path, &strings, &own);
    }
    if (accepted && by_entries == READ) {
        compare(path, &entries, &own);
    }
    if (!verdicts) {
        if (!accepted || by_strings != READ || by_entries != READ) {
            printf("%s: not read by both\n", path);
            differing++;
        } else if (differing == before) {
            printf("version %u, %zu bytes: same in all fields, %zu names, %zu volumes\n", own.version, bytes.length,
                   own.names, own.volumes);
        }
    }
    leave(&strings);
    leave(&entries);
    leave(&own);
    free(predecessors);
    free(bytes.start);
}

int main(int count, char **words)
{
    if (count < 3) {
        fail("peer time|fields|verdicts FILE..");
    }
    for (int i = 2; i < count; i++) {
        if (strcmp(words[1], "time") == 0) {
            time_file(words[i]);
        } else {
            fields(words[i], strcmp(words[1], "verdicts") == 0);
        }
        fflush(stdout);
    }
    return differing > 0;
}
