/* Pulls a file as a serial line brings it: asks the prefix reader, fetches exactly the bytes that it wants, and stops at
 * its verdict.
 *
 *     pull FILE [BYTES PLACES]
 *
 * BYTES and PLACES are the sizes of the two buffers: on the rack 49152 and 4096, and otherwise what the largest file
 * needs. The status is 0 for an accepted file, 1 for any other and 2 where FILE can't be read.
 */
#include <inttypes.h>
#include <stdio.h>
#include <stdlib.h>

#include "hivesaddle.h"

#define LARGEST_FILE 67108864
#define MOST_TRACE_ENTRIES ((LARGEST_FILE - 148) / 12)
#define BYTES_A_SECOND 11520

struct pull {
    FILE *line;
    uint8_t *file;
    size_t room; /* bytes that the buffer can hold */
    size_t have; /* bytes that have come */
    uint32_t *predecessors;
    size_t places;
    uint64_t out[HS_READER_OUT];
};

/* Brings the prefix to that length. Stands for the line: false where it ends before. */
static int fetch(struct pull *p, size_t length)
{
    p->have += fread(p->file + p->have, 1, length - p->have, p->line);
    return p->have == length;
}

static void print_record(const uint64_t *out)
{
    printf("version %" PRIu64 "\n", out[HS_VERSION]);
    printf("size %" PRIu64 "\n", out[HS_DECLARED_SIZE]);
    printf("name units %" PRIu64 "\n", out[HS_NAME_UNITS]);
    printf("hash %08" PRIX64 "\n", out[HS_STORED_HASH]);
    printf("run time %" PRIu64 "\n", out[HS_RUN_TIME]);
    printf("runs %" PRIu64 "\n", out[HS_RUN_COUNT]);
    printf("metrics %" PRIu64 "\n", out[HS_METRICS_COUNT]);
    printf("trace %" PRIu64 "\n", out[HS_TRACE_COUNT]);
    printf("volumes %" PRIu64 "\n", out[HS_VOLUME_COUNT]);
    printf("chains %" PRIu64 "\n", out[HS_CHAIN_COUNT]);
}

/* True for an acceptance. */
static int print_verdict(const struct pull *p, uint32_t verdict)
{
    if (verdict == HS_ACCEPTED) {
        printf("%zu bytes: accepted\n", p->have);
        print_record(p->out);
        return 1;
    }
    printf("%zu bytes: refused %" PRIu64 " %" PRIu64 " at %" PRIu64 "\n", p->have, p->out[HS_NUMBER], p->out[HS_INDEX],
           p->out[HS_OFFSET]);
    return 0;
}

/* True for an acceptance. */
static int pull(struct pull *p)
{
    for (;;) {
        uint32_t verdict = hs_read_prefix(p->file, p->have, p->predecessors, p->places, p->out, HS_READER_OUT);
        if (verdict != HS_WANTED)
            return print_verdict(p, verdict);
        uint64_t wanted = p->out[HS_BYTES_WANTED];
        printf("%zu bytes: wants %" PRIu64 "\n", p->have, wanted);
        if (wanted > p->room) {
            printf("too long\n");
            return 0;
        }
        if (!fetch(p, (size_t)wanted)) {
            printf("%zu bytes: the line has ended\n", p->have);
            verdict = hs_read_file(p->file, p->have, p->predecessors, p->places, p->out, HS_READER_OUT);
            return print_verdict(p, verdict);
        }
    }
}

/* Rounded to hundredths. */
static void print_seconds(uint64_t bytes)
{
    uint64_t hundredths = (100 * bytes + BYTES_A_SECOND / 2) / BYTES_A_SECOND;
    printf("%" PRIu64 ".%02" PRIu64, hundredths / 100, hundredths % 100);
}

static void print_cost(uint64_t bytes, uint64_t whole)
{
    printf("read %" PRIu64 " of %" PRIu64 " bytes: ", bytes, whole);
    print_seconds(bytes);
    printf(" of ");
    print_seconds(whole);
    printf(" seconds at %d bytes a second\n", BYTES_A_SECOND);
}

/* The length of the whole file, or -1. */
static long length_of(FILE *line)
{
    long length;
    if (fseek(line, 0, SEEK_END) != 0)
        return -1;
    length = ftell(line);
    rewind(line);
    return length;
}

int main(int count, char **words)
{
    struct pull p = {0};
    long whole;
    int accepted;
    if (count != 2 && count != 4) {
        fprintf(stderr, "pull FILE [BYTES PLACES]\n");
        return 2;
    }
    p.room = count == 4 ? strtoul(words[2], NULL, 10) : LARGEST_FILE;
    p.places = count == 4 ? strtoul(words[3], NULL, 10) : MOST_TRACE_ENTRIES;
    p.file = malloc(p.room + 1);
    p.predecessors = malloc((p.places + 1) * sizeof *p.predecessors);
    p.line = fopen(words[1], "rb");
    if (p.file == NULL || p.predecessors == NULL || p.line == NULL || (whole = length_of(p.line)) < 0) {
        fprintf(stderr, "pull: %s can't be read\n", words[1]);
        return 2;
    }
    accepted = pull(&p);
    print_cost(p.have, (uint64_t)whole);
    fclose(p.line);
    free(p.predecessors);
    free(p.file);
    return accepted ? 0 : 1;
}
