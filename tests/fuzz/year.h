/* The year's table: what it is made of, and the call to both. */

enum { MOST_LISTED = 500, MOST_FREE = 1100, MOST_NUMBERS = 4092 };
static uint64_t year_rows, year_readings, year_below_zero, year_full;

static void report_year(void) {
    fprintf(stderr, "seen: year_table: rows: %lu; readings: %lu; rounded down below zero: %lu; tables of %d rows: %lu\n",
            year_rows, year_readings, year_below_zero, HS_YEAR_MOST_ROWS, year_full);
}

static uint32_t hash_of(size_t sixteen_bits) { return (uint32_t)(sixteen_bits * 65537); }

/* The bytes as they are, or each four of them as a line: version, length and size, hash, run count. */
static void lay_lines(const struct input *in, size_t bytes) {
    static const struct { unsigned version, size; } known[] = {{17, 148}, {23, 156}, {26, 212}, {30, 212}};
    char line[HS_CATALOGUE_LINE_LENGTH + 1];
    if (!(in->control[1] & 128)) {
        lay_copy(LINES, in->bytes, bytes, in->control[1] & 1);
        return;
    }
    size_t count = bytes / 4, most = MOST_FILE / HS_CATALOGUE_LINE_LENGTH, length = 0;
    if (count > most) count = most;
    static uint8_t text[MOST_FILE];
    for (size_t i = 0; i < count; i++) {
        const uint8_t *from = in->bytes + 4 * i;
        unsigned size = known[from[0] % 4].size - (from[0] >> 3 == 31) + (from[0] >> 3 & 15);
        uint32_t runs = from[3] < 255 ? from[3] : UINT32_MAX;
        int old = from[0] & 4;
        snprintf(line, sizeof line, old ? "%06X%08X%08X%02X\n" : "%08X%08X%08X%02X\n", size,
                 (unsigned)hash_of(number(from + 1, 2)), (unsigned)runs, known[from[0] % 4].version);
        size_t own = old ? HS_CATALOGUE_OLD_LINE_LENGTH : HS_CATALOGUE_LINE_LENGTH;
        memcpy(text + length, line, own);
        length += own;
    }
    lay_copy(LINES, text, length, in->control[1] & 1);
}

/* Of each five bytes a start: hash, whether it has a reading, temperature. And starts of their own hashes without one, so
 * many as i says, before the others or behind them. Gives how many there are. */
static size_t lay_year_starts(const struct input *in, uint64_t i, const uint8_t *bytes) {
    static uint32_t hashes[MOST_LISTED + MOST_FREE];
    static uint64_t numbers[4 * (MOST_LISTED + MOST_FREE)];
    size_t listed = in->start_length / 5 < MOST_LISTED ? in->start_length / 5 : MOST_LISTED;
    size_t free_ones = (i >> 1) % MOST_FREE, starts = listed + free_ones, first = i & 1 ? free_ones : 0;
    memset(numbers, 0, sizeof numbers);
    for (size_t k = 0; k < free_ones; k++) hashes[i & 1 ? k : listed + k] = hash_of(k);
    for (size_t k = 0; k < listed; k++) {
        const uint8_t *from = bytes + 5 * k;
        uint64_t *answer = numbers + 4 * (first + k);
        hashes[first + k] = hash_of(number(from, 2));
        answer[0] = from[2];
        answer[1] = answer[2] = k;
        /* What stands above the sixteen bits plays no part. */
        answer[3] = number(from + 3, 2) | (uint64_t)from[2] << 16 | (uint64_t)from[2] << 56;
    }
    size_t count = chosen(in->control[3], in->control, 4 * starts, MOST_NUMBERS);
    if (count > 4 * starts) count = 4 * starts;
    if (count > MOST_NUMBERS) count = MOST_NUMBERS;
    lay_copy(HASHES, (uint8_t *)hashes, 4 * starts, in->control[1] & 2);
    lay_copy(YEAR_ANSWERS, (uint8_t *)numbers, 8 * count, in->control[1] & 4);
    return starts;
}

static void count_year(uint64_t code, size_t numbers, size_t out_length) {
    const uint64_t *rows = (uint64_t *)lists[ROWS].start, *out = (uint64_t *)lists[OUT].start;
    if (code || out_length < 2) return;
    year_rows += out[1];
    year_full += out[1] == HS_YEAR_MOST_ROWS;
    for (size_t k = 0; k < out[1] && 9 * k + 9 <= numbers; k++) {
        year_readings += rows[9 * k + HS_YEAR_READINGS];
        year_below_zero += (int64_t)rows[9 * k + HS_YEAR_MEAN] < 0 && rows[9 * k + HS_YEAR_REMAINDER];
    }
}

static void year_both(const struct input *in, uint64_t i, uint64_t *given, uint64_t *expected) {
    static uint8_t kept[LISTS][ROOM];
    size_t lines = in->length - in->start_length, starts = lay_year_starts(in, i, in->bytes + lines);
    size_t rows = chosen(in->control[29] >> 4, in->control, HS_YEAR_ROW_LENGTH * (starts < 450 ? starts : 450), MOST_NUMBERS);
    lay_lines(in, lines);
    lay_pair(ROWS, JUDGE_ROWS, 8 * rows, in->control[1] & 4);
    for (int list = LINES; list <= YEAR_ANSWERS; list++) memcpy(kept[list], lists[list].start, lists[list].bytes);
#define YEAR_BY(function, row_list, out)                                                                                  \
    function(pointer(&lists[LINES]), lists[LINES].bytes, pointer(&lists[HASHES]), starts, pointer(&lists[YEAR_ANSWERS]),    \
             lists[YEAR_ANSWERS].bytes / 8, pointer(&lists[row_list]), rows, pointer(&lists[out]), in->out_length)
    *given = YEAR_BY(hs_year_table, ROWS, OUT);
    *expected = YEAR_BY(judge_year_table, JUDGE_ROWS, JUDGE_OUT);
    same_list(YEAR_TABLE, "rows", ROWS, JUDGE_ROWS);
    for (int list = LINES; list <= YEAR_ANSWERS; list++)
        if (memcmp(kept[list], lists[list].start, lists[list].bytes)) differ(YEAR_TABLE, "a list was changed");
    count_year(*given, rows, in->out_length);
}
