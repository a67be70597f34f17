/* The replay in pieces: the three calls to both, on the recording and the starts of a replay. */

static uint64_t piece_feeds, piece_waits, piece_readings, piece_bad, piece_bad_at_end, piece_wrong_places;

static void report_pieces(void) {
    fprintf(stderr, "seen: replay_pieces: feeds: %lu; with bytes that wait: %lu; readings: %lu; bad lines: %lu; at the end: "
            "%lu; places out of order: %lu\n", piece_feeds, piece_waits, piece_readings, piece_bad, piece_bad_at_end,
            piece_wrong_places);
}

/* All that a call can have written; and out begins with new noise. The first `own` bytes of the answers are not compared: what
 * stands there between two calls is the library's own affair. */
static void same_pieces(const char *after, uint64_t given, uint64_t expected, size_t own) {
    static uint8_t judged[ROOM];
    if (given != expected) differ(REPLAY_PIECES, after);
    same_list(REPLAY_PIECES, "out", OUT, JUDGE_OUT);
    same_list(REPLAY_PIECES, "work", WORK, JUDGE_WORK);
    if (own) memcpy(judged, lists[JUDGE_ANSWERS].start, own);
    if (own) memcpy(lists[JUDGE_ANSWERS].start, lists[ANSWERS].start, own);
    same_list(REPLAY_PIECES, "answers", ANSWERS, JUDGE_ANSWERS);
    if (own) memcpy(lists[JUDGE_ANSWERS].start, judged, own);
}

/* The three numbers are in a list of their own, since out may be too short for them. */
static void pieces_both(const struct input *in, uint64_t i, uint64_t k, uint64_t *given, uint64_t *expected) {
    static uint8_t kept[LISTS][ROOM];
    size_t recording = in->length - in->start_length, starts = lay_starts(in, i, in->bytes + recording);
    size_t work = chosen(in->control[3], in->control, starts, MOST_PLACES);
    size_t numbers = chosen(in->control[29] >> 4, in->control, 4 * starts, 4 * MOST_STARTS);
    size_t served = starts < work ? starts : work, o = in->out_length;
    uint64_t lines = 0, bad = 0, state[3] = {0};
    if (numbers / 4 < served) served = numbers / 4;
    lay_recording(in, recording);
    lay_pair(WORK, JUDGE_WORK, 4 * work, in->control[1] & 2);
    lay_pair(ANSWERS, JUDGE_ANSWERS, 8 * numbers, in->control[1] & 4);
    for (int list = RECORDING; list <= BOARDS; list++) memcpy(kept[list], lists[list].start, lists[list].bytes);
#define STARTS_OF(work_list, answers_list, out)                                                                          \
    pointer(&lists[TIMES]), lists[TIMES].bytes / 8, pointer(&lists[BOARDS]), lists[BOARDS].bytes, pointer(&lists[work_list]), \
        work, pointer(&lists[answers_list]), numbers, pointer(&lists[out]), o
    *given = hs_replay_begin(STARTS_OF(WORK, ANSWERS, OUT));
    *expected = judge_replay_begin(STARTS_OF(JUDGE_WORK, JUDGE_ANSWERS, JUDGE_OUT));
    same_pieces("begin", *given, *expected, 0);
    if (i >> 2 & 2) lines = UINT64_MAX - (i >> 4) % 3;
    if ((i >> 2 & 3) == 3) bad = lines;
    size_t at = 0, whole = lists[RECORDING].bytes;
    uint8_t *bytes = lists[RECORDING].start;
    size_t waiting = 0;
    int out_of_order = 0;
    /* A piece begins with what was not used, so it lies in the recording as it stands. */
    for (int turn = 0; at + waiting < whole; turn++) {
        size_t fresh = k >> 8 * (turn % 8) & 255, length = waiting + (fresh ? fresh : 256);
        if (length > whole - at) length = whole - at;
        if (at + length == whole && (i >> 2 & 3) == 1 && served) {
            size_t place = (i >> 4) % served;
            uint32_t wrong = served + (uint32_t)(i >> 32);
            if (wrong < served) wrong = HS_NONE;
            ((uint32_t *)lists[WORK].start)[place] = ((uint32_t *)lists[JUDGE_WORK].start)[place] = wrong;
            piece_wrong_places++;
            out_of_order = 1;
        }
        lay_copy(PIECE, bytes + at, length, in->control[1] & 1);
        lay_pair(OUT, JUDGE_OUT, 8 * o, in->control[1] & 4);
        *given = hs_replay_feed(lines, bad, pointer(&lists[PIECE]), length, STARTS_OF(WORK, ANSWERS, OUT));
        *expected = judge_replay_feed(lines, bad, pointer(&lists[PIECE]), length, STARTS_OF(JUDGE_WORK, JUDGE_ANSWERS, JUDGE_OUT));
        same_pieces("feed", *given, *expected, 32 * served);
        if (length && memcmp(lists[PIECE].start, bytes + at, length)) differ(REPLAY_PIECES, "the piece was changed");
        /* Once more for the numbers alone; without starts no list is written. */
        judge_replay_feed(lines, bad, pointer(&lists[PIECE]), length, NULL, 0, NULL, 0, NULL, 0, NULL, 0, state, 3);
        lines = state[0];
        piece_bad += state[1] != 0 && bad == 0;
        bad = state[1];
        at += state[2];
        waiting = length - state[2];
        piece_feeds++;
        piece_waits += waiting > 0;
    }
    for (size_t j = 0; j < served; j++) piece_readings += ((uint64_t *)lists[ANSWERS].start)[4 * j];
    lay_pair(OUT, JUDGE_OUT, 8 * o, in->control[1] & 4);
    *given = hs_replay_finish(lines, bad, waiting, STARTS_OF(WORK, ANSWERS, OUT));
    *expected = judge_replay_finish(lines, bad, waiting, STARTS_OF(JUDGE_WORK, JUDGE_ANSWERS, JUDGE_OUT));
    same_pieces("finish", *given, *expected, out_of_order && !*given ? 32 * served : 0);
    piece_bad_at_end += bad == 0 && waiting > 0;
    for (int list = RECORDING; list <= BOARDS; list++)
        if (memcmp(kept[list], lists[list].start, lists[list].bytes)) differ(REPLAY_PIECES, "a list was changed");
}
