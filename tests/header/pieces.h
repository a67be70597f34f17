/* The replay in pieces as the header has it: a recording cut inside its lines, and what is left at the end. */
#define STARTS (sizeof times / sizeof *times)

static int pieces_in_turn(int swapped)
{
    uint64_t answers[HS_ANSWER_LENGTH * STARTS], state[3] = {0}, line = 9;
    uint32_t work[STARTS];
    size_t at = 0, length = 0;
    (void)swapped;
    hs_replay_begin(times, STARTS, boards, STARTS, work, STARTS, answers, HS_ANSWER_LENGTH * STARTS, state, 3);
    if (state[2] != STARTS)
        return 0;
    for (size_t end = 30; at + length < sizeof recording; end += 30) {
        length = (end < sizeof recording ? end : sizeof recording) - at;
        hs_replay_feed(state[0], state[1], recording + at, length, times, STARTS, boards, STARTS, work, STARTS, answers,
                       HS_ANSWER_LENGTH * STARTS, state, 3);
        at += state[2];
        length -= state[2];
    }
    if (hs_replay_finish(state[0], state[1], length, times, STARTS, boards, STARTS, work, STARTS, answers,
                         HS_ANSWER_LENGTH * STARTS, &line, 1) != 0)
        return 0;
    return line == 0 && SAME(answers, final_answers, 0, 0);
}
