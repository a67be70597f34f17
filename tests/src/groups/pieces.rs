//! The replay in pieces: each of its three calls beside the reference, and runs
//! of them beside one replay of the whole.

use super::{piece_points, Run};
use crate::boundary::{answer_numbers, PieceLists, ReplayLengths, Told};
use crate::generate::recordings::{any_case, case_of, lines_of, spoil, Case};
use crate::random::Random;
use crate::reference::pieces::{feed, finish, order, served, Fed, LINE};
use crate::reference::replay::{replay, Reading, Start};
use crate::tally::{Kinds, Tally};
use hivesaddle::raw::HS_NONE;
use hivesaddle::replay_into;

/// Starts of a long run.
const LONG: usize = 50_000;

pub fn run(run: &Run, tally: &mut Tally) {
    let mut random = run.random("pieces");
    piece_points::run(&mut random, tally);
    let mut pieces = Pieces { random, tally, seen: seen() };
    pieces.beginnings(6_000 * run.scale);
    pieces.runs(12_000 * run.scale);
    pieces.spoilt_runs(12_000 * run.scale);
    pieces.every_cut();
    pieces.larger_runs(20 * run.scale);
    pieces.odd_states(20_000 * run.scale);
    pieces.ends(20_000 * run.scale);
    pieces.long_run();
    pieces.seen.report(pieces.tally, 100);
}

fn seen() -> Kinds {
    let kinds = [
        "all starts served",
        "fewer places of work",
        "fewer answers",
        "fewer boards",
        "fewer times",
        "none served",
        "a run of one piece",
        "a run of many pieces",
        "an empty piece",
        "a line cut",
        "a bad line in a piece",
        "a bad line behind good ones in a piece",
        "a bad line at the end",
        "pieces behind a bad line",
        "starts not served in a run",
        "a reading found",
        "a reading in place of another",
        "none found",
        "a place that is no start's",
        "a place behind those served that is none",
        "a place, and a bad line",
        "fewer served than before",
        "a bad line handed over",
        "lines that wrap",
        "a bad line that wraps to 0",
        "an end without a bad line",
        "an end with a bad line",
        "an end with bytes that wait",
        "an end with both",
        "an end that wraps to 0",
    ];
    Kinds::new("pieces", &kinds)
}

/// What a run has come to.
#[derive(Clone, Debug, Default)]
pub struct State {
    pub lines: u64,
    pub bad: u64,
    /// Of the starts served.
    pub starts: Vec<Start>,
    pub order: Vec<u32>,
    pub answers: Vec<Option<Reading>>,
}

impl State {
    /// Of these lists, as begin has to leave it.
    pub fn begun(lists: &PieceLists) -> State {
        let mut lists = lists.clone();
        let (work, answers) = (lists.work.inner().len(), lists.answers.inner().len());
        let count = served(lists.times.len(), lists.boards.len(), work, answers);
        let start = |k: usize| Start { time: lists.times[k], board: lists.boards[k] };
        let starts: Vec<Start> = (0..count).map(start).collect();
        let answers = vec![None; count];
        State { lines: 0, bad: 0, order: order(&starts), starts, answers }
    }

    /// What a call that feeds gives, which is also what it comes to.
    pub fn feed(&mut self, piece: &[u8]) -> Fed {
        let state = (self.lines, self.bad);
        let fed = feed(state, piece, &self.starts, &self.order, &self.answers);
        (self.lines, self.bad) = (fed.lines, fed.bad);
        if let Some(answers) = &fed.answers {
            self.answers.clone_from(answers);
        }
        fed
    }
}

/// What begin has to leave.
pub fn begun(lists: &PieceLists, state: &State) -> Told {
    let zeros = vec![0; 4 * state.starts.len()];
    lists.expected(0, &[0, 0, state.starts.len() as u64], &state.order, &zeros)
}

/// What a call that feeds has to leave, beside what it gave. The papers say what
/// the answers are at the end, and between only where they stay.
pub fn fed(lists: &PieceLists, fed: &Fed, given: &Told) -> Told {
    let expected = lists.expected(0, &[fed.lines, fed.bad, fed.used], &[], &[]);
    match &fed.answers {
        Some(served) => expected.with_answers_of(given, 4 * served.len()),
        None => expected,
    }
}

/// What the last call has to leave.
pub fn finished(lists: &PieceLists, state: &State, waiting: u64) -> Told {
    let work = vec![HS_NONE; lists.clone().work.inner().len()];
    let answers: Vec<u64> = state.answers.iter().flat_map(answer_numbers).collect();
    match finish(state.lines, state.bad, waiting) {
        Some(line) => lists.expected(22, &[line], &work, &vec![0; 4 * state.starts.len()]),
        None => lists.expected(0, &[0], &work, &answers),
    }
}

struct Pieces<'a> {
    random: Random,
    tally: &'a mut Tally,
    seen: Kinds,
}

impl Pieces<'_> {
    /// In half of the cases places for all; else fewer or more, or none.
    fn lengths(&mut self, starts: usize, out: usize) -> ReplayLengths {
        let random = &mut self.random;
        let out = if random.one_in(8) { random.below(out + 3) } else { out };
        if random.one_in(2) {
            return ReplayLengths { out, ..ReplayLengths::of(starts) };
        }
        let (fewer, numbers) = (random.below(starts + 1), random.below(4 * starts + 9));
        ReplayLengths {
            work: *random.pick(&[0, 1, fewer, starts, starts + 1, 2 * starts + 3]),
            answers: *random.pick(&[3, numbers, 4 * starts, 4 * starts + 2, 4 * starts + 9]),
            out,
        }
    }

    /// A part of the list, in one of four cases.
    fn part<'b, T>(&mut self, list: &'b [T]) -> &'b [T] {
        match self.random.one_in(4) {
            true => &list[..self.random.below(list.len() + 1)],
            false => list,
        }
    }

    fn new_out(&mut self, lists: &mut PieceLists, length: usize) {
        let length = match self.random.one_in(8) {
            true => self.random.below(length + 3),
            false => length,
        };
        lists.renew_out(&mut self.random, length);
    }

    /// Begins, and says what has come up.
    fn begin(&mut self, lists: &mut PieceLists) -> State {
        let state = State::begun(lists);
        let expected = begun(lists, &state);
        let given = lists.begin();
        let input = || format!("{:?}, {:?}", lists.times, lists.boards);
        self.tally.same("begin", &expected, &given, input);
        let (times, boards) = (lists.times.len(), lists.boards.len());
        let (work, answers) = (lists.work.inner().len(), lists.answers.inner().len() / 4);
        let starts = times.min(boards);
        let kinds = &mut self.seen;
        kinds.note("all starts served", starts > 0 && work.min(answers) >= starts);
        kinds.note("fewer places of work", work < starts.min(answers));
        kinds.note("fewer answers", answers < starts.min(work));
        kinds.note("fewer boards", boards < times && boards <= work.min(answers));
        kinds.note("fewer times", times < boards && times <= work.min(answers));
        kinds.note("none served", starts > 0 && state.starts.is_empty());
        state
    }

    /// Feeds one piece. What the lists hold is then what the state says.
    fn feed(&mut self, lists: &mut PieceLists, state: &mut State, piece: &[u8]) -> Fed {
        self.new_out(lists, 3);
        let before = state.clone();
        let after = state.feed(piece);
        let untouched = lists.clone();
        let given = lists.feed(before.lines, before.bad, piece);
        let expected = fed(&untouched, &after, &given);
        let input = || format!("{before:?}, {:?}", String::from_utf8_lossy(piece));
        self.tally.same("feed", &expected, &given, input);
        let kinds = &mut self.seen;
        kinds.note("an empty piece", piece.is_empty());
        let found = after.bad != 0 && before.bad == 0;
        kinds.note("a bad line in a piece", found);
        kinds.note("a bad line behind good ones in a piece", found && after.lines > before.lines);
        let replaced = before.answers.iter().zip(&state.answers);
        let replaced = replaced.filter(|(old, new)| old.is_some() && old != new).count();
        kinds.note("a reading in place of another", replaced > 0);
        after
    }

    fn finish(&mut self, lists: &mut PieceLists, state: &State, waiting: u64) -> Told {
        self.new_out(lists, 1);
        let mut expected = finished(lists, state, waiting);
        let given = lists.finish(state.lines, state.bad, waiting);
        // Without an order of all starts served the answers are not given.
        if state.order.iter().any(|&start| start as usize >= state.starts.len()) && given.code == 0
        {
            expected = expected.with_answers_of(&given, 4 * state.starts.len());
        }
        let input = || format!("{state:?}, {waiting}");
        self.tally.same("finish", &expected, &given, input);
        given
    }

    /// Lists of any kind and length.
    fn beginnings(&mut self, rounds: usize) {
        for _ in 0..rounds {
            let starts = *self.random.pick(&[0, 1, 2, 5, 40]);
            let case = case_of(&mut self.random, 0, starts);
            let (times, boards) = (case.times(), case.boards());
            let (times, boards) = (self.part(&times), self.part(&boards));
            let lengths = self.lengths(starts, 3);
            let mut lists = PieceLists::new(&mut self.random, times, boards, lengths);
            self.begin(&mut lists);
        }
    }

    fn runs(&mut self, rounds: usize) {
        for _ in 0..rounds {
            let (readings, starts) =
                (*self.random.pick(&[3, 30, 100]), *self.random.pick(&[3, 30]));
            let case = any_case(&mut self.random, readings, starts);
            self.pieces(&case.recording(), &case);
        }
    }

    fn spoilt_runs(&mut self, rounds: usize) {
        for _ in 0..rounds {
            let case = any_case(&mut self.random, 12, 5);
            let mut recording = case.recording();
            for _ in 0..self.random.between(1, 2) {
                spoil(&mut self.random, &mut recording);
            }
            self.pieces(&recording, &case);
        }
    }

    fn larger_runs(&mut self, rounds: usize) {
        for _ in 0..rounds {
            let readings = self.random.between(1_000, 3_000);
            let starts = *self.random.pick(&[1, 255, 256, 700]);
            let case = case_of(&mut self.random, readings, starts);
            let mut recording = case.recording();
            self.pieces(&recording, &case);
            spoil(&mut self.random, &mut recording);
            self.pieces(&recording, &case);
        }
    }

    /// Every cut of three lines into two pieces, good lines and bad ones.
    fn every_cut(&mut self) {
        let case = case_of(&mut self.random, 3, 4);
        let sound = case.recording();
        let mut shorter = sound.clone();
        shorter.remove(30);
        let mut bad = sound.clone();
        bad[50] = b'x';
        for recording in [&sound, &shorter, &bad] {
            for cut in 0..=recording.len() {
                let (first, second) = recording.split_at(cut);
                self.pieces_of(&[first, second], recording, &case);
            }
        }
    }

    /// Cut into pieces of some lengths, or not at all.
    fn pieces(&mut self, recording: &[u8], case: &Case) {
        let most = *self.random.pick(&[1, 22, 23, 24, 60, 500, usize::MAX]);
        let mut pieces = Vec::new();
        let mut rest = recording;
        while !rest.is_empty() {
            let length = match self.random.one_in(12) {
                true => 0,
                false => self.random.between(1, most.min(rest.len())),
            };
            let (piece, later) =
                rest.split_at(if most == usize::MAX { rest.len() } else { length });
            pieces.push(piece);
            rest = later;
        }
        self.pieces_of(&pieces, recording, case);
    }

    /// A run of the three calls: each beside the reference, and what they come
    /// to beside one call on the whole.
    fn pieces_of(&mut self, pieces: &[&[u8]], recording: &[u8], case: &Case) {
        let (times, boards) = (case.times(), case.boards());
        let (times, boards) = (self.part(&times), self.part(&boards));
        let lengths = self.lengths(case.starts.len(), 3);
        let mut lists = PieceLists::new(&mut self.random, times, boards, lengths);
        let before = lists.answers.inner().to_vec();
        let mut state = self.begin(&mut lists);
        let mut waiting = Vec::new();
        for piece in pieces {
            self.seen.note("pieces behind a bad line", state.bad != 0);
            self.seen.note("a line cut", !waiting.is_empty());
            waiting.extend_from_slice(piece);
            let used = self.feed(&mut lists, &mut state, &waiting).used as usize;
            waiting.drain(..used);
            let few = waiting.len() < LINE;
            self.tally.holds("fewer bytes wait than a line has", few, || format!("{pieces:?}"));
        }
        self.seen.note("a run of one piece", pieces.len() == 1);
        self.seen.note("a run of many pieces", pieces.len() > 5);
        let told = self.finish(&mut lists, &state, waiting.len() as u64);
        self.beside_the_whole(&mut lists, &before, &state, told.code, recording);
    }

    /// Served are the first starts; of the whole each start has its answer.
    fn beside_the_whole(
        &mut self,
        lists: &mut PieceLists,
        before: &[u64],
        state: &State,
        code: u32,
        recording: &[u8],
    ) {
        let starts = lists.times.len().min(lists.boards.len());
        let (mut work, mut whole) = (vec![0; starts], vec![0; 4 * starts]);
        let (times, boards) = (lists.times, lists.boards);
        let given = replay_into(recording, times, boards, &mut work, &mut whole);
        let count = state.starts.len();
        let mut expected = before.to_vec();
        expected[..4 * count].copy_from_slice(&whole[..4 * count]);
        let input = || format!("{count} served of {:?}", String::from_utf8_lossy(recording));
        self.tally.same("pieces and the whole", &expected[..], lists.answers.inner(), input);
        let expected = if given.is_ok() { 0 } else { 22 };
        self.tally.same("pieces and the whole, code", &expected, &code, input);
        let own = replay(recording, &state.starts);
        let line = given.err().map(|bad| bad.line);
        self.tally.same("pieces and the whole, line", &own.as_ref().err().copied(), &line, input);
        let kinds = &mut self.seen;
        kinds.note("starts not served in a run", count > 0 && count < starts);
        kinds.note("a bad line at the end", line.is_some() && state.bad == 0);
        let found = own.is_ok_and(|answers| answers.iter().any(|answer| answer.is_some()));
        kinds.note("a reading found", found);
        kinds.note("none found", !found && line.is_none() && count > 0);
    }

    /// A call that feeds on its own: with a place of work that is none, with fewer
    /// served than before, with a bad line handed over, with any number of lines.
    fn odd_states(&mut self, rounds: usize) {
        for _ in 0..rounds {
            let case = any_case(&mut self.random, 8, 6);
            let (times, boards) = (case.times(), case.boards());
            let mut lengths = self.lengths(case.starts.len(), 3);
            lengths.work += self.random.below(3);
            let mut lists = PieceLists::new(&mut self.random, &times, &boards, lengths);
            let mut state = self.begin(&mut lists);
            // Some readings of the same kind come first.
            let earlier = case.recording();
            self.feed(&mut lists, &mut state, &earlier);
            let mut piece = case.recording();
            if self.random.one_in(2) {
                spoil(&mut self.random, &mut piece);
            }
            match self.random.below(4) {
                0 => self.with_a_wrong_place(&mut lists, &mut state, &piece),
                1 => self.with_fewer_served(&lists, &state, &piece),
                2 => self.with_a_bad_line(&mut lists, &mut state, &piece),
                _ => self.with_many_lines(&mut lists, &mut state, &piece),
            }
        }
    }

    fn with_a_wrong_place(&mut self, lists: &mut PieceLists, state: &mut State, piece: &[u8]) {
        let count = state.starts.len();
        if lists.work.inner().is_empty() {
            return;
        }
        let at = self.random.below(lists.work.inner().len());
        let wrong = [count as u32, count as u32 + 1, 1 << 31, HS_NONE - 1, HS_NONE];
        let wrong = *self.random.pick(&wrong);
        lists.work.inner()[at] = wrong;
        if at < count {
            state.order[at] = wrong;
        }
        let lines = state.lines;
        let after = self.feed(lists, state, piece);
        self.seen.note("a place that is no start's", at < count && after.lines > lines);
        let behind = at >= count && count > 0 && after.lines > lines;
        self.seen.note("a place behind those served that is none", behind);
        self.seen.note("a place, and a bad line", at < count && after.bad != 0);
    }

    /// The first so many places either are an order of their own, or one of them
    /// is no start's.
    fn with_fewer_served(&mut self, lists: &PieceLists, state: &State, piece: &[u8]) {
        let (mut lists, mut state) = (lists.clone(), state.clone());
        let count = self.random.below(state.starts.len() + 1);
        self.seen.note("fewer served than before", count < state.starts.len());
        let mut shorter = match self.random.below(3) {
            0 => PieceLists { times: &lists.times[..count], ..lists.clone() },
            1 => PieceLists { boards: &lists.boards[..count], ..lists.clone() },
            _ => {
                let lengths = ReplayLengths { work: count, answers: 4 * count + 3, out: 3 };
                let (times, boards) = (lists.times, lists.boards);
                let mut shorter = PieceLists::new(&mut self.random, times, boards, lengths);
                shorter.work.inner().copy_from_slice(&lists.work.inner()[..count]);
                let numbers = &lists.answers.inner()[..4 * count];
                shorter.answers.inner()[..4 * count].copy_from_slice(numbers);
                shorter
            }
        };
        state.starts.truncate(count);
        state.order.truncate(count);
        state.answers.truncate(count);
        self.feed(&mut shorter, &mut state, piece);
        let waiting = self.random.below(2) as u64;
        self.finish(&mut shorter, &state, waiting);
    }

    fn with_a_bad_line(&mut self, lists: &mut PieceLists, state: &mut State, piece: &[u8]) {
        let any = self.random.next() | 1;
        state.bad = *self.random.pick(&[1, 2, 1 << 32, u64::MAX, any]);
        state.lines = *self.random.pick(&[0, 1, any, u64::MAX]);
        self.seen.note("a bad line handed over", !piece.is_empty());
        self.feed(lists, state, piece);
    }

    /// So many that they count past 2 to the 64, or just not.
    fn with_many_lines(&mut self, lists: &mut PieceLists, state: &mut State, piece: &[u8]) {
        (state.lines, state.bad) = (0u64.wrapping_sub(self.random.below(6) as u64), 0);
        let before = state.lines;
        let after = self.feed(lists, state, piece);
        self.seen.note("lines that wrap", after.lines < before);
        let is_bad = after.used > 0 && after.used % LINE as u64 != 0;
        self.seen.note("a bad line that wraps to 0", is_bad && after.bad == 0);
    }

    /// The last call on its own, with any numbers and any lists.
    fn ends(&mut self, rounds: usize) {
        for _ in 0..rounds {
            let starts = *self.random.pick(&[0, 1, 5]);
            let case = case_of(&mut self.random, 6, starts);
            let (times, boards) = (case.times(), case.boards());
            let (times, boards) = (self.part(&times), self.part(&boards));
            let lengths = self.lengths(starts, 1);
            // What the lists hold plays no part, so it may be noise.
            let mut lists = PieceLists::new(&mut self.random, times, boards, lengths);
            let any = self.random.next();
            let odd = [0, 0, 1, 22, 23, 1 << 32, 1 << 63, u64::MAX - 1, u64::MAX, any];
            let mut state = State::begun(&lists);
            // Noise is no order.
            state.order.fill(HS_NONE);
            state.lines = *self.random.pick(&odd);
            state.bad = *self.random.pick(&[0, 0, 0, 1, any, u64::MAX]);
            let waiting = *self.random.pick(&odd);
            self.finish(&mut lists, &state, waiting);
            let (bad, waits) = (state.bad != 0, waiting != 0);
            let kinds = &mut self.seen;
            kinds.note("an end without a bad line", !bad && !waits);
            kinds.note("an end with a bad line", bad && !waits);
            kinds.note("an end with bytes that wait", !bad && waits);
            kinds.note("an end with both", bad && waits);
            kinds.note("an end that wraps to 0", !bad && waits && state.lines == u64::MAX);
        }
    }

    /// Reading i is of board i mod 256 at time 3i, so start i, up to two later,
    /// gets it. The reference would take too long: order and answers are known
    /// from how they are made.
    fn long_run(&mut self) {
        let reading =
            |i: usize| Reading { time: 3 * i as u64, board: i as u8, temperature: i as u16 as i16 };
        let mut shuffled: Vec<usize> = (0..LONG).collect();
        self.random.shuffle(&mut shuffled);
        let recording = lines_of(&shuffled.iter().map(|&i| reading(i)).collect::<Vec<_>>());
        self.random.shuffle(&mut shuffled);
        let times: Vec<u64> = shuffled.iter().map(|&i| (3 * i + i % 3) as u64).collect();
        let boards: Vec<u8> = shuffled.iter().map(|&i| i as u8).collect();
        let lengths = ReplayLengths { out: 3, ..ReplayLengths::of(LONG) };
        let mut lists = PieceLists::new(&mut self.random, &times, &boards, lengths);
        let mut in_order: Vec<u32> = (0..LONG as u32).collect();
        in_order.sort_by_key(|&k| (boards[k as usize], times[k as usize]));
        let zeros = vec![0; 4 * LONG];
        let expected = lists.expected(0, &[0, 0, LONG as u64], &in_order, &zeros);
        let same = expected == lists.begin();
        self.tally.holds("a long run, begun", same, String::new);
        let (mut lines, mut at) = (0, 0);
        while at < recording.len() {
            let piece = &recording[at..(at + 200_000).min(recording.len())];
            lists.renew_out(&mut self.random, 3);
            lines += (piece.len() / LINE) as u64;
            let used = piece.len() / LINE * LINE;
            let given = lists.feed(lines - (used / LINE) as u64, 0, piece);
            let out = lists.expected(0, &[lines, 0, used as u64], &[], &[]).out;
            self.tally.same("a long run, fed", &(0, out), &(given.code, given.out), String::new);
            at += used;
        }
        lists.renew_out(&mut self.random, 1);
        let answers: Vec<u64> =
            shuffled.iter().flat_map(|&i| answer_numbers(&Some(reading(i)))).collect();
        let expected = lists.expected(0, &[0], &vec![HS_NONE; LONG], &answers);
        let same = expected == lists.finish(lines, 0, 0);
        self.tally.holds("a long run, finished", same, String::new);
    }
}
