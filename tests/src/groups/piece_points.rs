//! Named points of the replay in pieces, with answers by hand.

use super::pieces::{begun, fed, finished, State};
use super::replay_points::{reading, start, three, LAST};
use crate::boundary::{PieceLists, ReplayLengths};
use crate::generate::recordings::lines_of;
use crate::random::Random;
use crate::reference::pieces::{finish, order, Fed};
use crate::reference::replay::{Reading, Start};
use crate::tally::Tally;
use hivesaddle::raw::{hs_replay_begin, hs_replay_feed, hs_replay_finish, HS_NONE};
use std::ptr::{null, null_mut};

pub fn run(random: &mut Random, tally: &mut Tally) {
    let points = &mut Points { random, tally };
    points.orders();
    points.lengths();
    points.when_a_line_is_decided();
    points.answers_between();
    points.wrong_places();
    points.line_numbers();
    points.ends();
    points.out_lengths();
    null_pointers(tally);
}

struct Points<'a> {
    random: &'a mut Random,
    tally: &'a mut Tally,
}

fn lists_of(starts: &[Start]) -> (Vec<u64>, Vec<u8>) {
    (
        starts.iter().map(|start| start.time).collect(),
        starts.iter().map(|start| start.board).collect(),
    )
}

impl Points<'_> {
    /// By board, then by time, then by index; none of them signed.
    fn orders(&mut self) {
        let cases: [(&[Start], &[u32]); 7] = [
            (&[], &[]),
            (&[start(5, 1)], &[0]),
            (&[start(5, 1), start(4, 1), start(5, 0), start(5, 1)], &[2, 1, 0, 3]),
            (&[start(1, 255), start(2, 128), start(3, 127), start(LAST, 0)], &[3, 2, 1, 0]),
            (&[start(1 << 63, 1), start((1 << 63) - 1, 1), start(LAST, 1)], &[1, 0, 2]),
            (&[start(7, 7); 5], &[0, 1, 2, 3, 4]),
            (&[start(256, 1), start(1, 1), start(1 << 32, 1), start(0, 1)], &[3, 1, 0, 2]),
        ];
        for (starts, expected) in cases {
            let (times, boards) = lists_of(starts);
            let lengths = ReplayLengths { out: 3, ..ReplayLengths::of(starts.len()) };
            let mut lists = PieceLists::new(self.random, &times, &boards, lengths);
            self.tally.named("order", expected, &order(starts)[..]);
            let zeros = vec![0; 4 * starts.len()];
            let expected = lists.expected(0, &[0, 0, starts.len() as u64], expected, &zeros);
            self.tally.named("order", &expected, &lists.begin());
        }
    }

    /// Each length of each list, for three starts; the least counts.
    fn lengths(&mut self) {
        for (times, boards) in (0..16).map(|both| (both / 4, both % 4)) {
            let (times, boards) = (&[9, 5, 7][..times], &[1, 1, 0][..boards]);
            for work in 0..5 {
                for answers in 0..15 {
                    let lengths = ReplayLengths { work, answers, out: 3 };
                    let mut lists = PieceLists::new(self.random, times, boards, lengths);
                    let count = times.len().min(boards.len()).min(work).min(answers / 4);
                    let in_order: &[u32] = [&[][..], &[0], &[1, 0], &[2, 1, 0]][count];
                    let zeros = [0; 12];
                    let numbers = [0, 0, count as u64];
                    let expected = lists.expected(0, &numbers, in_order, &zeros[..4 * count]);
                    let state = State::begun(&lists);
                    self.tally.named("served", &expected, &begun(&lists, &state));
                    self.tally.named("served", &expected, &lists.begin());
                    lists.renew_out(self.random, 1);
                    let expected = finished(&lists, &state, 1);
                    self.tally.named("served, at the end", &expected, &lists.finish(0, 0, 1));
                }
            }
        }
    }

    /// Both have to give these three numbers for a piece, from no lines on.
    fn feeds(&mut self, name: &str, piece: &[u8], expected: [u64; 3]) {
        self.feeds_from(name, 0, piece, expected);
    }

    fn feeds_from(&mut self, name: &str, lines: u64, piece: &[u8], expected: [u64; 3]) {
        let lengths = ReplayLengths { out: 3, ..ReplayLengths::of(1) };
        let mut lists = PieceLists::new(self.random, &[LAST], &[1], lengths);
        let mut state = State::begun(&lists);
        lists.begin();
        state.lines = lines;
        lists.renew_out(self.random, 3);
        let own = state.feed(piece);
        self.tally.named(name, &expected, &[own.lines, own.bad, own.used]);
        let untouched = lists.clone();
        let given = lists.feed(lines, 0, piece);
        self.tally.named(name, &fed(&untouched, &own, &given), &given);
    }

    /// Once so many bytes are there as a reading has, and not before.
    fn when_a_line_is_decided(&mut self) {
        let sound = three();
        for length in 0..=sound.len() {
            let lines = length as u64 / 23;
            self.feeds("good lines, cut", &sound[..length], [lines, 0, 23 * lines]);
        }
        for (name, line) in [
            ("no digit", b"?".repeat(40)),
            ("no line feed", b"0".repeat(40)),
            ("line feeds", b"\n".repeat(40)),
            ("a short line", [b"0\n".to_vec(), sound.clone()].concat()),
            ("a line of 21", [sound[1..23].to_vec(), sound.clone()].concat()),
            ("a line of 23", [b"0".to_vec(), sound.clone()].concat()),
        ] {
            for length in 0..=line.len() {
                let bytes = length as u64;
                let expected = if length < 23 { [0, 0, 0] } else { [0, 1, bytes] };
                self.feeds(name, &line[..length], expected);
                let behind = [&sound[..], &line[..length]].concat();
                let expected = if length < 23 { [3, 0, 69] } else { [3, 4, 69 + bytes] };
                self.feeds(&format!("{name}, behind three"), &behind, expected);
            }
        }
    }

    /// After each piece the answers are those of the lines so far, those before
    /// a bad line in the same piece too.
    fn answers_between(&mut self) {
        let starts = [start(6, 1), start(9, 1), start(6, 1), start(LAST, 2)];
        let steps: [(Vec<Reading>, [Option<(u64, i16)>; 4]); 5] = [
            (vec![reading(7, 1, 1)], [None, Some((7, 1)), None, None]),
            (vec![reading(5, 1, 2)], [Some((5, 2)), Some((7, 1)), Some((5, 2)), None]),
            (
                vec![reading(5, 1, -3), reading(0, 2, 4)],
                [Some((5, -3)), Some((7, 1)), Some((5, -3)), Some((0, 4))],
            ),
            (vec![], [Some((5, -3)), Some((7, 1)), Some((5, -3)), Some((0, 4))]),
            (vec![reading(9, 1, 5)], [Some((5, -3)), Some((9, 5)), Some((5, -3)), Some((0, 4))]),
        ];
        let (times, boards) = lists_of(&starts);
        let lengths = ReplayLengths { out: 3, ..ReplayLengths::of(4) };
        let mut lists = PieceLists::new(self.random, &times, &boards, lengths);
        let mut state = State::begun(&lists);
        lists.begin();
        for (step, (readings, expected)) in steps.into_iter().enumerate() {
            lists.renew_out(self.random, 3);
            let mut piece = lines_of(&readings);
            // The last piece goes on with a bad line.
            if step == 4 {
                piece.extend(b"?".repeat(23));
            }
            let lines = state.lines;
            let own = state.feed(&piece);
            let place = |(start, found): (&Start, Option<(u64, i16)>)| {
                found.map(|(time, temperature)| reading(time, start.board, temperature))
            };
            let answers: Vec<_> = starts.iter().zip(expected).map(place).collect();
            self.tally.named("answers between", &Some(answers), &own.answers);
            let untouched = lists.clone();
            let given = lists.feed(lines, 0, &piece);
            self.tally.named("between", &fed(&untouched, &own, &given), &given);
        }
        self.tally.named("the bad line", &(5, 6), &(state.lines, state.bad));
        // Behind it nothing changes.
        lists.renew_out(self.random, 3);
        let later = lines_of(&[reading(9, 1, 9)]);
        let expected = lists.expected(0, &[5, 6, 23], &[], &[]);
        self.tally.named("behind a bad line", &expected, &lists.feed(5, 6, &later));
        lists.renew_out(self.random, 1);
        let expected = lists.expected(22, &[6], &[HS_NONE; 4], &[0; 16]);
        self.tally.named("the end", &expected, &lists.finish(5, 6, 0));
    }

    /// One of the served places is not below their number: the answers stay.
    fn wrong_places(&mut self) {
        let starts = [start(LAST, 1), start(6, 1), start(LAST, 2)];
        let (times, boards) = lists_of(&starts);
        for place in 0..4 {
            for wrong in [3, 4, 1 << 31, HS_NONE] {
                let lengths = ReplayLengths { work: 4, answers: 12, out: 3 };
                let mut lists = PieceLists::new(self.random, &times, &boards, lengths);
                let mut state = State::begun(&lists);
                lists.begin();
                lists.work.inner()[place] = wrong;
                if place < 3 {
                    state.order[place] = wrong;
                }
                lists.renew_out(self.random, 3);
                let own = state.feed(&three());
                let Fed { lines, bad, used, .. } = own;
                self.tally.named("a wrong place goes on", &(3, 0, 69), &(lines, bad, used));
                self.tally.named("a wrong place", &(place == 3), &own.answers.is_some());
                let untouched = lists.clone();
                let given = lists.feed(0, 0, &three());
                self.tally.named("a wrong place", &fed(&untouched, &own, &given), &given);
            }
        }
    }

    /// Modulo 2 to the 64.
    fn line_numbers(&mut self) {
        let sound = three();
        let bad = [&sound[..], &[b'?'; 23]].concat();
        for (lines, after) in [(LAST, 2), (LAST - 1, 1), (LAST - 2, 0), (LAST - 3, LAST)] {
            self.feeds_from("lines that wrap", lines, &sound, [after, 0, 69]);
            let line = after.wrapping_add(1);
            self.feeds_from("a bad line past the wrap", lines, &bad, [after, line, 92]);
        }
        self.feeds_from("a bad line at the wrap", LAST, &bad[69..], [LAST, 0, 23]);
        self.feeds_from("the greatest bad line", LAST - 1, &bad[69..], [LAST - 1, LAST, 23]);
    }

    fn ends(&mut self) {
        let cases = [
            ((0, 0, 0), None),
            ((LAST, 0, 0), None),
            ((0, 0, 1), Some(1)),
            ((7, 0, 22), Some(8)),
            ((7, 0, LAST), Some(8)),
            ((7, 3, 0), Some(3)),
            ((7, 3, 5), Some(3)),
            ((7, LAST, 5), Some(LAST)),
            ((LAST - 1, 0, 1), Some(LAST)),
            ((LAST, 0, 1), Some(0)),
            ((LAST, 1, 1), Some(1)),
        ];
        for ((lines, bad, waiting), line) in cases {
            self.tally.named("an end", &line, &finish(lines, bad, waiting));
            let lengths = ReplayLengths { work: 3, answers: 10, out: 1 };
            let mut lists = PieceLists::new(self.random, &[1, 2, 3], &[4, 5, 6], lengths);
            let expected = match line {
                Some(line) => lists.expected(22, &[line], &[HS_NONE; 3], &[0; 8]),
                None => lists.expected(0, &[0], &[HS_NONE; 3], &[]),
            };
            self.tally.named("an end", &expected, &lists.finish(lines, bad, waiting));
        }
    }

    fn out_lengths(&mut self) {
        for out in 0..6 {
            let lengths = ReplayLengths { out, ..ReplayLengths::of(1) };
            let mut lists = PieceLists::new(self.random, &[LAST], &[1], lengths);
            let mut state = State::begun(&lists);
            let expected = begun(&lists, &state);
            self.tally.named("out of begin", &expected, &lists.begin());
            lists.renew_out(self.random, out);
            let untouched = lists.clone();
            let (own, given) = (state.feed(&three()), lists.feed(0, 0, &three()));
            self.tally.named("out of feed", &fed(&untouched, &own, &given), &given);
            lists.renew_out(self.random, out);
            let expected = finished(&lists, &state, 2);
            self.tally.named("out of finish", &expected, &lists.finish(3, 0, 2));
        }
    }
}

/// Lists of length 0 may have any pointer.
fn null_pointers(tally: &mut Tally) {
    let (times, boards, work, answers, out) = (null(), null(), null_mut(), null_mut(), null_mut());
    unsafe {
        let given = hs_replay_begin(times, 0, boards, 0, work, 0, answers, 0, out, 0);
        tally.named("begin, null", &0, &given);
        let given =
            hs_replay_feed(0, 0, null(), 0, times, 0, boards, 0, null(), 0, answers, 0, out, 0);
        tally.named("feed, null", &0, &given);
        let given = hs_replay_finish(0, 0, 0, times, 0, boards, 0, work, 0, answers, 0, out, 0);
        tally.named("finish, null", &0, &given);
        let given = hs_replay_finish(0, 0, 1, times, 0, boards, 0, work, 0, answers, 0, out, 0);
        tally.named("finish, null and a rest", &22, &given);
    }
}
