//! The replay of a recording against starts: points by hand, every short
//! recording, seeded ones beside the reference, long ones whose answers are
//! known from how they are made, and the program of that name.

use super::{replay_points, replay_program, Run};
use crate::boundary::{compare_replay, ReplayInput, ReplayLengths};
use crate::generate::recordings::{any_case, case_of, lines_of, spoil, Case};
use crate::random::Random;
use crate::reference::replay::{replay, Reading, Replayed, Start};
use crate::tally::Tally;

/// Readings and starts of a long recording.
const LONG: usize = 100_000;

pub fn run(run: &Run, tally: &mut Tally) {
    let mut random = run.random("replays");
    replay_points::run(&mut random, tally);
    let mut replays = Replays { random, tally, seen: Seen::default() };
    replays.every_short_recording();
    replays.seeded(6_000 * run.scale);
    replays.spoilt(12_000 * run.scale);
    replays.larger(20 * run.scale);
    replays.long();
    replays.seen.report(replays.tally);
    replay_program::run(run, tally);
}

struct Replays<'a> {
    random: Random,
    tally: &'a mut Tally,
    seen: Seen,
}

impl Replays<'_> {
    fn case(&mut self, case: &Case) {
        self.recording(&case.recording(), case);
    }

    /// The C call with lists of some lengths, and the two safe ones.
    fn recording(&mut self, recording: &[u8], case: &Case) {
        let replayed = replay(recording, &case.starts);
        self.seen.replayed(&replayed, case);
        let (times, boards) = (case.times(), case.boards());
        let input = ReplayInput { recording, times: &times, boards: &boards };
        let lengths = self.lengths(case.starts.len());
        compare_replay(&mut self.random, self.tally, &replayed, input, lengths);
        self.safe_calls(recording, case, &replayed);
    }

    /// In half of the cases places for all; else fewer or more, or none.
    fn lengths(&mut self, starts: usize) -> ReplayLengths {
        if self.random.one_in(2) {
            return ReplayLengths::of(starts);
        }
        let random = &mut self.random;
        let (fewer, numbers) = (random.below(starts + 1), random.below(4 * starts + 9));
        ReplayLengths {
            work: *random.pick(&[0, 1, 2, fewer, starts, starts + 1, 2 * starts + 3]),
            answers: *random.pick(&[0, 3, numbers, 4 * starts, 4 * starts + 2, 4 * starts + 4]),
            out: random.below(4),
        }
    }

    /// Whole, and in pieces of some length.
    fn safe_calls(&mut self, recording: &[u8], case: &Case, replayed: &Replayed) {
        let starts: Vec<_> = case.starts.iter().map(of_crate).collect();
        let input = || format!("{:?}, {:?}", case.starts, String::from_utf8_lossy(recording));
        let given = of_reference(hivesaddle::replay(recording, &starts));
        self.tally.same("safe replay", replayed, &given, input);
        let mut pieces = hivesaddle::Replay::new(&starts);
        let mut rest = recording;
        while !rest.is_empty() {
            let most = *self.random.pick(&[1, 23, 100, 5_000]);
            let length = self.random.between(1, most).min(rest.len());
            pieces.feed(&rest[..length]);
            rest = &rest[length..];
        }
        let given = of_reference(pieces.finish());
        self.tally.same("safe replay in pieces", replayed, &given, input);
    }

    /// Up to four readings of two boards at three times, each with its own
    /// temperature, against all six starts.
    fn every_short_recording(&mut self) {
        let kinds: Vec<Start> =
            (0..6).map(|kind| Start { time: kind % 3, board: (kind / 3) as u8 }).collect();
        for count in 0..=4 {
            for number in 0..6usize.pow(count) {
                let kind = |place: u32| &kinds[number / 6usize.pow(place) % 6];
                let reading = |place: u32| {
                    let Start { time, board } = *kind(place);
                    Reading { time, board, temperature: place as i16 - 2 }
                };
                let readings = (0..count).map(reading).collect();
                self.case(&Case { readings, starts: kinds.clone() });
            }
        }
    }

    fn seeded(&mut self, rounds: usize) {
        for _ in 0..rounds {
            let (readings, starts) =
                (*self.random.pick(&[3, 30, 200]), *self.random.pick(&[3, 30]));
            let case = any_case(&mut self.random, readings, starts);
            self.case(&case);
        }
    }

    fn spoilt(&mut self, rounds: usize) {
        for _ in 0..rounds {
            let case = any_case(&mut self.random, 12, 5);
            let mut recording = case.recording();
            for _ in 0..self.random.between(1, 2) {
                spoil(&mut self.random, &mut recording);
            }
            self.recording(&recording, &case);
        }
    }

    /// More lines than the safe call in pieces gathers at once.
    fn larger(&mut self, rounds: usize) {
        for _ in 0..rounds {
            let readings = self.random.between(3_000, 9_000);
            let starts = *self.random.pick(&[1, 255, 256, 1_024]);
            let case = case_of(&mut self.random, readings, starts);
            let mut recording = case.recording();
            self.recording(&recording, &case);
            spoil(&mut self.random, &mut recording);
            self.recording(&recording, &case);
        }
    }

    /// Reading i is of board i mod 256 at time 3i, so start i, up to two later,
    /// gets it; what stands around it in the file plays no part.
    fn long(&mut self) {
        let reading =
            |i: usize| Reading { time: 3 * i as u64, board: i as u8, temperature: i as u16 as i16 };
        let mut order: Vec<usize> = (0..LONG).collect();
        self.random.shuffle(&mut order);
        let recording = lines_of(&order.iter().map(|&i| reading(i)).collect::<Vec<_>>());
        self.random.shuffle(&mut order);
        let times: Vec<u64> = order.iter().map(|&i| (3 * i + i % 3) as u64).collect();
        let boards: Vec<u8> = order.iter().map(|&i| i as u8).collect();
        let replayed = Ok(order.iter().map(|&i| Some(reading(i))).collect());
        let input = ReplayInput { recording: &recording, times: &times, boards: &boards };
        for work in [LONG, LONG + 5, LONG - 1, LONG / 10] {
            let lengths = ReplayLengths { work, ..ReplayLengths::of(LONG) };
            compare_replay(&mut self.random, self.tally, &replayed, input, lengths);
        }
        let cut = ReplayInput { recording: &recording[..recording.len() - 1], ..input };
        let lengths = ReplayLengths::of(LONG);
        compare_replay(&mut self.random, self.tally, &Err(LONG as u64), cut, lengths);
    }
}

fn of_crate(start: &Start) -> hivesaddle::Start {
    hivesaddle::Start { time: start.time, board: start.board }
}

fn of_reference(given: Result<Vec<Option<hivesaddle::Reading>>, hivesaddle::BadLine>) -> Replayed {
    let reading = |reading: hivesaddle::Reading| Reading {
        time: reading.time,
        board: reading.board,
        temperature: reading.temperature,
    };
    match given {
        Ok(answers) => Ok(answers.into_iter().map(|answer| answer.map(reading)).collect()),
        Err(bad) => Err(bad.line),
    }
}

/// How often each answer was the right one.
#[derive(Default)]
struct Seen {
    found: u64,
    none: u64,
    /// At the start's own time.
    on_time: u64,
    /// Another of the board and time stands before it.
    later_of_equal: u64,
    /// One that is older stands behind it.
    out_of_order: u64,
    below_zero: u64,
    bad_first: u64,
    bad_later: u64,
}

impl Seen {
    fn replayed(&mut self, replayed: &Replayed, case: &Case) {
        let answers = match replayed {
            Ok(answers) => answers,
            Err(1) => return self.bad_first += 1,
            Err(_) => return self.bad_later += 1,
        };
        // A few are enough to know what comes up.
        for (answer, start) in answers.iter().zip(&case.starts).take(10) {
            match answer {
                Some(reading) => self.answered(reading, start, &case.readings),
                None => self.none += 1,
            }
        }
    }

    fn answered(&mut self, answer: &Reading, start: &Start, readings: &[Reading]) {
        self.found += 1;
        self.on_time += u64::from(answer.time == start.time);
        self.below_zero += u64::from(answer.temperature < 0);
        let own = || readings.iter().filter(|reading| reading.board == answer.board);
        let equal = own().filter(|reading| reading.time == answer.time);
        self.later_of_equal += u64::from(equal.count() > 1);
        let last = own().next_back();
        self.out_of_order += u64::from(last.is_some_and(|last| last.time < answer.time));
    }

    fn report(&self, tally: &mut Tally) {
        let kinds = [
            ("found", self.found),
            ("none", self.none),
            ("on time", self.on_time),
            ("later of equal times", self.later_of_equal),
            ("out of order", self.out_of_order),
            ("below zero", self.below_zero),
            ("first line bad", self.bad_first),
            ("later line bad", self.bad_later),
        ];
        let shown = kinds.iter().map(|(name, count)| format!("{name}: {count}"));
        println!("replays: {}", shown.collect::<Vec<String>>().join(", "));
        for (name, count) in kinds {
            tally.named(&format!("{name} has come up often"), &true, &(count >= 1_000));
        }
    }
}
