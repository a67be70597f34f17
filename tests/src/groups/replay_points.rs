//! Named points of the replay: answers by hand, every temperature at an edge,
//! every byte at every place of a line, cuts, and lists of every length.

use crate::boundary::{compare_replay, ReplayInput, ReplayLengths, ReplayOutputs};
use crate::generate::recordings::{case_of, lines_of, EDGES};
use crate::random::Random;
use crate::reference::replay::{replay, starts_of, Reading, Replayed, Start};
use crate::tally::Tally;
use hivesaddle::raw::hs_replay;
use std::ptr::{null, null_mut};

pub fn run(random: &mut Random, tally: &mut Tally) {
    let points = &mut Points { random, tally };
    points.by_hand();
    points.unsigned();
    points.equal_times();
    points.temperatures();
    points.bad_bytes();
    points.bad_lines();
    points.cuts();
    points.line_numbers();
    points.work_and_answers();
    points.different_lists();
    points.out_lengths();
    null_pointers(tally);
}

pub const LAST: u64 = u64::MAX;

pub fn reading(time: u64, board: u8, temperature: i16) -> Reading {
    Reading { time, board, temperature }
}

pub fn start(time: u64, board: u8) -> Start {
    Start { time, board }
}

/// Three good lines.
pub fn three() -> Vec<u8> {
    lines_of(&[reading(5, 1, -200), reading(0x0123_4567_89AB_CDEF, 2, 1_300), reading(LAST, 1, -1)])
}

struct Points<'a> {
    random: &'a mut Random,
    tally: &'a mut Tally,
}

impl Points<'_> {
    /// The library and the reference both have to give that answer.
    fn check(&mut self, name: &str, recording: &[u8], starts: &[Start], replayed: Replayed) {
        let times: Vec<u64> = starts.iter().map(|start| start.time).collect();
        let boards: Vec<u8> = starts.iter().map(|start| start.board).collect();
        let input = ReplayInput { recording, times: &times, boards: &boards };
        let mut outputs = ReplayOutputs::new(self.random, ReplayLengths::of(starts.len()));
        let expected = outputs.expected(&replayed, starts.len());
        self.tally.named(name, &expected, &outputs.call(input));
        self.tally.named(name, &replayed, &replay(recording, starts));
    }

    fn found(&mut self, name: &str, readings: &[Reading], cases: &[(Start, Option<usize>)]) {
        let starts: Vec<Start> = cases.iter().map(|case| case.0).collect();
        let answers = cases.iter().map(|case| case.1.map(|place| readings[place])).collect();
        self.check(name, &lines_of(readings), &starts, Ok(answers));
    }

    /// Readings, and the place of each start's answer among them.
    fn by_hand(&mut self) {
        self.found("nothing", &[], &[]);
        self.found("no readings", &[], &[(start(0, 0), None), (start(LAST, 255), None)]);
        self.found("no starts", &[reading(1, 2, 3)], &[]);
        let readings = [
            reading(9, 1, 1_300),
            reading(5, 1, -200),
            reading(7, 2, 0),
            reading(0, 3, -32_768),
            reading(LAST, 3, 32_767),
            reading(6, 1, 5),
        ];
        let cases = [
            (start(10, 1), Some(0)),
            (start(9, 1), Some(0)),
            (start(8, 1), Some(5)),
            (start(6, 1), Some(5)),
            (start(5, 1), Some(1)),
            (start(4, 1), None),
            (start(6, 2), None),
            (start(7, 2), Some(2)),
            (start(LAST, 2), Some(2)),
            (start(0, 3), Some(3)),
            (start(1, 3), Some(3)),
            (start(LAST - 1, 3), Some(3)),
            (start(LAST, 3), Some(4)),
            (start(LAST, 0), None),
            (start(LAST, 255), None),
            // once more
            (start(8, 1), Some(5)),
            (start(8, 1), Some(5)),
        ];
        self.found("out of order", &readings, &cases);
        let backwards: Vec<_> = cases.iter().rev().copied().collect();
        self.found("starts backwards", &readings, &backwards);
    }

    /// A time of 2 to the 63rd is not below zero, and a board of 128 neither.
    fn unsigned(&mut self) {
        let readings = [reading(1 << 63, 1, 1), reading((1 << 63) - 1, 1, 2)];
        let cases = [(start(LAST, 1), Some(0)), (start((1 << 63) - 1, 1), Some(1))];
        self.found("times are unsigned", &readings, &cases);
        let boards: Vec<Reading> = (0..=255).map(|board| reading(1, board, board.into())).collect();
        let cases: Vec<_> = (0..=255).map(|board| (start(1, board), Some(board.into()))).collect();
        self.found("every board", &boards, &cases);
    }

    fn equal_times(&mut self) {
        let (a, b, c) = (reading(5, 1, 1), reading(5, 1, 2), reading(5, 1, 1));
        let late = start(6, 1);
        for (name, readings, place) in [
            ("the later of two", vec![a, b], 1),
            ("the later of two, turned round", vec![b, a], 1),
            ("the last of three", vec![a, b, c], 2),
            ("another board between", vec![a, reading(5, 2, 9), b], 2),
            ("another board last", vec![a, b, reading(5, 2, 9)], 1),
            ("a lesser time last", vec![a, b, reading(4, 1, 9)], 1),
            ("a greater time first", vec![reading(6, 1, 9), a, b], 0),
            ("one after the start between", vec![a, reading(7, 1, 9), b], 2),
        ] {
            self.found(name, &readings, &[(late, Some(place)), (late, Some(place))]);
        }
        for time in [0, 1, LAST - 1, LAST] {
            let readings = [reading(time, 1, 1), reading(time, 1, 2)];
            self.found("equal times at an end", &readings, &[(start(time, 1), Some(1))]);
        }
    }

    /// By the safe call too, whose number is a signed one.
    fn temperatures(&mut self) {
        let tenths = [32_767, -32_768, -1, 0, -200, 1_300];
        for (bits, tenths) in EDGES.into_iter().zip(tenths) {
            let line = format!("{:016X}{:02X}{bits:04X}\n", 5, 1);
            let answers = Ok(vec![Some(reading(5, 1, tenths))]);
            self.check(&format!("{bits:04X}"), line.as_bytes(), &[start(5, 1)], answers);
            let starts = [hivesaddle::Start { time: 5, board: 1 }];
            let given = hivesaddle::replay(line.as_bytes(), &starts);
            let expected = hivesaddle::Reading { time: 5, board: 1, temperature: tenths };
            self.tally.named("the safe call", &Ok(vec![Some(expected)]), &given);
            let (degrees, given) = (f64::from(tenths) / 10.0, expected.degrees());
            self.tally.named("degrees", &degrees, &given);
        }
    }

    /// Every byte at every place of each of three lines.
    fn bad_bytes(&mut self) {
        let starts = [start(LAST, 1), start(LAST, 2), start(5, 1)];
        let sound = three();
        for at in 0..sound.len() {
            let line = at / 23 + 1;
            for byte in 0..=255 {
                let mut recording = sound.clone();
                recording[at] = byte;
                let is_digit = byte.is_ascii_digit() || (b'A'..=b'F').contains(&byte);
                let good = if at % 23 == 22 { byte == b'\n' } else { is_digit };
                let replayed = match good {
                    true => replay(&recording, &starts),
                    false => Err(line as u64),
                };
                let name = format!("byte {byte} at {at}");
                self.check(&name, &recording, &starts, replayed);
            }
        }
    }

    /// A line put before each of the three, and behind them.
    fn bad_lines(&mut self) {
        let sound = three();
        let digits = "0123456789ABCDEF0123456789";
        let mut lines: Vec<String> =
            (0..=26).map(|count| format!("{}\n", &digits[..count])).collect();
        lines.extend(lines[22..=23].to_vec().iter().map(|line| line.replace('\n', "\r\n")));
        lines.push(lines[22].to_lowercase());
        lines.push(format!(" {}", lines[21]));
        lines.push(format!("{} \n", &digits[..21]));
        lines.push(format!("0x{}\n", &digits[..20]));
        lines.push(format!("{}\0\n", &digits[..21]));
        lines.push("0".repeat(10_000) + "\n");
        lines.push("\r".to_string());
        for (kind, line) in lines.iter().enumerate() {
            for before in 0..=3 {
                let (front, back) = sound.split_at(23 * before);
                let recording = [front, line.as_bytes(), back].concat();
                let starts = [start(LAST, 1), start(LAST, 1)];
                let replayed = match kind {
                    22 => replay(&recording, &starts),
                    _ => Err(before as u64 + 1),
                };
                self.check(&format!("{line:?} behind {before}"), &recording, &starts, replayed);
            }
        }
    }

    /// An empty rest is no line, any other is a bad one.
    fn cuts(&mut self) {
        let readings: Vec<Reading> = (0..400).map(|i| reading(i, 1, i as i16)).collect();
        let recording = lines_of(&readings);
        for length in (0..100).chain(4_000..4_200).chain(8_100..8_300) {
            let (lines, rest) = (length / 23, length % 23);
            let replayed = match (lines, rest) {
                (0, 0) => Ok(vec![None]),
                (_, 0) => Ok(vec![Some(readings[lines - 1])]),
                _ => Err(lines as u64 + 1),
            };
            let name = format!("cut at {length}");
            self.check(&name, &recording[..length], &[start(LAST, 1)], replayed);
        }
    }

    /// Line numbers past 8 and 16 bits; the first bad line counts.
    fn line_numbers(&mut self) {
        let sound = three()[..23].repeat(70_000);
        for line in [1, 2, 178, 179, 255, 256, 257, 32_768, 65_535, 65_536, 65_537, 70_000] {
            let mut recording = sound.clone();
            recording[23 * line - 5] = b'G';
            self.check("bad line", &recording, &[start(5, 1)], Err(line as u64));
            recording[23 * 70_000 - 1] = b' ';
            self.check("two bad lines", &recording, &[start(5, 1)], Err(line as u64));
        }
    }

    /// For five starts, each length of both lists, after an answer and after a
    /// bad line.
    fn work_and_answers(&mut self) {
        let recording = three();
        let (times, boards) = ([LAST, 5, 4, LAST, 5], [1, 1, 1, 2, 1]);
        for recording in [&recording[..], &recording[..68], &[]] {
            let replayed = replay(recording, &starts_of(&times, &boards));
            let input = ReplayInput { recording, times: &times, boards: &boards };
            for work in 0..9 {
                for answers in 0..26 {
                    let lengths = ReplayLengths { work, answers, out: 1 };
                    compare_replay(self.random, self.tally, &replayed, input, lengths);
                }
            }
        }
    }

    /// Of the longer list the rest plays no part.
    fn different_lists(&mut self) {
        let case = case_of(self.random, 20, 12);
        let (recording, times, boards) = (case.recording(), case.times(), case.boards());
        for times in (0..=12).map(|length| &times[..length]) {
            for boards in (0..=12).map(|length| &boards[..length]) {
                let count = times.len().min(boards.len());
                let replayed = replay(&recording, &case.starts[..count]);
                let input = ReplayInput { recording: &recording, times, boards };
                for more in [0, 3, 20] {
                    let lengths = ReplayLengths { work: count, answers: 4 * count + more, out: 1 };
                    compare_replay(self.random, self.tally, &replayed, input, lengths);
                }
            }
        }
    }

    fn out_lengths(&mut self) {
        for recording in [&three()[..], b"\n"] {
            let replayed = replay(recording, &[start(5, 1)]);
            for out in 0..5 {
                let input = ReplayInput { recording, times: &[5], boards: &[1] };
                let lengths = ReplayLengths { work: 1, answers: 4, out };
                compare_replay(self.random, self.tally, &replayed, input, lengths);
            }
        }
    }
}

/// Lists of length 0 may have any pointer.
fn null_pointers(tally: &mut Tally) {
    let nothing = unsafe {
        let (times, boards, work) = (null(), null(), null_mut());
        hs_replay(null(), 0, times, 0, boards, 0, work, 0, null_mut(), 0, null_mut(), 0)
    };
    tally.named("null pointers", &0, &nothing);
    let (line, time) = (b"\n", 5);
    let (mut out, mut work) = (7, 7);
    let refused = unsafe {
        let (recording, times) = (line.as_ptr(), &time);
        hs_replay(recording, 1, times, 1, null(), 0, &mut work, 1, null_mut(), 0, &mut out, 1)
    };
    tally.named("null pointers and a bad line", &(22, 1, u32::MAX), &(refused, out, work));
}
