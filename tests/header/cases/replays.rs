//! The replay, whole and in pieces, and the year's table.

use crate::call::{Arguments, Call};
use crate::judge::numbers::replay_numbers;
use crate::judge::*;
use crate::reference::{pieces, replay};

pub const TIMES: [u64; 5] = [0x30, 0x10, 0x20, 0x1_0000_0000, 0x25];
/// One more than there are times: there are as many starts as the shorter list has.
pub const BOARDS: [u8; 6] = [3, 3, 7, 3, 7, 9];
pub const RECORDING: &str = "000000000000001803FF38\n\
                         0000000000000018030514\n\
                         000000000000002107FFFF\n\
                         0000000000000011070001\n\
                         00000000FFFFFFFF030002\n";

pub fn all() -> Vec<Call> {
    let recording = RECORDING.as_bytes();
    let bad = &recording[..100];
    let mut calls = Vec::new();
    for (recording, work, room) in
        [(recording, 6, 23), (recording, 2, 10), (bad, 5, 20), (&[], 0, 4)]
    {
        calls.push(whole(recording, work, room));
    }
    calls.extend([(6, 23), (3, 23), (5, 10)].map(|(work, room)| begin(work, room)));
    for (lines, bad, piece) in
        [(0, 0, recording), (5, 0, &recording[..70]), (5, 2, recording), (9, 0, &recording[1..])]
    {
        calls.push(feed(lines, bad, piece));
    }
    for (lines, bad, waiting) in [(5, 0, 0), (5, 0, 3), (5, 3, 0), (3, 4, 9)] {
        calls.push(finish(lines, bad, waiting));
    }
    calls.extend(years());
    calls
}

type Starts = ((*const u64, usize), (*const u8, usize));

fn starts(c: &mut Arguments) -> Starts {
    (c.read("times", "times_length", &TIMES), c.read("boards", "boards_length", &BOARDS))
}

/// What a run in pieces leaves at its end.
pub fn final_answers() -> Vec<u64> {
    let replayed = replay::replay(RECORDING.as_bytes(), &replay::starts_of(&TIMES, &BOARDS));
    replay_numbers(&replayed, TIMES.len()).2
}

fn whole(recording: &[u8], work: usize, room: usize) -> Call {
    Call::of("hs_replay", |c| {
        let (recording, length) = c.read("recording", "length", recording);
        let ((times, of_times), (boards, of_boards)) = starts(c);
        let (work, of_work) = c.written("work", "work_length", work);
        let (answers, of_answers) = c.written("answers", "answers_length", room);
        let (out, of_out) = c.written("out", "out_length", 2);
        unsafe {
            judge_replay(
                recording, length, times, of_times, boards, of_boards, work, of_work, answers,
                of_answers, out, of_out,
            )
        }
    })
}

fn begin(work: usize, room: usize) -> Call {
    Call::of("hs_replay_begin", |c| {
        let ((times, of_times), (boards, of_boards)) = starts(c);
        let (work, of_work) = c.written("work", "work_length", work);
        let (answers, of_answers) = c.written("answers", "answers_length", room);
        let (out, of_out) = c.written("out", "out_length", 3);
        unsafe {
            judge_replay_begin(
                times, of_times, boards, of_boards, work, of_work, answers, of_answers, out, of_out,
            )
        }
    })
}

/// Answers of an earlier piece for the first start, and none for the others.
fn answers(c: &mut Arguments) -> (*mut u64, usize) {
    let mut so_far = [0; 4 * TIMES.len() + 3];
    so_far[..4].copy_from_slice(&[1, 0x12, 3, 0xFFFE]);
    c.changed("answers", "answers_length", &so_far)
}

fn feed(lines: u64, bad: u64, piece: &[u8]) -> Call {
    let order = pieces::order(&replay::starts_of(&TIMES, &BOARDS));
    Call::of("hs_replay_feed", |c| {
        let (lines, bad) = (c.number("lines", lines), c.number("bad", bad));
        let (piece, length) = c.read("piece", "length", piece);
        let ((times, of_times), (boards, of_boards)) = starts(c);
        let (work, of_work) = c.read("work", "work_length", &order);
        let (answers, of_answers) = answers(c);
        if bad == 0 {
            c.own(4 * TIMES.len());
        }
        let (out, of_out) = c.written("out", "out_length", 3);
        unsafe {
            judge_replay_feed(
                lines, bad, piece, length, times, of_times, boards, of_boards, work, of_work,
                answers, of_answers, out, of_out,
            )
        }
    })
}

fn finish(lines: u64, bad: u64, waiting: u64) -> Call {
    Call::of("hs_replay_finish", |c| {
        let (lines, bad) = (c.number("lines", lines), c.number("bad", bad));
        let waiting = c.number("waiting", waiting);
        let ((times, of_times), (boards, of_boards)) = starts(c);
        let (work, of_work) = c.written("work", "work_length", TIMES.len() + 1);
        let (answers, of_answers) = answers(c);
        let (out, of_out) = c.written("out", "out_length", 2);
        unsafe {
            judge_replay_finish(
                lines, bad, waiting, times, of_times, boards, of_boards, work, of_work, answers,
                of_answers, out, of_out,
            )
        }
    })
}

/// A table, one whose rows do not all fit, and one with a bad line.
fn years() -> [Call; 3] {
    let lines =
        "00000094000000410000000211\n0000D400000041000000051E\n00000094000000420000000311\n";
    let answers = [1, 5, 3, 0xFF38, 0, 0, 0, 0, 1, 6, 3, 0x0514, 1];
    [(lines, 40), (lines, 20), (&lines[..60], 40)].map(|(lines, room)| {
        Call::of("hs_year_table", |c| {
            let (lines, length) = c.read("lines", "length", lines.as_bytes());
            let (hashes, starts) = c.read("hashes", "starts", &[65u32, 7, 65, 8]);
            let (answers, answers_length) = c.read("answers", "answers_length", &answers);
            let (rows, rows_length) = c.written("rows", "rows_length", room);
            let (out, out_length) = c.written("out", "out_length", 2);
            unsafe {
                judge_year_table(
                    lines,
                    length,
                    hashes,
                    starts,
                    answers,
                    answers_length,
                    rows,
                    rows_length,
                    out,
                    out_length,
                )
            }
        })
    })
}
