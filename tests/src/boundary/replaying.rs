//! The replay of the library beside an answer, with the three lists that it
//! writes to: `out`, `work` and `answers`.

use super::guarded::{guarded_u32, guarded_u64, Guarded};
use super::numbers::replay_numbers;
use crate::random::Random;
use crate::reference::replay::{starts_of, Replayed};
use crate::tally::Tally;
use hivesaddle::raw::{hs_replay, HS_ANSWER_LENGTH, HS_NONE};

/// What is handed over to be read.
#[derive(Clone, Copy, Debug)]
pub struct ReplayInput<'a> {
    pub recording: &'a [u8],
    pub times: &'a [u64],
    pub boards: &'a [u8],
}

/// The lengths of what is handed over to be written to.
#[derive(Clone, Copy, Debug)]
pub struct ReplayLengths {
    pub work: usize,
    pub answers: usize,
    pub out: usize,
}

impl ReplayLengths {
    /// A place of each kind for every start.
    pub fn of(starts: usize) -> ReplayLengths {
        ReplayLengths { work: starts, answers: HS_ANSWER_LENGTH * starts, out: 1 }
    }
}

/// What a replay gave back and left behind, with the margins of all lists.
#[derive(Debug, PartialEq, Eq)]
pub struct ReplayOutcome {
    code: u32,
    out: Vec<u64>,
    work: Vec<u32>,
    answers: Vec<u64>,
}

/// The lists for one call.
pub struct ReplayOutputs {
    out: Guarded<u64>,
    work: Guarded<u32>,
    answers: Guarded<u64>,
}

impl ReplayOutputs {
    pub fn new(random: &mut Random, lengths: ReplayLengths) -> ReplayOutputs {
        ReplayOutputs {
            out: guarded_u64(random, lengths.out),
            work: guarded_u32(random, lengths.work),
            answers: guarded_u64(random, lengths.answers),
        }
    }

    /// What the answer has to leave here: as many whole answers as fit, and
    /// nothing of the order in `work`.
    pub fn expected(&mut self, replayed: &Replayed, starts: usize) -> ReplayOutcome {
        let (code, out, numbers) = replay_numbers(replayed, starts);
        let work = vec![HS_NONE; self.work.inner().len()];
        let fitting = self.answers.inner().len() / HS_ANSWER_LENGTH * HS_ANSWER_LENGTH;
        ReplayOutcome {
            code,
            out: self.out.after_writing(&out),
            work: self.work.after_writing(&work),
            answers: self.answers.after_writing(&numbers[..fitting.min(numbers.len())]),
        }
    }

    pub fn call(mut self, input: ReplayInput) -> ReplayOutcome {
        let (out, work, answers) = (self.out.inner(), self.work.inner(), self.answers.inner());
        let code = unsafe {
            hs_replay(
                input.recording.as_ptr(),
                input.recording.len(),
                input.times.as_ptr(),
                input.times.len(),
                input.boards.as_ptr(),
                input.boards.len(),
                work.as_mut_ptr(),
                work.len(),
                answers.as_mut_ptr(),
                answers.len(),
                out.as_mut_ptr(),
                out.len(),
            )
        };
        ReplayOutcome {
            code,
            out: self.out.all().to_vec(),
            work: self.work.all().to_vec(),
            answers: self.answers.all().to_vec(),
        }
    }
}

/// The library beside an answer, with lists of these lengths.
pub fn compare_replay(
    random: &mut Random,
    tally: &mut Tally,
    replayed: &Replayed,
    input: ReplayInput,
    lengths: ReplayLengths,
) {
    let starts = input.times.len().min(input.boards.len());
    let mut outputs = ReplayOutputs::new(random, lengths);
    let expected = outputs.expected(replayed, starts);
    let given = outputs.call(input);
    let shown = || shown_input(input, lengths);
    tally.same("replay", &(expected.code, expected.out), &(given.code, given.out), shown);
    tally.same("replay, answers", &expected.answers, &given.answers, shown);
    tally.same("replay, work", &expected.work, &given.work, shown);
}

/// The starts with the recording as text, or as much of both as can be read.
fn shown_input(input: ReplayInput, lengths: ReplayLengths) -> String {
    let mut starts = starts_of(input.times, input.boards);
    starts.truncate(100);
    let recording = &input.recording[..input.recording.len().min(4_096)];
    let lists = (input.times.len(), input.boards.len());
    let text = String::from_utf8_lossy(recording);
    format!("lists of {lists:?}, {lengths:?}, {starts:?}, {text:?}")
}
