//! The three calls of the replay in pieces, with the lists that they share and
//! their `out`. The lists keep their noise between the calls.

use super::guarded::{guarded_u32, guarded_u64, Guarded, MARGIN};
use super::replaying::ReplayLengths;
use crate::random::Random;
use hivesaddle::raw::{hs_replay_begin, hs_replay_feed, hs_replay_finish};

/// What a call gave back and left behind, with the margins of all lists.
#[derive(Clone, Debug, PartialEq, Eq)]
pub struct Told {
    pub code: u32,
    pub out: Vec<u64>,
    pub work: Vec<u32>,
    pub answers: Vec<u64>,
}

impl Told {
    /// With the first so many answers of another: what stands there between two
    /// calls is the library's own affair.
    pub fn with_answers_of(mut self, other: &Told, count: usize) -> Told {
        self.answers[MARGIN..][..count].copy_from_slice(&other.answers[MARGIN..][..count]);
        self
    }
}

/// The lists of a replay. `out` is filled with new noise for each call.
#[derive(Clone)]
pub struct PieceLists<'a> {
    pub times: &'a [u64],
    pub boards: &'a [u8],
    pub work: Guarded<u32>,
    pub answers: Guarded<u64>,
    pub out: Guarded<u64>,
}

impl<'a> PieceLists<'a> {
    pub fn new(
        random: &mut Random,
        times: &'a [u64],
        boards: &'a [u8],
        lengths: ReplayLengths,
    ) -> PieceLists<'a> {
        PieceLists {
            times,
            boards,
            work: guarded_u32(random, lengths.work),
            answers: guarded_u64(random, lengths.answers),
            out: guarded_u64(random, lengths.out),
        }
    }

    /// For the next call, with an `out` of this length.
    pub fn renew_out(&mut self, random: &mut Random, length: usize) {
        self.out = guarded_u64(random, length);
    }

    /// What a call has to leave that writes these numbers, each to the start of
    /// its list, as many as fit.
    pub fn expected(&self, code: u32, out: &[u64], work: &[u32], answers: &[u64]) -> Told {
        Told {
            code,
            out: self.out.after_writing(out),
            work: self.work.after_writing(work),
            answers: self.answers.after_writing(answers),
        }
    }

    fn told(&self, code: u32) -> Told {
        Told {
            code,
            out: self.out.all().to_vec(),
            work: self.work.all().to_vec(),
            answers: self.answers.all().to_vec(),
        }
    }

    pub fn begin(&mut self) -> Told {
        let (out, work, answers) = (self.out.inner(), self.work.inner(), self.answers.inner());
        let code = unsafe {
            hs_replay_begin(
                self.times.as_ptr(),
                self.times.len(),
                self.boards.as_ptr(),
                self.boards.len(),
                work.as_mut_ptr(),
                work.len(),
                answers.as_mut_ptr(),
                answers.len(),
                out.as_mut_ptr(),
                out.len(),
            )
        };
        self.told(code)
    }

    pub fn feed(&mut self, lines: u64, bad: u64, piece: &[u8]) -> Told {
        let (out, work, answers) = (self.out.inner(), self.work.inner(), self.answers.inner());
        let code = unsafe {
            hs_replay_feed(
                lines,
                bad,
                piece.as_ptr(),
                piece.len(),
                self.times.as_ptr(),
                self.times.len(),
                self.boards.as_ptr(),
                self.boards.len(),
                work.as_ptr(),
                work.len(),
                answers.as_mut_ptr(),
                answers.len(),
                out.as_mut_ptr(),
                out.len(),
            )
        };
        self.told(code)
    }

    pub fn finish(&mut self, lines: u64, bad: u64, waiting: u64) -> Told {
        let (out, work, answers) = (self.out.inner(), self.work.inner(), self.answers.inner());
        let code = unsafe {
            hs_replay_finish(
                lines,
                bad,
                waiting,
                self.times.as_ptr(),
                self.times.len(),
                self.boards.as_ptr(),
                self.boards.len(),
                work.as_mut_ptr(),
                work.len(),
                answers.as_mut_ptr(),
                answers.len(),
                out.as_mut_ptr(),
                out.len(),
            )
        };
        self.told(code)
    }
}
