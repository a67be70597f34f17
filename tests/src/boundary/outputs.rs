//! The lists that a reader writes to: `out` and `predecessors`.

use super::guarded::{guarded_u32, guarded_u64, Guarded};
use super::numbers::numbers_of;
use crate::random::Random;
use crate::reference::readers::Answer;

pub type RawReader =
    unsafe extern "C" fn(*const u8, usize, *mut u32, usize, *mut u64, usize) -> u32;

/// What a reader gave back and left behind, with the margins of both lists.
#[derive(Debug, PartialEq, Eq)]
pub struct Outcome {
    pub code: u32,
    pub out: Vec<u64>,
    pub predecessors: Vec<u32>,
}

/// The lists for one call.
pub struct Outputs {
    out: Guarded<u64>,
    predecessors: Guarded<u32>,
}

impl Outputs {
    pub fn new(random: &mut Random, out_length: usize, places: usize) -> Outputs {
        Outputs { out: guarded_u64(random, out_length), predecessors: guarded_u32(random, places) }
    }

    /// What the answer has to leave here.
    pub fn expected(&self, answer: &Answer) -> Outcome {
        let (code, values) = numbers_of(&answer.verdict);
        Outcome {
            code,
            out: self.out.after_writing(&values),
            predecessors: self.predecessors.after_writing(&answer.predecessors),
        }
    }

    pub fn call(mut self, reader: RawReader, bytes: &[u8]) -> Outcome {
        let (out, predecessors) = (self.out.inner(), self.predecessors.inner());
        let code = unsafe {
            reader(
                bytes.as_ptr(),
                bytes.len(),
                predecessors.as_mut_ptr(),
                predecessors.len(),
                out.as_mut_ptr(),
                out.len(),
            )
        };
        let (out, predecessors) = (self.out.all().to_vec(), self.predecessors.all().to_vec());
        Outcome { code, out, predecessors }
    }
}
