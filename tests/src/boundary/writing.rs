//! The writer of the library beside an answer, with the three lists that it
//! writes to: `out`, `predecessors` and `output`.

use super::guarded::{guarded_bytes, guarded_u32, guarded_u64, Guarded};
use super::numbers::numbers_of;
use crate::random::Random;
use crate::reference::writer::{Description, Written};
use crate::tally::{hex, hex_numbers, Tally};
use hivesaddle::raw::{hs_write_file, HS_READER_OUT};

/// What a call gave back and left behind, with the margins of all lists.
#[derive(Debug, PartialEq, Eq)]
pub struct WriteOutcome {
    code: u32,
    out: Vec<u64>,
    predecessors: Vec<u32>,
    output: Vec<u8>,
}

/// The lists for one call.
pub struct WriteOutputs {
    out: Guarded<u64>,
    predecessors: Guarded<u32>,
    output: Guarded<u8>,
}

impl WriteOutputs {
    pub fn new(
        random: &mut Random,
        out_length: usize,
        places: usize,
        output_length: usize,
    ) -> WriteOutputs {
        WriteOutputs {
            out: guarded_u64(random, out_length),
            predecessors: guarded_u32(random, places),
            output: guarded_bytes(random, output_length),
        }
    }

    /// What the answer has to leave here: nothing in `output` after a refusal.
    pub fn expected(&self, written: &Written) -> WriteOutcome {
        let (code, values) = numbers_of(&written.answer.verdict);
        WriteOutcome {
            code,
            out: self.out.after_writing(&values),
            predecessors: self.predecessors.after_writing(&written.answer.predecessors),
            output: self.output.after_writing(written.file.as_deref().unwrap_or(&[])),
        }
    }

    pub fn call(mut self, described: &Description) -> WriteOutcome {
        let (out, output) = (self.out.inner(), self.output.inner());
        let predecessors = self.predecessors.inner();
        let Description { name, metrics, trace, strings, volumes, .. } = described;
        let code = unsafe {
            hs_write_file(
                described.version,
                name.as_ptr(),
                name.len(),
                described.stored_hash,
                described.run_time,
                described.run_count,
                metrics.as_ptr(),
                metrics.len(),
                trace.as_ptr(),
                trace.len(),
                strings.as_ptr(),
                strings.len(),
                volumes.as_ptr(),
                volumes.len(),
                described.volume_count,
                predecessors.as_mut_ptr(),
                predecessors.len(),
                output.as_mut_ptr(),
                output.len(),
                out.as_mut_ptr(),
                out.len(),
            )
        };
        WriteOutcome {
            code,
            out: self.out.all().to_vec(),
            predecessors: self.predecessors.all().to_vec(),
            output: self.output.all().to_vec(),
        }
    }
}

/// The library beside an answer, with an output of so many bytes. Now and then
/// `out` has some other length.
pub fn compare_write(
    random: &mut Random,
    tally: &mut Tally,
    written: &Written,
    described: &Description,
    output_length: usize,
) {
    let out_length = match random.one_in(8) {
        true => random.below(HS_READER_OUT + 4),
        false => HS_READER_OUT,
    };
    let places = written.answer.predecessors.len();
    let outputs = WriteOutputs::new(random, out_length, places, output_length);
    let expected = outputs.expected(written);
    let given = outputs.call(described);
    let input = || format!("{places} slots, {output_length} bytes, {}", shown(described));
    tally.same("writer", &(expected.code, expected.out), &(given.code, given.out), input);
    tally.same("writer, output", &expected.output, &given.output, input);
    tally.same("writer, predecessors", &expected.predecessors, &given.predecessors, input);
}

/// A description, to be made again from a failing comparison.
pub fn shown(described: &Description) -> String {
    let Description { name, metrics, trace, strings, volumes, .. } = described;
    format!(
        "version {}, name {name:x?}, hash {}, time {}, runs {}, metrics {}, trace {}, strings {}, \
         volumes {}, volume count {}",
        described.version,
        described.stored_hash,
        described.run_time,
        described.run_count,
        hex_numbers(metrics),
        hex_numbers(trace),
        hex(strings),
        hex(volumes),
        described.volume_count
    )
}
