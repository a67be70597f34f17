//! A reader of the library beside that of the reference.

use super::outputs::{Outputs, RawReader};
use crate::random::Random;
use crate::reference::readers::{read_file, read_prefix, Answer};
use crate::tally::{hex, Tally};
use hivesaddle::raw::{hs_read_file, hs_read_prefix, HS_READER_OUT};

/// A reader of the library and that of the reference.
pub struct Reader {
    pub name: &'static str,
    pub library: RawReader,
    pub reference: fn(&[u8], usize) -> Answer,
}

pub const PREFIX_READER: Reader =
    Reader { name: "prefix reader", library: hs_read_prefix, reference: read_prefix };
pub const WHOLE_READER: Reader =
    Reader { name: "whole-file reader", library: hs_read_file, reference: read_file };

/// What the reference says of the same bytes and number of slots.
pub struct Answers {
    pub prefix: Answer,
    pub whole: Answer,
}

/// Both readers beside the reference.
pub fn compare_both(
    random: &mut Random,
    tally: &mut Tally,
    bytes: &[u8],
    places: usize,
) -> Answers {
    let prefix = (PREFIX_READER.reference)(bytes, places);
    let whole = (WHOLE_READER.reference)(bytes, places);
    compare_reader(random, tally, &PREFIX_READER, &prefix, bytes);
    compare_reader(random, tally, &WHOLE_READER, &whole, bytes);
    Answers { prefix, whole }
}

/// One reader beside an answer: what it gives back, and all that both lists
/// and their margins hold.
pub fn compare_reader(
    random: &mut Random,
    tally: &mut Tally,
    reader: &Reader,
    answer: &Answer,
    bytes: &[u8],
) {
    let (name, places) = (reader.name, answer.predecessors.len());
    let out_length = out_length(random);
    let outputs = Outputs::new(random, out_length, places);
    let expected = outputs.expected(answer);
    let given = outputs.call(reader.library, bytes);
    let input = || format!("{places} slots, {}", hex(bytes));
    tally.same(name, &(expected.code, expected.out), &(given.code, given.out), input);
    let what = "predecessors";
    tally
        .same(what, &expected.predecessors, &given.predecessors, || format!("{name}, {}", input()));
}

/// Now and then some other number than all that there are.
fn out_length(random: &mut Random) -> usize {
    match random.one_in(16) {
        true => random.below(HS_READER_OUT + 4),
        false => HS_READER_OUT,
    }
}
