//! The year's table of the library beside that of the reference, with the two
//! lists that it writes to: `out` and `rows`.

use super::guarded::{guarded_u64, Guarded};
use super::numbers::year_numbers;
use crate::random::Random;
use crate::reference::year::Table;
use crate::tally::Tally;
use hivesaddle::raw::{hs_year_table, HS_YEAR_ROW_LENGTH};

/// What is handed over to be read.
#[derive(Clone, Copy, Debug)]
pub struct YearInput<'a> {
    pub lines: &'a [u8],
    pub hashes: &'a [u32],
    pub answers: &'a [u64],
}

/// The lengths of what is handed over to be written to.
#[derive(Clone, Copy, Debug)]
pub struct YearLengths {
    pub rows: usize,
    pub out: usize,
}

impl YearLengths {
    /// A place for each number of so many rows.
    pub fn of(rows: usize) -> YearLengths {
        YearLengths { rows: HS_YEAR_ROW_LENGTH * rows, out: 2 }
    }
}

/// What a call gave back and left behind, with the margins of both lists.
#[derive(Debug, PartialEq, Eq)]
pub struct YearOutcome {
    code: u32,
    out: Vec<u64>,
    rows: Vec<u64>,
}

/// The lists for one call.
pub struct YearOutputs {
    out: Guarded<u64>,
    rows: Guarded<u64>,
}

impl YearOutputs {
    pub fn new(random: &mut Random, lengths: YearLengths) -> YearOutputs {
        YearOutputs {
            out: guarded_u64(random, lengths.out),
            rows: guarded_u64(random, lengths.rows),
        }
    }

    /// What the table has to leave here: as many whole rows as fit, and none
    /// after a refusal.
    pub fn expected(&mut self, table: &Table) -> YearOutcome {
        let (code, out, numbers) = year_numbers(table);
        let fitting = self.rows.inner().len() / HS_YEAR_ROW_LENGTH * HS_YEAR_ROW_LENGTH;
        YearOutcome {
            code,
            out: self.out.after_writing(&out),
            rows: self.rows.after_writing(&numbers[..fitting.min(numbers.len())]),
        }
    }

    pub fn call(mut self, input: YearInput) -> YearOutcome {
        let (out, rows) = (self.out.inner(), self.rows.inner());
        let code = unsafe {
            hs_year_table(
                input.lines.as_ptr(),
                input.lines.len(),
                input.hashes.as_ptr(),
                input.hashes.len(),
                input.answers.as_ptr(),
                input.answers.len(),
                rows.as_mut_ptr(),
                rows.len(),
                out.as_mut_ptr(),
                out.len(),
            )
        };
        YearOutcome { code, out: self.out.all().to_vec(), rows: self.rows.all().to_vec() }
    }
}

/// The library beside a table, with lists of these lengths.
pub fn compare_year(
    random: &mut Random,
    tally: &mut Tally,
    table: &Table,
    input: YearInput,
    lengths: YearLengths,
) {
    let mut outputs = YearOutputs::new(random, lengths);
    let expected = outputs.expected(table);
    let given = outputs.call(input);
    let shown = || shown_input(input, lengths);
    tally.same("year", &(expected.code, expected.out), &(given.code, given.out), shown);
    tally.same("year, rows", &expected.rows, &given.rows, shown);
}

/// As much of the lists as can be read.
fn shown_input(input: YearInput, lengths: YearLengths) -> String {
    let lists = (input.lines.len(), input.hashes.len(), input.answers.len());
    let text = String::from_utf8_lossy(&input.lines[..input.lines.len().min(4_096)]);
    let hashes = &input.hashes[..input.hashes.len().min(100)];
    let answers = &input.answers[..input.answers.len().min(400)];
    format!("lists of {lists:?}, {lengths:?}, {text:?}, {hashes:X?}, {answers:X?}")
}
