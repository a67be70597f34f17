//! The numbers that a verdict of the reference stands for, a walk, a replay or a
//! year's table, in the order of `out`. The fuzzer's judge has this file too, so it takes the
//! constants from the module above.

use super::constants::*;
use crate::reference::checks::Refusal;
use crate::reference::readers::Verdict;
use crate::reference::replay::{Reading, Replayed};
use crate::reference::walk::Walk;
use crate::reference::year::{Row, Table};

/// Every field is zero with any answer but an acceptance.
pub fn numbers_of(verdict: &Verdict) -> (u32, [u64; HS_READER_OUT]) {
    let mut out = [0; HS_READER_OUT];
    let code = match *verdict {
        Verdict::Accepted(record) => {
            out[HS_VERSION] = record.version;
            out[HS_DECLARED_SIZE] = record.declared_size;
            out[HS_NAME_UNITS] = record.name_units;
            out[HS_STORED_HASH] = record.stored_hash;
            out[HS_RUN_TIME] = record.run_times[0];
            out[HS_RUN_TIME_2..=HS_RUN_TIME_8].copy_from_slice(&record.run_times[1..]);
            out[HS_TIME_COUNT] = record.time_count;
            out[HS_RUN_COUNT] = record.run_count;
            out[HS_METRICS_COUNT] = record.metrics_count;
            out[HS_TRACE_COUNT] = record.trace_count;
            out[HS_VOLUME_COUNT] = record.volume_count;
            out[HS_CHAIN_COUNT] = record.chain_count;
            HS_ACCEPTED
        }
        Verdict::Refused(refusal) => {
            out[HS_NUMBER] = refusal.number;
            out[HS_INDEX] = refusal.index;
            out[HS_OFFSET] = refusal.offset;
            HS_REFUSED
        }
        Verdict::Wanted(bytes) => {
            out[HS_BYTES_WANTED] = bytes;
            HS_WANTED
        }
    };
    (code, out)
}

/// Steps and total are zero after a refusal, and its places after a walk.
pub fn walk_numbers(outcome: &Result<Walk, Refusal>) -> (u32, [u64; HS_WALK_OUT]) {
    let mut out = [0; HS_WALK_OUT];
    let code = match outcome {
        Ok(walk) => {
            out[HS_WALK_STEPS] = walk.order.len() as u64;
            out[HS_WALK_TOTAL] = walk.total;
            HS_ACCEPTED
        }
        Err(refusal) => {
            out[HS_WALK_NUMBER] = refusal.number;
            out[HS_WALK_INDEX] = refusal.index;
            out[HS_WALK_OFFSET] = refusal.offset;
            HS_REFUSED
        }
    };
    (code, out)
}

/// The answers for so many starts too, four numbers each. After a bad line all
/// of them are none.
pub fn replay_numbers(replayed: &Replayed, starts: usize) -> (u32, [u64; 1], Vec<u64>) {
    match replayed {
        Ok(answers) => {
            assert_eq!(answers.len(), starts);
            (0, [0], answers.iter().flat_map(answer_numbers).collect())
        }
        Err(line) => (22, [*line], vec![0; HS_ANSWER_LENGTH * starts]),
    }
}

pub fn answer_numbers(answer: &Option<Reading>) -> [u64; HS_ANSWER_LENGTH] {
    match *answer {
        None => [0; HS_ANSWER_LENGTH],
        Some(Reading { time, board, temperature }) => {
            [1, time, board.into(), i64::from(temperature).rem_euclid(65_536) as u64]
        }
    }
}

/// The rows too, nine numbers each; none after a refusal.
pub fn year_numbers(table: &Table) -> (u32, [u64; 2], Vec<u64>) {
    match table {
        Ok(rows) => (0, [0, rows.len() as u64], rows.iter().flat_map(row_numbers).collect()),
        Err(refused) => (refused.number, [refused.place, 0], Vec::new()),
    }
}

fn row_numbers(row: &Row) -> [u64; HS_YEAR_ROW_LENGTH] {
    let mut numbers = [0; HS_YEAR_ROW_LENGTH];
    numbers[HS_YEAR_HASH] = row.stored_hash.into();
    numbers[HS_YEAR_LINES] = row.lines;
    numbers[HS_YEAR_RUN_COUNTS] = row.run_counts;
    if let Some(readings) = row.readings {
        numbers[HS_YEAR_READINGS] = readings.count;
        numbers[HS_YEAR_LOWEST] = readings.lowest as u64;
        numbers[HS_YEAR_HIGHEST] = readings.highest as u64;
        numbers[HS_YEAR_SUM] = readings.sum as u64;
        numbers[HS_YEAR_MEAN] = readings.mean as u64;
        numbers[HS_YEAR_REMAINDER] = readings.remainder;
    }
    numbers
}
