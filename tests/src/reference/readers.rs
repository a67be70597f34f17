//! The prefix reader, the whole-file reader and `predecessors`: the paper's part
//! reader, whole reader and working buffer.

use super::checks::{first_stop, Input, Refusal, Stop};
use super::head::*;
use super::layout::END;
use super::trace;

#[derive(Clone, Copy, Debug, PartialEq, Eq)]
pub struct Record {
    pub version: u64,
    pub declared_size: u64,
    pub name_units: u64,
    pub stored_hash: u64,
    /// The latest run time and seven older ones, 0 where the version has none.
    pub run_times: [u64; 8],
    pub time_count: u64,
    pub run_count: u64,
    pub metrics_count: u64,
    pub trace_count: u64,
    pub volume_count: u64,
    pub chain_count: u64,
}

#[derive(Clone, Copy, Debug, PartialEq, Eq)]
pub enum Verdict {
    Accepted(Record),
    Refused(Refusal),
    Wanted(u64),
}

/// A verdict, and `predecessors` afterwards.
#[derive(Clone, Debug, PartialEq, Eq)]
pub struct Answer {
    pub verdict: Verdict,
    pub predecessors: Vec<u32>,
}

pub fn read_prefix(prefix: &[u8], places: usize) -> Answer {
    let input = Input { bytes: prefix, places: places as u64 };
    match first_stop(&input) {
        None => Answer {
            verdict: Verdict::Accepted(record(prefix)),
            predecessors: trace::predecessors(prefix, places),
        },
        Some(Stop::Refused(refusal)) => no_acceptance(Verdict::Refused(refusal), places),
        Some(Stop::Wanted(bytes)) => no_acceptance(Verdict::Wanted(bytes), places),
    }
}

pub fn read_file(file: &[u8], places: usize) -> Answer {
    let answer = read_prefix(file, places);
    let number = match answer.verdict {
        Verdict::Refused(_) => return answer,
        Verdict::Wanted(_) => 16,
        Verdict::Accepted(record) => match record.declared_size.cmp(&(file.len() as u64)) {
            std::cmp::Ordering::Equal => return answer,
            std::cmp::Ordering::Greater => 16,
            std::cmp::Ordering::Less => 17,
        },
    };
    // At the declared size, also where the file ends before it.
    let refusal = Refusal { number, index: 0, offset: SIZE_FIELD };
    no_acceptance(Verdict::Refused(refusal), places)
}

fn no_acceptance(verdict: Verdict, places: usize) -> Answer {
    Answer { verdict, predecessors: vec![END; places] }
}

/// What an accepted file says of itself.
pub fn record(file: &[u8]) -> Record {
    Record {
        version: number_32(file, 0),
        declared_size: declared_size(file),
        name_units: name_units(file).expect("check 4 is passed") as u64,
        stored_hash: stored_hash(file),
        run_times: run_times(file),
        time_count: known_layout(file).time_count as u64,
        run_count: run_count(file),
        metrics_count: metrics_count(file),
        trace_count: trace_count(file),
        volume_count: volume_count(file),
        chain_count: trace::chain_count(file),
    }
}
