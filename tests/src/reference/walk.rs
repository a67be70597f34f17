//! The walk along all chains, of a file that the whole-file reader accepts.

use super::checks::Refusal;
use super::head::{known_layout, trace_count};
use super::layout::END;
use super::readers::{read_file, Verdict};
use super::trace;

#[derive(Clone, Debug, PartialEq, Eq)]
pub struct Walk {
    /// The entries in the order visited; the steps are its length.
    pub order: Vec<u32>,
    /// Their block counts, added up.
    pub total: u64,
}

/// A walk or a refusal, and `predecessors` afterwards.
#[derive(Clone, Debug, PartialEq, Eq)]
pub struct Walked {
    pub outcome: Result<Walk, Refusal>,
    pub predecessors: Vec<u32>,
}

/// With so many slots and so many places for the order. A refusal of the
/// reader comes first.
pub fn walk(file: &[u8], places: usize, order_length: usize) -> Walked {
    let answer = read_file(file, places);
    let refused = |refusal| Walked { outcome: Err(refusal), predecessors: vec![END; places] };
    let refusal = match answer.verdict {
        Verdict::Accepted(_) => None,
        Verdict::Refused(refusal) => Some(refusal),
        Verdict::Wanted(_) => unreachable!("the whole-file reader asks for nothing"),
    };
    if let Some(refusal) = refusal {
        return refused(refusal);
    }
    let predecessors = answer.predecessors;
    if !known_layout(file).has_next {
        return Walked { outcome: Ok(Walk { order: Vec::new(), total: 0 }), predecessors };
    }
    if (order_length as u64) < trace_count(file) {
        return refused(Refusal { number: 23, index: 0, offset: 0 });
    }
    let count = trace_count(file) as u32;
    let order = visited(&predecessors[..count as usize]);
    let total = (0..count).map(|entry| trace::block_count(file, entry as u64)).sum();
    Walked { outcome: Ok(Walk { order, total }), predecessors }
}

/// Chains come in the order of their heads, and on a chain the entries in the
/// order of their distance from the head.
fn visited(predecessors: &[u32]) -> Vec<u32> {
    let mut order: Vec<u32> = (0..predecessors.len() as u32).collect();
    order.sort_by_key(|&entry| head_and_distance(predecessors, entry));
    order
}

/// Where the way back from an entry ends, and how far that is.
fn head_and_distance(predecessors: &[u32], entry: u32) -> (u32, u32) {
    let (mut at, mut distance) = (entry, 0);
    while predecessors[at as usize] != END {
        at = predecessors[at as usize];
        distance += 1;
    }
    (at, distance)
}

#[cfg(test)]
mod points {
    use super::*;

    #[test]
    fn orders_by_hand() {
        assert_eq!(visited(&[]), []);
        assert_eq!(visited(&[END, END, END]), [0, 1, 2]);
        // Links (end, 0, 1) and (3, end, end, 1).
        assert_eq!(visited(&[1, 2, END]), [2, 1, 0]);
        assert_eq!(visited(&[END, 3, END, 0]), [0, 3, 1, 2]);
    }
}
