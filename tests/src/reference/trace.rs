//! The trace entries and their next links.

use super::head::{known_layout, number_32, section, trace_count, TRACE};
use super::layout::END;

pub fn entry_start(file: &[u8], entry: u64) -> u64 {
    section(file, TRACE).start + entry * known_layout(file).trace_entry
}

fn next(file: &[u8], entry: u64) -> u64 {
    number_32(file, entry_start(file, entry) as usize)
}

/// The blocks loaded for an entry, right behind its next index.
pub fn block_count(file: &[u8], entry: u64) -> u64 {
    number_32(file, entry_start(file, entry) as usize + 4)
}

/// All the next indexes, in order; none where trace entries have no such field,
/// so that there is nothing to find, no chain and no predecessor.
fn links(file: &[u8]) -> Vec<u64> {
    match known_layout(file).has_next {
        true => (0..trace_count(file)).map(|entry| next(file, entry)).collect(),
        false => Vec::new(),
    }
}

/// Check 11: the first next index that is neither the end nor an entry.
pub fn wild(file: &[u8]) -> Option<u64> {
    let links = links(file);
    let count = links.len() as u64;
    (0..count).find(|&entry| links[entry as usize] != END as u64 && links[entry as usize] >= count)
}

/// Check 12: the smallest entry named twice or more, by counting.
pub fn shared(file: &[u8]) -> Option<u64> {
    times_named(file).iter().position(|&times| times >= 2).map(|entry| entry as u64)
}

fn times_named(file: &[u8]) -> Vec<u64> {
    let links = links(file);
    let mut times = vec![0; links.len()];
    for link in links {
        if link != END as u64 {
            times[link as usize] += 1;
        }
    }
    times
}

/// Check 13: the smallest entry that a walk from it comes back to. A walk
/// that has not come back after as many steps as entries never does.
pub fn cycle(file: &[u8]) -> Option<u64> {
    let links = links(file);
    (0..links.len() as u64).find(|&entry| comes_back(&links, entry))
}

fn comes_back(links: &[u64], entry: u64) -> bool {
    let mut at = entry;
    for _ in 0..links.len() {
        at = links[at as usize];
        if at == entry {
            return true;
        }
        if at == END as u64 {
            return false;
        }
    }
    false
}

/// Entries that no entry names as next.
pub fn chain_count(file: &[u8]) -> u64 {
    times_named(file).iter().filter(|&&times| times == 0).count() as u64
}

/// Slot j holds the entry that names j as next, or the end mark.
pub fn predecessors(file: &[u8], places: usize) -> Vec<u32> {
    let mut table = vec![END; places];
    for (entry, link) in links(file).into_iter().enumerate() {
        if link != END as u64 {
            table[link as usize] = entry as u32;
        }
    }
    table
}
