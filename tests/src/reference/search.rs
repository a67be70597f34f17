//! The path search.

use super::hashes::{bytes, hash_2008, hash_vista, hash_xp};
use super::head::*;
use super::queries::{head_and_sections_pass, name_of_shown_entry};

/// The numbers of the /prefetch switch that have an effect, and none.
pub const NUMBERS: std::ops::RangeInclusive<u64> = 0..=8;

#[derive(Clone, Copy, Debug, PartialEq, Eq)]
pub struct Found {
    pub entry: u64,
    pub number: u64,
}

/// The least number for which any entry matches, and then the first entry.
pub fn find_path(file: &[u8]) -> Option<Found> {
    let hashes = hashes(file);
    NUMBERS.into_iter().find_map(|number| {
        let entry = hashes.iter().position(|hash| matches(file, hash, number))?;
        Some(Found { entry: entry as u64, number })
    })
}

/// All that match, ordered by number and then by entry.
pub fn list_paths(file: &[u8]) -> Vec<Found> {
    let mut list = Vec::new();
    let hashes = hashes(file);
    for number in NUMBERS {
        for (entry, hash) in hashes.iter().enumerate() {
            if matches(file, hash, number) {
                list.push(Found { entry: entry as u64, number });
            }
        }
    }
    list
}

/// Whether the number, added to the hash mod 2 to the 32, gives the stored one.
fn matches(file: &[u8], hash: &Option<u32>, number: u64) -> bool {
    hash.is_some_and(|hash| (hash as u64 + number) % 4_294_967_296 == stored_hash(file))
}

/// The hash of each entry's name, and none where the entry can't be shown.
/// Where checks 1 to 6 don't pass there is no entry.
fn hashes(file: &[u8]) -> Vec<Option<u32>> {
    if !head_and_sections_pass(file) {
        return Vec::new();
    }
    let hash = |entry| {
        let name = name_of_shown_entry(file, entry)?;
        let text = &file[name.offset as usize..][..name.length as usize];
        Some(hash_of(known_layout(file).version, &bytes(text)))
    };
    (0..metrics_count(file)).map(hash).collect()
}

/// The hash that a version uses, over a list of numbers: 26 and 30 use 2008.
/// That of XP has its end step, before any number is added.
pub fn hash_of(version: u32, numbers: &[u32]) -> u32 {
    match version {
        17 => hash_xp(numbers),
        23 => hash_vista(numbers),
        _ => hash_2008(numbers),
    }
}
