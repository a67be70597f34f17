//! What a file costs to look at.

use super::head::*;
use super::queries::head_and_sections_pass;

#[derive(Clone, Copy, Debug, PartialEq, Eq)]
pub struct Cost {
    pub names: u64,
    pub directories: u64,
}

pub fn cost(file: &[u8]) -> Option<Cost> {
    head_and_sections_pass(file)
        .then(|| Cost { names: names(file), directories: directories(file) })
}

/// The section without what is not there and without what makes no whole entry.
fn entries(file: &[u8], which: u64, size: u64) -> impl Iterator<Item = &[u8]> {
    let section = section(file, which);
    let there = match section.is_empty() {
        true => 0..0,
        false => {
            let length = file.len() as u64;
            section.start.min(length) as usize..section.end().min(length) as usize
        }
    };
    file[there].chunks_exact(size as usize)
}

/// Bytes of each name with its zero unit, where those fit the strings as the
/// head has them.
fn names(file: &[u8]) -> u64 {
    let layout = known_layout(file);
    let strings = section(file, STRINGS).length;
    let name = |entry: &[u8]| {
        let bytes = 2 * (number_32(entry, layout.name_length) + 1);
        let room = strings.checked_sub(number_32(entry, layout.name_offset))?;
        (bytes <= room).then_some(bytes)
    };
    entries(file, METRICS, layout.metrics_entry).filter_map(name).sum()
}

/// The volume count may be greater than what the section holds.
fn directories(file: &[u8]) -> u64 {
    let size = section(file, VOLUMES).length;
    entries(file, VOLUMES, known_layout(file).volume_entry)
        .take(volume_count(file) as usize)
        .map(|entry| size.min(4 * number_32(entry, 32)))
        .sum()
}
