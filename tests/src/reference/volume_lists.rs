//! All directories and all references of a volume.

use super::head::{number, section, unit, VOLUMES};
use super::queries::{split, volume, Reference};
use super::volumes;

/// Where the first unit stands in the file, and the units without the last zero.
#[derive(Clone, Copy, Debug, PartialEq, Eq)]
pub struct Directory {
    pub offset: u64,
    pub units: u64,
}

/// None where the volume can't be shown. For every place of the section it is
/// known first where a directory at that place would end; those of the volume
/// are then a way from place to place.
pub fn directories(file: &[u8], i: u64) -> Vec<Directory> {
    let count = volume(file, i).map_or(0, |shown| shown.directories);
    if count == 0 {
        return Vec::new();
    }
    let section = section(file, VOLUMES);
    let bytes = section.part(file, 0, section.length).expect("it is all there");
    let ends: Vec<usize> =
        bytes.windows(2).enumerate().map(|(at, two)| at + 4 + 2 * unit(two, 0) as usize).collect();
    let first = volumes::volume(file, i).directories_offset as usize;
    std::iter::successors(Some(first), |&at| ends.get(at).copied())
        .take(count as usize)
        .map(|at| Directory {
            offset: section.start + at as u64 + 2,
            units: (ends[at] - at) as u64 / 2 - 2,
        })
        .collect()
}

/// None where the volume can't be shown.
pub fn references(file: &[u8], i: u64) -> Vec<Reference> {
    let count = volume(file, i).map_or(0, |shown| shown.references);
    if count == 0 {
        return Vec::new();
    }
    let entry = volumes::volume(file, i);
    let data = section(file, VOLUMES)
        .part(file, entry.references_offset, entry.references_size)
        .expect("a sound volume");
    // The first eight bytes are no reference, but as many.
    let eights = data.chunks_exact(8).skip(1).take(count as usize);
    eights.map(|eight| split(number(eight, 0, 8))).collect()
}
