//! Checks 14 and 15: for each volume its path, its references and its
//! directories, in that order.

use super::checks::Fault;
use super::head::*;

/// A volume entry, with offsets from the start of the volumes section.
pub struct Volume {
    pub path_offset: u64,
    pub path_units: u64,
    pub creation_time: u64,
    pub serial_number: u64,
    pub references_offset: u64,
    pub references_size: u64,
    pub directories_offset: u64,
    pub directories: u64,
}

pub fn entry_start(file: &[u8], i: u64) -> u64 {
    section(file, VOLUMES).start + i * known_layout(file).volume_entry
}

pub fn volume(file: &[u8], i: u64) -> Volume {
    let start = entry_start(file, i) as usize;
    Volume {
        path_offset: number_32(file, start),
        path_units: number_32(file, start + 4),
        creation_time: number(file, start + 8, 8),
        serial_number: number_32(file, start + 16),
        references_offset: number_32(file, start + 20),
        references_size: number_32(file, start + 24),
        directories_offset: number_32(file, start + 28),
        directories: number_32(file, start + 32),
    }
}

/// The whole volumes section is there, and the entries fit it.
pub fn first_fault(file: &[u8]) -> Option<Fault> {
    (0..volume_count(file)).find_map(|i| fault(file, i).map(|number| Fault { number, index: i }))
}

/// 14 or 15, or nothing where volume i is sound.
pub fn fault(file: &[u8], i: u64) -> Option<u64> {
    let volume = volume(file, i);
    path_fault(file, &volume)
        .or_else(|| references_fault(file, &volume))
        .or_else(|| directories_fault(file, &volume))
}

pub fn path_fault(file: &[u8], volume: &Volume) -> Option<u64> {
    if volume.path_units == 0 {
        return None;
    }
    let path = section(file, VOLUMES).part(file, volume.path_offset, 2 * volume.path_units);
    path.is_none().then_some(14)
}

pub fn references_fault(file: &[u8], volume: &Volume) -> Option<u64> {
    let size = volume.references_size;
    if size == 0 {
        return None;
    }
    if size < 8 {
        return Some(14);
    }
    let Some(data) = section(file, VOLUMES).part(file, volume.references_offset, size) else {
        return Some(14);
    };
    let n = number_32(data, 4);
    (8 + 8 * n > size).then_some(14)
}

pub fn directories_fault(file: &[u8], volume: &Volume) -> Option<u64> {
    let section = section(file, VOLUMES);
    let mut at = volume.directories_offset;
    for _ in 0..volume.directories {
        let Some(length) = section.part(file, at, 2) else {
            return Some(14);
        };
        let units = unit(length, 0);
        let Some(text) = section.part(file, at + 2, 2 * units + 2) else {
            return Some(14);
        };
        if unit(text, 2 * units as usize) != 0 {
            return Some(15);
        }
        at += 2 + 2 * units + 2;
    }
    None
}

/// The number of references of a sound volume.
pub fn reference_count(file: &[u8], volume: &Volume) -> u64 {
    if volume.references_size == 0 {
        return 0;
    }
    let start = section(file, VOLUMES).start + volume.references_offset;
    number_32(file, start as usize + 4)
}

/// Units of a sound volume's path before its first zero, or all of them.
pub fn path_length(file: &[u8], volume: &Volume) -> u64 {
    let start = section(file, VOLUMES).start + volume.path_offset;
    let zero = |place: &u64| unit(file, (start + 2 * place) as usize) == 0;
    (0..volume.path_units).find(zero).unwrap_or(volume.path_units)
}
