//! Queries about one entry, on a file or on a prefix of one.

use super::checks::{entry_start, name_is_sound, name_of_entry, pass, Input};
use super::head::*;
use super::volumes;

/// A part of the caller's file.
#[derive(Clone, Copy, Debug, PartialEq, Eq)]
pub struct Part {
    pub offset: u64,
    pub length: u64,
}

#[derive(Clone, Copy, Debug, PartialEq, Eq)]
pub struct Volume {
    pub creation_time: u64,
    pub serial_number: u64,
    pub references: u64,
    pub directories: u64,
    pub path: Part,
    /// With a unit count of 0 the path is an empty part, and the papers name
    /// no place for it.
    pub path_has_a_place: bool,
}

#[derive(Clone, Copy, Debug, PartialEq, Eq)]
pub struct Reference {
    pub entry_index: u64,
    pub sequence_number: u64,
}

/// `predecessors` plays no part in a query.
fn passes(file: &[u8], numbers: &[u64]) -> bool {
    pass(&Input { bytes: file, places: 0 }, numbers)
}

/// Checks 1 to 6, with 21 among them.
pub fn head_and_sections_pass(file: &[u8]) -> bool {
    passes(file, &[1, 2, 3, 4, 21, 5, 6])
}

/// The slots that `predecessors` needs.
pub fn places(file: &[u8]) -> Option<u64> {
    head_and_sections_pass(file).then(|| slots_needed(file))
}

pub fn program_name(file: &[u8]) -> Option<Part> {
    if !passes(file, &[1, 2, 3, 4]) {
        return None;
    }
    let units = name_units(file).expect("check 4 is passed") as u64;
    Some(Part { offset: 16, length: 2 * units })
}

pub fn entry_name(file: &[u8], i: u64) -> Option<Part> {
    if !head_and_sections_pass(file) || i >= metrics_count(file) {
        return None;
    }
    name_of_shown_entry(file, i)
}

/// Checks 1 to 6 are passed and i is below the count.
pub fn name_of_shown_entry(file: &[u8], i: u64) -> Option<Part> {
    let there = file.len() as u64;
    if entry_start(file, i) + known_layout(file).metrics_entry > there {
        return None;
    }
    let name = name_of_entry(file, i);
    let strings = section(file, STRINGS);
    if name.end() > strings.length || strings.start + name.end() > there {
        return None;
    }
    let part = Part { offset: strings.start + name.offset, length: 2 * name.units };
    name_is_sound(file, &name).then_some(part)
}

/// Of an entry that can be shown: the reference, or nothing where the version
/// has no such field.
pub fn entry_reference(file: &[u8], i: u64) -> Option<Option<Reference>> {
    entry_name(file, i)?;
    let at = |field| entry_start(file, i) as usize + field;
    Some(known_layout(file).file_reference.map(|field| split(number(file, at(field), 8))))
}

/// The low 48 bits and the 16 above them.
pub fn split(reference: u64) -> Reference {
    const INDEXES: u64 = 1 << 48;
    Reference { entry_index: reference % INDEXES, sequence_number: reference / INDEXES }
}

pub fn volume(file: &[u8], i: u64) -> Option<Volume> {
    if !volume_can_be_shown(file, i) {
        return None;
    }
    let entry = volumes::volume(file, i);
    let path = match entry.path_units {
        0 => Part { offset: 0, length: 0 },
        _ => Part {
            offset: section(file, VOLUMES).start + entry.path_offset,
            length: 2 * volumes::path_length(file, &entry),
        },
    };
    Some(Volume {
        creation_time: entry.creation_time,
        serial_number: entry.serial_number,
        references: volumes::reference_count(file, &entry),
        directories: entry.directories,
        path,
        path_has_a_place: entry.path_units > 0,
    })
}

fn volume_can_be_shown(file: &[u8], i: u64) -> bool {
    passes(file, &[1, 2, 3, 4, 21, 5, 6, 8])
        && i < volume_count(file)
        && section(file, VOLUMES).end() <= file.len() as u64
        && volumes::fault(file, i).is_none()
}

pub fn reference(file: &[u8], i: u64, k: u64) -> Option<Reference> {
    if k >= volume(file, i)?.references {
        return None;
    }
    let data = section(file, VOLUMES).start + volumes::volume(file, i).references_offset;
    let start = (data + 8 + 8 * k) as usize;
    Some(Reference {
        entry_index: number(file, start, 6),
        sequence_number: number(file, start + 6, 2),
    })
}
