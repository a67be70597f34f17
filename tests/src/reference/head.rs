//! The fields of the head and its four sections. Each function expects the
//! bytes it reads to be there: the checks ask for them first.

use super::layout::{form_with, forms_of, least_head_end, Layout};

/// The little-endian number of so many bytes at a place.
pub fn number(bytes: &[u8], at: usize, width: usize) -> u64 {
    bytes[at..at + width].iter().rev().fold(0, |number, &byte| 256 * number + byte as u64)
}

pub fn number_32(bytes: &[u8], at: usize) -> u64 {
    number(bytes, at, 4)
}

pub fn unit(bytes: &[u8], at: usize) -> u64 {
    number(bytes, at, 2)
}

pub fn version(file: &[u8]) -> u32 {
    number_32(file, 0) as u32
}

/// Whether the version's head form is told by its metrics offset.
pub fn form_is_told(file: &[u8]) -> bool {
    forms_of(version(file)).any(|layout| layout.metrics_start.is_some())
}

/// The smallest H of the version's forms, after check 1.
pub fn smallest_head_end(file: &[u8]) -> u64 {
    least_head_end(version(file)).expect("check 1 comes first")
}

/// Where the metrics offset stands.
pub const METRICS_FIELD: u64 = 84;

/// The form is decided by the offset as it stands, also where the array is
/// empty.
pub fn layout(file: &[u8]) -> Option<&'static Layout> {
    let metrics_start = match form_is_told(file) {
        true => number_32(file, METRICS_FIELD as usize),
        false => 0,
    };
    form_with(version(file), metrics_start)
}

/// The layout after check 21.
pub fn known_layout(file: &[u8]) -> &'static Layout {
    layout(file).expect("checks 1 and 21 come first")
}

pub fn head_end(file: &[u8]) -> u64 {
    known_layout(file).head_end
}

/// Where the declared size stands.
pub const SIZE_FIELD: u64 = 12;

pub fn declared_size(file: &[u8]) -> u64 {
    number_32(file, SIZE_FIELD as usize)
}

pub fn name_unit(file: &[u8], place: usize) -> u64 {
    unit(file, 16 + 2 * place)
}

/// Units of the program name before the first zero, or nothing where none of
/// the thirty is zero.
pub fn name_units(file: &[u8]) -> Option<usize> {
    (0..30).find(|&place| name_unit(file, place) == 0)
}

pub fn stored_hash(file: &[u8]) -> u64 {
    number_32(file, 76)
}

pub fn metrics_count(file: &[u8]) -> u64 {
    number_32(file, 88)
}

pub fn trace_count(file: &[u8]) -> u64 {
    number_32(file, 96)
}

/// The slots that `predecessors` needs: one for each trace entry, and none
/// where trace entries have no next index.
pub fn slots_needed(file: &[u8]) -> u64 {
    match known_layout(file).has_next {
        true => trace_count(file),
        false => 0,
    }
}

pub fn volume_count(file: &[u8]) -> u64 {
    number_32(file, 112)
}

/// As many as the version has, the latest first; 0 for the others of eight.
pub fn run_times(file: &[u8]) -> [u64; 8] {
    let layout = known_layout(file);
    let mut times = [0; 8];
    for (i, time) in times[..layout.time_count].iter_mut().enumerate() {
        *time = number(file, layout.run_time + 8 * i, 8);
    }
    times
}

pub fn run_count(file: &[u8]) -> u64 {
    number_32(file, known_layout(file).run_count)
}

pub const METRICS: u64 = 1;
pub const TRACE: u64 = 2;
pub const STRINGS: u64 = 3;
pub const VOLUMES: u64 = 4;

#[derive(Clone, Copy, Debug)]
pub struct Section {
    pub start: u64,
    pub length: u64,
}

impl Section {
    /// The byte after its last. Exact: neither number is near 64 bits.
    pub fn end(&self) -> u64 {
        self.start + self.length
    }

    pub fn is_empty(&self) -> bool {
        self.length == 0
    }

    /// Part of the section, or nothing where it runs past the section's end.
    pub fn part<'a>(&self, file: &'a [u8], offset: u64, length: u64) -> Option<&'a [u8]> {
        if offset + length > self.length {
            return None;
        }
        let start = (self.start + offset) as usize;
        Some(&file[start..start + length as usize])
    }
}

/// Where a section's offset stands.
pub fn offset_field(which: u64) -> u64 {
    match which {
        METRICS => METRICS_FIELD,
        TRACE => 92,
        STRINGS => 100,
        VOLUMES => 108,
        _ => unreachable!("there are four sections"),
    }
}

pub fn section(file: &[u8], which: u64) -> Section {
    let start = number_32(file, offset_field(which) as usize);
    let length = match which {
        METRICS => metrics_count(file) * known_layout(file).metrics_entry,
        TRACE => trace_count(file) * known_layout(file).trace_entry,
        STRINGS => number_32(file, 104),
        _ => number_32(file, 116),
    };
    Section { start, length }
}

/// Where a section ends; an empty one counts as ending at H.
pub fn section_end(file: &[u8], which: u64) -> u64 {
    let section = section(file, which);
    if section.is_empty() {
        head_end(file)
    } else {
        section.end()
    }
}
