//! Checks 1 to 15 and 21 with their required lengths, in the order in which the
//! papers have them.

use super::head::*;
use super::layout::{least_head_end, Layout, LARGEST_SIZE};
use super::trace;
use super::volumes;

#[derive(Clone, Copy, Debug, PartialEq, Eq)]
pub struct Refusal {
    pub number: u64,
    pub index: u64,
    /// Where the field at fault stands in the file.
    pub offset: u64,
}

/// What a check gives that isn't passed.
#[derive(Clone, Copy, Debug, PartialEq, Eq)]
pub enum Stop {
    Refused(Refusal),
    /// More bytes are wanted: exactly the required length.
    Wanted(u64),
}

/// Bytes, and how many slots `predecessors` has.
pub struct Input<'a> {
    pub bytes: &'a [u8],
    pub places: u64,
}

struct Check {
    number: u64,
    /// The prefix length at which the check is decided, the paper's reach. The
    /// checks before it are passed.
    required: fn(&[u8]) -> u64,
    /// What is at fault, if anything is. As many bytes as required are there.
    fault: fn(&Input) -> Option<Fault>,
    /// Where the field at fault stands in the file, for its index.
    field: fn(&[u8], u64) -> u64,
}

/// A refusal's number and index.
pub struct Fault {
    pub number: u64,
    pub index: u64,
}

/// Checks 14 and 15 are one pass over the volumes.
const CHECKS: [Check; 15] = [
    Check {
        number: 1,
        required: |_| 4,
        fault: |input| at_zero(1, unknown_version(input)),
        field: |_, _| 0,
    },
    Check {
        number: 2,
        required: |_| 8,
        fault: |input| at_zero(2, wrong_signature(input)),
        field: |_, _| 4,
    },
    Check {
        number: 3,
        required: |_| 16,
        fault: |input| at_zero(3, wrong_size(input)),
        field: |_, _| SIZE_FIELD,
    },
    Check {
        number: 4,
        required: |_| 76,
        fault: |input| at_zero(4, endless_name(input)),
        field: |_, _| 16,
    },
    Check {
        number: 21,
        required: form_required,
        fault: |input| at_zero(21, unknown_form(input)),
        field: |_, _| METRICS_FIELD,
    },
    Check {
        number: 5,
        required: head_end,
        fault: |input| at(5, section_outside(input)),
        field: |_, section| offset_field(section),
    },
    Check {
        number: 6,
        required: head_end,
        fault: |input| at(6, section_shared(input)),
        field: |_, section| offset_field(section),
    },
    Check {
        number: 7,
        required: head_end,
        fault: |input| at_zero(7, too_few_slots(input)),
        field: |_, _| 96,
    },
    Check {
        number: 8,
        required: head_end,
        fault: |input| at_zero(8, too_many_volumes(input)),
        field: |_, _| 112,
    },
    Check {
        number: 9,
        required: metrics_required,
        fault: |input| at(9, name_outside(input)),
        field: name_offset_field,
    },
    Check {
        number: 10,
        required: names_required,
        fault: |input| at(10, name_unsound(input)),
        field: name_offset_field,
    },
    Check {
        number: 11,
        required: trace_required,
        fault: |input| at(11, trace::wild(input.bytes)),
        // The next index is the entry's first field.
        field: trace::entry_start,
    },
    Check {
        number: 12,
        required: trace_required,
        fault: |input| at(12, trace::shared(input.bytes)),
        field: trace::entry_start,
    },
    Check {
        number: 13,
        required: trace_required,
        fault: |input| at(13, trace::cycle(input.bytes)),
        field: trace::entry_start,
    },
    Check {
        number: 14,
        required: volumes_required,
        fault: |input| volumes::first_fault(input.bytes),
        field: volumes::entry_start,
    },
];

/// The first of all checks that isn't passed.
pub fn first_stop(input: &Input) -> Option<Stop> {
    CHECKS.iter().find_map(|check| stop(check, input))
}

/// Whether the checks of these numbers pass. They are taken in order, each
/// needing those before it.
pub fn pass(input: &Input, numbers: &[u64]) -> bool {
    CHECKS
        .iter()
        .filter(|check| numbers.contains(&check.number))
        .all(|check| stop(check, input).is_none())
}

fn stop(check: &Check, input: &Input) -> Option<Stop> {
    let required = (check.required)(input.bytes);
    if (input.bytes.len() as u64) < required {
        return Some(Stop::Wanted(required));
    }
    let Fault { number, index } = (check.fault)(input)?;
    let offset = (check.field)(input.bytes, index);
    Some(Stop::Refused(Refusal { number, index, offset }))
}

fn at_zero(number: u64, fault: bool) -> Option<Fault> {
    fault.then_some(Fault { number, index: 0 })
}

fn at(number: u64, index: Option<u64>) -> Option<Fault> {
    index.map(|index| Fault { number, index })
}

/// Where the offset tells no form, nothing is asked for.
fn form_required(file: &[u8]) -> u64 {
    match form_is_told(file) {
        true => 88,
        false => 0,
    }
}

fn metrics_required(file: &[u8]) -> u64 {
    section_end(file, METRICS)
}

fn names_required(file: &[u8]) -> u64 {
    if metrics_count(file) == 0 {
        return head_end(file);
    }
    section_end(file, METRICS).max(section_end(file, STRINGS))
}

/// Without next indexes nothing of the trace section is looked at.
fn trace_required(file: &[u8]) -> u64 {
    match known_layout(file).has_next {
        true => section_end(file, TRACE),
        false => head_end(file),
    }
}

fn volumes_required(file: &[u8]) -> u64 {
    if volume_count(file) == 0 {
        return head_end(file);
    }
    section_end(file, VOLUMES)
}

fn unknown_version(input: &Input) -> bool {
    least_head_end(version(input.bytes)).is_none()
}

fn wrong_signature(input: &Input) -> bool {
    input.bytes[4..8] != [0x53, 0x43, 0x43, 0x41]
}

fn wrong_size(input: &Input) -> bool {
    let size = declared_size(input.bytes);
    size < smallest_head_end(input.bytes) || size > LARGEST_SIZE
}

fn endless_name(input: &Input) -> bool {
    name_units(input.bytes).is_none()
}

/// No form has that metrics offset, or the size is below the H of the one that
/// has.
fn unknown_form(input: &Input) -> bool {
    let too_small = |form: &Layout| declared_size(input.bytes) < form.head_end;
    form_is_told(input.bytes) && layout(input.bytes).is_none_or(too_small)
}

fn section_outside(input: &Input) -> Option<u64> {
    (1..=4).find(|&which| {
        let section = section(input.bytes, which);
        let starts_early = section.start < head_end(input.bytes);
        let ends_late = section.end() > declared_size(input.bytes);
        !section.is_empty() && (starts_early || ends_late)
    })
}

fn section_shared(input: &Input) -> Option<u64> {
    (2..=4).find(|&which| (1..which).any(|lower| share_a_byte(input.bytes, which, lower)))
}

fn share_a_byte(file: &[u8], one: u64, other: u64) -> bool {
    let (one, other) = (section(file, one), section(file, other));
    let first_shared = one.start.max(other.start);
    let after_shared = one.end().min(other.end());
    !one.is_empty() && !other.is_empty() && first_shared < after_shared
}

fn too_few_slots(input: &Input) -> bool {
    input.places < slots_needed(input.bytes)
}

fn too_many_volumes(input: &Input) -> bool {
    let wanted = volume_count(input.bytes) * known_layout(input.bytes).volume_entry;
    wanted > section(input.bytes, VOLUMES).length
}

/// Where metrics entry i says that its name is, in the strings section.
pub struct Name {
    pub offset: u64,
    pub units: u64,
}

impl Name {
    /// With its zero unit.
    pub fn end(&self) -> u64 {
        self.offset + 2 * self.units + 2
    }
}

pub fn entry_start(file: &[u8], i: u64) -> u64 {
    section(file, METRICS).start + i * known_layout(file).metrics_entry
}

fn name_offset_field(file: &[u8], i: u64) -> u64 {
    entry_start(file, i) + known_layout(file).name_offset as u64
}

pub fn name_of_entry(file: &[u8], i: u64) -> Name {
    let start = entry_start(file, i) as usize;
    let layout = known_layout(file);
    Name {
        offset: number_32(file, start + layout.name_offset),
        units: number_32(file, start + layout.name_length),
    }
}

fn name_outside(input: &Input) -> Option<u64> {
    let strings = section(input.bytes, STRINGS).length;
    (0..metrics_count(input.bytes)).find(|&i| name_of_entry(input.bytes, i).end() > strings)
}

fn name_unsound(input: &Input) -> Option<u64> {
    (0..metrics_count(input.bytes))
        .find(|&i| !name_is_sound(input.bytes, &name_of_entry(input.bytes, i)))
}

/// No zero among its units, and a zero unit directly after them. The name
/// lies in the strings section and in the bytes.
pub fn name_is_sound(file: &[u8], name: &Name) -> bool {
    let start = section(file, STRINGS).start + name.offset;
    let at = |place: u64| unit(file, (start + 2 * place) as usize);
    (0..name.units).all(|place| at(place) != 0) && at(name.units) == 0
}
