//! Damage aimed at one check, and random edits.

use super::{set_16, set_32, Sample};
use crate::random::Random;
use crate::reference::checks::{entry_start, name_of_entry};
use crate::reference::head::*;
use crate::reference::layout::{Layout, END, LARGEST_SIZE};
use crate::reference::{trace, volumes};

/// The checks that can be aimed at, in their order; 7 by the number of slots.
pub const AIMS: [u64; 16] = [1, 2, 3, 4, 21, 5, 6, 7, 8, 9, 10, 11, 12, 13, 14, 15];
/// Those behind the program name, and those behind the head.
pub const AIMS_BEHIND_NAME: &[u64] = AIMS.split_at(4).1;
pub const AIMS_BEHIND_HEAD: &[u64] = AIMS.split_at(9).1;

/// The checks of which a file with this layout can have a fault.
pub fn aims_of(layout: &Layout) -> impl Iterator<Item = u64> + '_ {
    AIMS.into_iter().filter(|number| match number {
        21 => layout.metrics_start.is_some(),
        7 | 11..=13 => layout.has_next,
        _ => true,
    })
}

/// Damages the file so that the check of this number has a fault to find.
/// Where the file has nothing to damage it is left as it is. Damage to a
/// later check goes first: it needs the sections where they are.
pub fn damage(random: &mut Random, sample: &mut Sample, number: u64) {
    let file = &mut sample.bytes;
    match number {
        1 => wrong_version(random, file),
        2 => signature(random, file),
        3 => size(random, file),
        4 => program_name(random, file),
        21 => form(random, file),
        5 => section_outside(random, file),
        6 => section_shared(random, file),
        7 => sample.places = sample.places.saturating_sub(random.between(1, 3)),
        8 => volume_count_too_great(random, file),
        9 => name_outside(random, file),
        10 => name_unsound(random, file),
        11 => link_wild(random, file),
        12 => link_shared(random, file),
        13 => link_ring(random, file),
        14 => volume_outside(random, file),
        15 => directory_unended(random, file),
        _ => unreachable!("no check {number}"),
    }
}

fn wrong_version(random: &mut Random, file: &mut [u8]) {
    let good = version(file);
    let near = [0, 16, 18, 22, 24, 25, 27, 29, 31];
    let like = [good + 256, good << 8, good << 24, good | 1 << 31];
    set_32(file, 0, *random.pick(&[&near[..], &like[..]].concat()));
}

fn signature(random: &mut Random, file: &mut [u8]) {
    file[random.between(4, 7)] ^= 1 << random.below(8);
}

fn size(random: &mut Random, file: &mut [u8]) {
    let head_end = smallest_head_end(file) as u32;
    let limit = LARGEST_SIZE as u32;
    let wrong = [0, 1, head_end - 1, limit + 1, limit + head_end, 1 << 31, u32::MAX];
    set_32(file, 12, *random.pick(&wrong));
}

/// Thirty units and no zero; the bytes behind the thirtieth may be zero.
fn program_name(random: &mut Random, file: &mut [u8]) {
    for place in 0..30 {
        if name_unit(file, place) == 0 {
            set_16(file, 16 + 2 * place, *random.pick(&[1, 0x0100, 0xFFFF]));
        }
    }
}

/// A metrics offset that no form of the version has. The array stays where it
/// is, and may be empty.
fn form(random: &mut Random, file: &mut [u8]) {
    let Some(good) = layout(file).and_then(|layout| layout.metrics_start) else {
        return;
    };
    let good = good as u32;
    if random.one_in(4) {
        set_32(file, 88, 0);
    }
    let near = [0, 148, 152, 156, 212, 240, 296, good - 1, good + 1, u32::MAX];
    let like = [good + 256, good << 8, good >> 8, good ^ 1 << 15, good | 1 << 16, good | 1 << 31];
    set_32(file, 84, *random.pick(&[&near[..], &like[..]].concat()));
}

/// Where a section's offset stands in the head, and its count or size.
fn section_fields(which: u64) -> (usize, usize) {
    match which {
        METRICS => (84, 88),
        TRACE => (92, 96),
        STRINGS => (100, 104),
        _ => (108, 116),
    }
}

fn filled_sections(file: &[u8]) -> Vec<u64> {
    (1..=4).filter(|&which| !section(file, which).is_empty()).collect()
}

fn section_outside(random: &mut Random, file: &mut [u8]) {
    let filled = filled_sections(file);
    if filled.is_empty() {
        // A section of one byte, right after the end.
        let size = declared_size(file) as u32;
        set_32(file, 100, size);
        return set_32(file, 104, 1);
    }
    let which = *random.pick(&filled);
    // Elsewhere, a metrics array that tells its form would be of another.
    if random.one_in(3) || (which == METRICS && form_is_told(file)) {
        section_too_long(random, file, which);
    } else {
        section_elsewhere(random, file, which);
    }
}

/// Just outside, or so far that a sum of 32 bits would come back inside.
fn section_elsewhere(random: &mut Random, file: &mut [u8], which: u64) {
    let size = declared_size(file) as u32;
    let head_end = head_end(file) as u32;
    let length = section(file, which).length as u32;
    let offsets = [
        0,
        head_end - 1,
        size.wrapping_add(1).wrapping_sub(length),
        size,
        size.wrapping_add(1),
        1 << 31,
        u32::MAX,
        length.wrapping_neg(),
        head_end.wrapping_sub(length),
        size.wrapping_sub(length).wrapping_sub(1) | 1 << 31,
    ];
    set_32(file, section_fields(which).0, *random.pick(&offsets));
}

/// One too long, or so long that a product or sum of 32 bits would wrap.
fn section_too_long(random: &mut Random, file: &mut [u8], which: u64) {
    let room = declared_size(file).saturating_sub(section(file, which).start);
    let entry = match which {
        METRICS => known_layout(file).metrics_entry,
        TRACE => known_layout(file).trace_entry,
        _ => 1,
    };
    let one_too_many = room / entry + 1;
    let wrapping = (1u64 << 32) / entry + random.below(3) as u64;
    let back_to_start = (1u64 << 32).saturating_sub(section(file, which).start) / entry + 1;
    let counts = [one_too_many, wrapping, back_to_start, 1 << 31, u32::MAX as u64];
    let count = (*random.pick(&counts)).min(u32::MAX as u64) as u32;
    set_32(file, section_fields(which).1, count);
}

/// Two sections share one byte, or more.
fn section_shared(random: &mut Random, file: &mut [u8]) {
    let mut filled = filled_sections(file);
    if filled.len() < 2 {
        return;
    }
    random.shuffle(&mut filled);
    // A metrics array that tells its form stays.
    if filled[0] == METRICS && form_is_told(file) {
        filled.swap(0, 1);
    }
    let (moved, other) = (section(file, filled[0]), section(file, filled[1]));
    let starts = [
        other.start,
        other.end() - 1,
        (other.start + 1).saturating_sub(moved.length),
        other.end().saturating_sub(moved.length),
    ];
    let inside =
        |start: &u64| *start >= head_end(file) && start + moved.length <= declared_size(file);
    let starts: Vec<u64> = starts.into_iter().filter(inside).collect();
    if !starts.is_empty() {
        let start = *random.pick(&starts) as u32;
        set_32(file, section_fields(filled[0]).0, start);
    }
}

fn volume_count_too_great(random: &mut Random, file: &mut [u8]) {
    let entry = known_layout(file).volume_entry;
    let one_too_many = section(file, VOLUMES).length / entry + 1;
    let wrapping = (1u64 << 32) / entry + 1;
    let counts = [one_too_many, one_too_many + 1, wrapping, 1 << 31, u32::MAX as u64];
    set_32(file, 112, *random.pick(&counts) as u32);
}

/// An entry to damage, or nothing where there is none.
fn some_entry(random: &mut Random, count: u64) -> Option<u64> {
    (count > 0).then(|| random.below(count as usize) as u64)
}

fn name_outside(random: &mut Random, file: &mut [u8]) {
    let Some(i) = some_entry(random, metrics_count(file)) else {
        return;
    };
    let strings = section(file, STRINGS).length as u32;
    let units = name_of_entry(file, i).units as u32;
    let twice = units.wrapping_mul(2);
    let offset = name_of_entry(file, i).offset as u32;
    let start = entry_start(file, i) as usize;
    let layout = known_layout(file);
    let offsets = [
        strings.wrapping_sub(twice).wrapping_sub(1),
        strings - 1,
        strings,
        u32::MAX,
        1 << 31,
        twice.wrapping_add(2).wrapping_neg(),
    ];
    let lengths = [
        strings.saturating_sub(offset) / 2,
        (1 << 31) - 1,
        1 << 31,
        units ^ 1 << 31,
        u32::MAX,
        offset.wrapping_add(2).wrapping_neg() / 2,
    ];
    if random.one_in(2) {
        set_32(file, start + layout.name_offset, *random.pick(&offsets));
    } else {
        set_32(file, start + layout.name_length, *random.pick(&lengths));
    }
}

/// A zero unit among its units, or none behind them.
fn name_unsound(random: &mut Random, file: &mut [u8]) {
    let Some(i) = some_entry(random, metrics_count(file)) else {
        return;
    };
    let name = name_of_entry(file, i);
    if name.end() > section(file, STRINGS).length {
        return;
    }
    let start = (section(file, STRINGS).start + name.offset) as usize;
    let units = name.units as usize;
    if units > 0 && random.one_in(2) {
        set_16(file, start + 2 * random.below(units), 0);
    } else {
        set_16(file, start + 2 * units, *random.pick(&[1, 0x0100, 0x8000, 0xFFFF]));
    }
}

fn set_link(file: &mut [u8], entry: u64, next: u32) {
    set_32(file, trace::entry_start(file, entry) as usize, next);
}

fn link(file: &[u8], entry: u64) -> u32 {
    number_32(file, trace::entry_start(file, entry) as usize) as u32
}

/// Entries without a link need no slot: there is nothing to damage then.
fn link_wild(random: &mut Random, file: &mut [u8]) {
    let count = slots_needed(file);
    if let Some(entry) = some_entry(random, count) {
        let wild = [count as u32, count as u32 + 1, 1 << 31, END - 1, (1 << 31) - 1];
        set_link(file, entry, *random.pick(&wild));
    }
}

fn link_shared(random: &mut Random, file: &mut [u8]) {
    let count = slots_needed(file);
    if count < 2 {
        return;
    }
    let one = random.below(count as usize) as u64;
    let other = (one + random.between(1, count as usize - 1) as u64) % count;
    let named = random.below(count as usize) as u32;
    set_link(file, one, named);
    set_link(file, other, named);
}

/// A cycle of some entries; nothing else names them any more.
fn link_ring(random: &mut Random, file: &mut [u8]) {
    let count = slots_needed(file);
    if count == 0 {
        return;
    }
    let mut order: Vec<u64> = (0..count).collect();
    random.shuffle(&mut order);
    let cycle = &order[..random.between(1, count as usize)];
    for entry in 0..count {
        if cycle.contains(&(link(file, entry) as u64)) {
            set_link(file, entry, END);
        }
    }
    for (place, &entry) in cycle.iter().enumerate() {
        set_link(file, entry, cycle[(place + 1) % cycle.len()] as u32);
    }
}

pub fn volume_start(file: &[u8], i: u64) -> usize {
    (section(file, VOLUMES).start + i * known_layout(file).volume_entry) as usize
}

fn volume_outside(random: &mut Random, file: &mut [u8]) {
    let Some(i) = some_entry(random, volume_count(file)) else {
        return;
    };
    match random.below(3) {
        0 => path_outside(random, file, i),
        1 => references_outside(random, file, i),
        _ => directories_outside(random, file, i),
    }
}

fn path_outside(random: &mut Random, file: &mut [u8], i: u64) {
    let start = volume_start(file, i);
    let size = section(file, VOLUMES).length as u32;
    let units = *random.pick(&[1, 2, size / 2, size / 2 + 1, 1 << 31, u32::MAX]);
    let just_past = (size + 1).wrapping_sub(units.wrapping_mul(2));
    let offset =
        *random.pick(&[just_past, size - 1, size, u32::MAX, units.wrapping_mul(2).wrapping_neg()]);
    set_32(file, start, offset);
    set_32(file, start + 4, units);
}

fn references_outside(random: &mut Random, file: &mut [u8], i: u64) {
    let start = volume_start(file, i);
    let section = section(file, VOLUMES);
    let size = section.length as u32;
    let references = number_32(file, start + 24) as u32;
    let data = (section.start + number_32(file, start + 20)) as usize;
    match random.below(4) {
        0 => set_32(file, start + 24, random.between(1, 7) as u32),
        1 => {
            let wrong =
                [(size + 1).wrapping_sub(references), size, u32::MAX, references.wrapping_neg()];
            set_32(file, start + 20, *random.pick(&wrong));
        }
        2 => set_32(file, start + 24, *random.pick(&[size + 1, 1 << 31, u32::MAX])),
        _ if references >= 8 && data + 8 <= file.len() => {
            let one_too_many = (references - 8) / 8 + 1;
            let wrong = [one_too_many, (1 << 29) - 1, 1 << 29, (1 << 29) + 1, 1 << 31, u32::MAX];
            set_32(file, data + 4, *random.pick(&wrong));
        }
        _ => {}
    }
}

fn directories_outside(random: &mut Random, file: &mut [u8], i: u64) {
    let start = volume_start(file, i);
    let section = section(file, VOLUMES);
    let size = section.length as u32;
    let count = number_32(file, start + 32) as u32;
    match random.below(3) {
        0 => {
            let wrong = [size - 1, size - 2, size - 3, size, size + 1, u32::MAX, u32::MAX - 1];
            set_32(file, start + 28, *random.pick(&wrong));
            set_32(file, start + 32, count.max(1));
        }
        1 => set_32(
            file,
            start + 32,
            *random.pick(&[count.wrapping_add(1), 1_000, 1 << 31, u32::MAX]),
        ),
        _ => {
            let ends = directory_ends(file, i);
            if !ends.is_empty() {
                let directory = random.pick(&ends).start;
                set_16(file, directory, *random.pick(&[size as u16 / 2, 0x7FFF, 0x8000, 0xFFFF]));
            }
        }
    }
}

pub struct Directory {
    pub start: usize,
    /// Where its last unit stands, which should be zero.
    pub last_unit: usize,
}

/// The directories of a volume, as far as they lie in the section.
pub fn directory_ends(file: &[u8], i: u64) -> Vec<Directory> {
    let section = section(file, VOLUMES);
    let volume = volumes::volume(file, i);
    let mut list = Vec::new();
    let mut at = volume.directories_offset;
    for _ in 0..volume.directories {
        let Some(length) = section.part(file, at, 2) else {
            return list;
        };
        let text = 2 * unit(length, 0);
        if at + 4 + text > section.length {
            return list;
        }
        let start = (section.start + at) as usize;
        list.push(Directory { start, last_unit: start + 2 + text as usize });
        at += 4 + text;
    }
    list
}

fn directory_unended(random: &mut Random, file: &mut [u8]) {
    let mut list = Vec::new();
    for i in 0..volume_count(file) {
        list.extend(directory_ends(file, i));
    }
    if !list.is_empty() {
        let directory = random.pick(&list);
        set_16(file, directory.last_unit, *random.pick(&[1, 0x0100, 0x8000, 0xFFFF]));
    }
}

/// Some random edits, most of them to fields that say where things are.
pub fn edits(random: &mut Random, sample: &mut Sample) {
    for _ in 0..random.between(1, 4) {
        edit(random, &mut sample.bytes);
    }
    if random.one_in(8) {
        sample.places = random.below(sample.places + 3);
    }
    if random.one_in(8) {
        let length = random.between(1, 5);
        sample.bytes.extend(random.bytes(length));
    }
}

fn edit(random: &mut Random, file: &mut [u8]) {
    const HEAD_FIELDS: [usize; 13] = [0, 4, 12, 76, 84, 88, 92, 96, 100, 104, 108, 112, 116];
    match random.below(13) {
        0 | 1 => file[random.below(file.len())] ^= 1 << random.below(8),
        2 | 3 => file[random.below(file.len())] = 0,
        // Another version, in the head of this one.
        4 => set_32(file, 0, *random.pick(&[17, 23, 26, 30])),
        5..=8 => {
            let field = *random.pick(&HEAD_FIELDS);
            edit_number(random, file, field);
        }
        _ => {
            let field = field_of_a_section(random, file);
            edit_number(random, file, field);
        }
    }
}

/// A number in some section, or anywhere where none lies in the file.
fn field_of_a_section(random: &mut Random, file: &[u8]) -> usize {
    if layout(file).is_some() {
        let section = section(file, random.between(1, 4) as u64);
        if section.length >= 4 && section.end() <= file.len() as u64 {
            return section.start as usize + 4 * random.below(section.length as usize / 4);
        }
    }
    random.below(file.len() - 3)
}

/// To an edge number, a neighbour of what it was, or another field's number.
fn edit_number(random: &mut Random, file: &mut [u8], field: usize) {
    let was = number_32(file, field) as u32;
    let other = number_32(file, 4 * random.below(30)) as u32;
    let length = file.len() as u32;
    let numbers = [
        was.wrapping_add(1),
        was.wrapping_sub(1),
        was.wrapping_neg(),
        was ^ 1 << 31,
        other,
        other.wrapping_add(was),
        0,
        1,
        length,
        length + 1,
        length - 1,
        148,
        156,
        212,
        304,
        u32::MAX,
        1 << 31,
        random.below(64) as u32,
    ];
    set_32(file, field, *random.pick(&numbers));
}
