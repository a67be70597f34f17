//! Seeded files: sound ones of every version, and aimed damage to them.

pub mod aimed;
pub mod bare;
pub mod cuts;
pub mod damage;
pub mod misread;
pub mod recordings;
pub mod rooted;
pub mod shapes;
mod strings;
mod volumes;
pub mod writes;
pub mod years;

use crate::random::Random;
use crate::reference::hashes;
use crate::reference::layout::{Layout, END, LAYOUTS};
use crate::reference::search::hash_of;
use strings::{Aim, Strings};

/// A file, and the number of slots to read it with.
#[derive(Clone, Debug)]
pub struct Sample {
    pub bytes: Vec<u8>,
    pub places: usize,
}

/// How many of each the file has.
#[derive(Clone, Copy)]
pub struct Counts {
    pub metrics: usize,
    pub trace: usize,
    pub volumes: usize,
}

/// Any small file: sections may be empty.
pub fn any(random: &mut Random) -> Sample {
    let counts =
        Counts { metrics: few(random, 6), trace: few(random, 12), volumes: few(random, 3) };
    sound(random, counts)
}

/// A small file in which every check has something to find.
pub fn rich(random: &mut Random) -> Sample {
    let counts = Counts {
        metrics: random.between(2, 6),
        trace: random.between(4, 12),
        volumes: random.between(2, 3),
    };
    sound(random, counts)
}

/// None at all in one of four cases.
fn few(random: &mut Random, most: usize) -> usize {
    if random.one_in(4) {
        0
    } else {
        random.between(1, most)
    }
}

/// A file that every check passes, with as many slots as trace entries.
pub fn sound(random: &mut Random, counts: Counts) -> Sample {
    let layout = random.pick(&LAYOUTS);
    sound_of(random, layout, counts)
}

pub fn sound_of(random: &mut Random, layout: &Layout, counts: Counts) -> Sample {
    let links = links(random, counts.trace);
    Sample { bytes: around_links(random, layout, counts, &links), places: counts.trace }
}

/// A file with these links, sound in everything else. Where trace entries have
/// no next index there are as many, full of noise.
pub fn around_links(
    random: &mut Random,
    layout: &Layout,
    counts: Counts,
    links: &[u32],
) -> Vec<u8> {
    let aim = Aim { version: layout.version, stored: aimed_at(random, layout) };
    let strings = strings::section(random, counts.metrics, &aim);
    let contents = Contents {
        metrics: metrics_section(random, layout, &strings),
        trace: trace_section(random, layout, links),
        volumes: volumes::section(random, layout, counts.volumes),
        volume_count: counts.volumes as u32,
        stored_hash: stored_hash(random, &aim, &strings),
        strings: strings.bytes,
    };
    lay_out(random, layout, &contents)
}

/// The bytes of the four sections, and what the head says besides them.
pub struct Contents {
    pub metrics: Vec<u8>,
    pub trace: Vec<u8>,
    pub strings: Vec<u8>,
    pub volumes: Vec<u8>,
    pub volume_count: u32,
    pub stored_hash: u32,
}

fn metrics_section(random: &mut Random, layout: &Layout, strings: &Strings) -> Vec<u8> {
    let mut section = Vec::new();
    for name in &strings.names {
        let mut entry = random.bytes(layout.metrics_entry as usize);
        set_32(&mut entry, layout.name_offset, name.offset);
        set_32(&mut entry, layout.name_length, name.units);
        section.extend(entry);
    }
    section
}

/// Chains over all entries in a random order, or every entry its own chain.
pub fn links(random: &mut Random, count: usize) -> Vec<u32> {
    let mut order: Vec<u32> = (0..count as u32).collect();
    random.shuffle(&mut order);
    let mut links = vec![END; count];
    let cut = *random.pick(&[1, 2, 3, 8, 1_000]);
    for pair in order.windows(2) {
        if !random.one_in(cut) {
            links[pair[0] as usize] = pair[1];
        }
    }
    links
}

pub fn trace_section(random: &mut Random, layout: &Layout, links: &[u32]) -> Vec<u8> {
    let mut section = Vec::new();
    for link in links {
        let mut entry = random.bytes(layout.trace_entry as usize);
        if layout.has_next {
            set_32(&mut entry, 0, *link);
        }
        section.extend(entry);
    }
    section
}

/// A stored hash that names can be made for, near the ends of 32 bits too.
fn aimed_at(random: &mut Random, layout: &Layout) -> u32 {
    let (noise, small) = (random.u32(), random.below(12) as u32);
    match layout.version {
        17 => *random.pick(&[
            noise % 1_000_000_007,
            noise % 1_000_000_007,
            small,
            1_000_000_006 + small,
        ]),
        _ => *random.pick(&[noise, noise, small, small.wrapping_neg()]),
    }
}

/// The one that names were aimed at; or the hash of a name, with a number on
/// top that is found or is one too great; or a hash that was taken over other
/// numbers than the bytes; or any.
fn stored_hash(random: &mut Random, aim: &Aim, strings: &Strings) -> u32 {
    if strings.names.is_empty() {
        return random.u32();
    }
    let name = random.pick(&strings.names);
    let text = &strings.bytes[name.offset as usize..][..2 * name.units as usize];
    let numbers = match random.below(16) {
        0..=3 => return aim.stored,
        4..=9 => hashes::bytes(text),
        10..=11 => misread::units(text),
        12..=13 => misread::signed_bytes(text),
        _ => return random.u32(),
    };
    let number = *random.pick(&[0, 0, 0, 0, 1, 4, 7, 8, 9]);
    hash_of(aim.version, &numbers).wrapping_add(number)
}

/// Head and sections, in a random order and with gaps. What isn't read is
/// noise.
pub fn lay_out(random: &mut Random, layout: &Layout, contents: &Contents) -> Vec<u8> {
    let mut file = random.bytes(layout.head_end as usize);
    set_32(&mut file, 0, layout.version);
    file[4..8].copy_from_slice(b"SCCA");
    set_program_name(random, &mut file);
    set_run_times(random, &mut file, layout);
    set_32(&mut file, 76, contents.stored_hash);
    match layout.metrics_start {
        Some(start) => place_around(random, &mut file, contents, start as usize),
        None => place_sections(random, &mut file, contents),
    }
    set_32(&mut file, 88, (contents.metrics.len() as u64 / layout.metrics_entry) as u32);
    set_32(&mut file, 96, (contents.trace.len() as u64 / layout.trace_entry) as u32);
    set_32(&mut file, 104, contents.strings.len() as u32);
    set_32(&mut file, 112, contents.volume_count);
    set_32(&mut file, 116, contents.volumes.len() as u32);
    gap(random, &mut file);
    let size = file.len() as u32;
    set_32(&mut file, 12, size);
    file
}

fn place_sections(random: &mut Random, file: &mut Vec<u8>, contents: &Contents) {
    let mut sections = [
        (84, &contents.metrics),
        (92, &contents.trace),
        (100, &contents.strings),
        (108, &contents.volumes),
    ];
    random.shuffle(&mut sections);
    for (field, section) in sections {
        match section.is_empty() {
            true => set_32(file, field, ignored_offset(random)),
            false => place(random, file, field, section),
        }
    }
}

/// The metrics array where its form wants it, and the others before it, as
/// far as they fit there, or behind it, in a random order and with gaps.
fn place_around(random: &mut Random, file: &mut Vec<u8>, contents: &Contents, start: usize) {
    set_32(file, 84, start as u32);
    let mut others = [(92, &contents.trace), (100, &contents.strings), (108, &contents.volumes)];
    random.shuffle(&mut others);
    let mut left = Vec::new();
    for (field, section) in others {
        // An empty array has no bytes to keep clear of.
        let fits = contents.metrics.is_empty() || file.len() + 9 + section.len() <= start;
        if section.is_empty() {
            set_32(file, field, ignored_offset(random));
        } else if fits && !random.one_in(4) {
            place(random, file, field, section);
        } else {
            left.push((field, section));
        }
    }
    if !contents.metrics.is_empty() {
        let noise = random.bytes(start - file.len());
        file.extend(noise);
        file.extend(&contents.metrics);
    }
    for (field, section) in left {
        place(random, file, field, section);
    }
}

fn place(random: &mut Random, file: &mut Vec<u8>, field: usize, section: &[u8]) {
    gap(random, file);
    let offset = file.len() as u32;
    set_32(file, field, offset);
    file.extend(section);
}

/// An offset that nothing looks at.
fn ignored_offset(random: &mut Random) -> u32 {
    let noise = random.u32();
    *random.pick(&[0, 1, 148, 304, 0x7FFF_FFFF, 0x8000_0000, u32::MAX, noise])
}

fn gap(random: &mut Random, bytes: &mut Vec<u8>) {
    if random.one_in(2) {
        let length = random.between(1, 9);
        bytes.extend(random.bytes(length));
    }
}

/// Up to 29 units, a zero unit, and noise behind it.
fn set_program_name(random: &mut Random, file: &mut [u8]) {
    let units = *random.pick(&[0, 1, 2, 5, 12, 28, 29]);
    for place in 0..units {
        let unit = strings::unit(random);
        set_16(file, 16 + 2 * place, unit);
    }
    set_16(file, 16 + 2 * units, 0);
}

/// In any order, some of them 0 or all ones. Up to the run count, so that
/// versions with one run time have such numbers behind it.
fn set_run_times(random: &mut Random, file: &mut [u8], layout: &Layout) {
    let latest = random.next();
    for at in (layout.run_time..layout.run_count).step_by(8) {
        let noise = random.next();
        let odd = [0, u64::MAX, 1 << 63, latest, latest.wrapping_sub(1), noise, noise];
        set_64(file, at, *random.pick(&odd));
    }
}

pub fn set_16(bytes: &mut [u8], at: usize, number: u16) {
    bytes[at..at + 2].copy_from_slice(&number.to_le_bytes());
}

pub fn set_32(bytes: &mut [u8], at: usize, number: u32) {
    bytes[at..at + 4].copy_from_slice(&number.to_le_bytes());
}

pub fn set_64(bytes: &mut [u8], at: usize, number: u64) {
    bytes[at..at + 8].copy_from_slice(&number.to_le_bytes());
}
