//! What a file is written from: sound, and with aimed damage.

use super::damage::damage as damage_file;
use super::shapes::mixed;
use super::{few, links, strings, volumes, Sample};
use crate::random::Random;
use crate::reference::head::*;
use crate::reference::layout::{forms_of, Layout};
use crate::reference::writer::{laid_out, Description};

/// The checks that what is written can fail, but for 3, which takes a large
/// section; 7 by the number of slots. 20 is the output's.
pub const AIMS: [u64; 11] = [1, 4, 7, 8, 9, 10, 11, 12, 13, 14, 15];

#[derive(Clone, Debug)]
pub struct Parts {
    pub version: u32,
    pub name: Vec<u16>,
    pub stored_hash: u32,
    pub run_time: u64,
    pub run_count: u32,
    pub metrics: Vec<u32>,
    pub trace: Vec<u32>,
    pub strings: Vec<u8>,
    pub volumes: Vec<u8>,
    pub volume_count: u32,
    /// The slots to write it with.
    pub places: usize,
}

impl Parts {
    pub fn description(&self) -> Description<'_> {
        Description {
            version: self.version,
            name: &self.name,
            stored_hash: self.stored_hash,
            run_time: self.run_time,
            run_count: self.run_count,
            metrics: &self.metrics,
            trace: &self.trace,
            strings: &self.strings,
            volumes: &self.volumes,
            volume_count: self.volume_count,
        }
    }
}

/// A file without a name or a section.
pub fn nothing(version: u32) -> Parts {
    Parts {
        version,
        name: Vec::new(),
        stored_hash: 0,
        run_time: 0,
        run_count: 0,
        metrics: Vec::new(),
        trace: Vec::new(),
        strings: Vec::new(),
        volumes: Vec::new(),
        volume_count: 0,
        places: 0,
    }
}

/// Any small sound file; sections may be empty.
pub fn any(random: &mut Random) -> Parts {
    let counts = [few(random, 6), few(random, 12), few(random, 3)];
    sound(random, counts)
}

/// A small one in which every check has something to find.
pub fn rich(random: &mut Random) -> Parts {
    let counts = [random.between(2, 6), random.between(4, 12), random.between(2, 3)];
    sound(random, counts)
}

fn sound(random: &mut Random, [metrics, trace, volumes]: [usize; 3]) -> Parts {
    let version = *random.pick(&[17, 23]);
    let layout = layout(version);
    let aim = strings::Aim { version, stored: random.u32() };
    let strings = strings::section(random, metrics, &aim);
    let links = links(random, trace);
    let mut parts = nothing(version);
    parts.name = name(random);
    parts.stored_hash = odd_number(random) as u32;
    parts.run_time = odd_number(random);
    parts.run_count = odd_number(random) as u32;
    parts.metrics = strings.names.iter().flat_map(|name| [name.offset, name.units]).collect();
    parts.set_links(random, &links);
    parts.strings = strings.bytes;
    parts.volumes = volumes::section(random, layout, volumes);
    parts.volume_count = volumes as u32;
    odd_last_numbers(random, &mut parts);
    parts
}

fn layout(version: u32) -> &'static Layout {
    forms_of(version).next().expect("17 or 23")
}

impl Parts {
    /// With as many slots, and any block counts.
    pub fn set_links(&mut self, random: &mut Random, links: &[u32]) {
        self.trace = links.iter().flat_map(|&link| [link, odd_number(random) as u32]).collect();
        self.places = links.len();
    }
}

/// Chains, cycles, entries named twice and wild links.
pub fn mixed_links(random: &mut Random, parts: &mut Parts) {
    let links = mixed(random, 12);
    parts.set_links(random, &links);
}

/// A name that fits, as it is or with a zero and noise behind it.
fn name(random: &mut Random) -> Vec<u16> {
    let units = *random.pick(&[0, 1, 2, 11, 28, 29]);
    let mut name: Vec<u16> = (0..units).map(|_| strings::unit(random)).collect();
    if random.one_in(2) {
        name.push(0);
        let noise = *random.pick(&[0, 1, 2, 29, 31]);
        name.extend((0..noise).map(|_| random.u32() as u16));
    }
    name
}

/// A number that no wide field may lose a bit of.
fn odd_number(random: &mut Random) -> u64 {
    let noise = random.next();
    *random.pick(&[0, 1, 1 << 31, 1 << 63, u32::MAX as u64, u64::MAX, noise, noise])
}

/// A number without a second, which is ignored.
fn odd_last_numbers(random: &mut Random, parts: &mut Parts) {
    for list in [&mut parts.metrics, &mut parts.trace] {
        if random.one_in(4) {
            list.push(random.u32());
        }
    }
}

/// Damage so that the check of this number has a fault to find, where there is
/// anything to damage. What a file can be damaged in is damaged in the file
/// and taken out of it again.
pub fn damage(random: &mut Random, parts: &mut Parts, number: u64) {
    match number {
        1 => parts.version = another_version(random),
        4 => parts.name = endless_name(random),
        7 => parts.places = parts.places.saturating_sub(random.between(1, 3)),
        _ => in_the_file(random, parts, number),
    }
}

fn another_version(random: &mut Random) -> u32 {
    let noise = random.u32() | 32;
    *random.pick(&[0, 16, 18, 22, 24, 26, 30, 17 << 8, 17 << 24, 17 + 256, 23 | 1 << 31, noise])
}

/// Thirty units or more before its first zero, if it has one.
fn endless_name(random: &mut Random) -> Vec<u16> {
    let units = *random.pick(&[30, 30, 31, 60]);
    let mut name: Vec<u16> = (0..units).map(|_| strings::unit(random)).collect();
    if random.one_in(2) {
        name.push(0);
    }
    name
}

/// No damage moves a section or changes its length. An odd last number is in
/// no file, and stays.
fn in_the_file(random: &mut Random, parts: &mut Parts, number: u64) {
    if !matches!(parts.version, 17 | 23) {
        return;
    }
    let mut sample = Sample { bytes: laid_out(&parts.description()), places: parts.places };
    damage_file(random, &mut sample, number);
    let damaged = of_file(&sample.bytes);
    parts.metrics[..damaged.metrics.len()].copy_from_slice(&damaged.metrics);
    parts.trace[..damaged.trace.len()].copy_from_slice(&damaged.trace);
    parts.strings = damaged.strings;
    parts.volumes = damaged.volumes;
    parts.volume_count = damaged.volume_count;
}

/// What a file of version 17 or 23 says, with as many slots as trace entries.
/// Its sections lie in it, or are empty.
pub fn of_file(file: &[u8]) -> Parts {
    let layout = known_layout(file);
    let bytes = |which| {
        let section = section(file, which);
        if section.is_empty() {
            return Vec::new();
        }
        file[section.start as usize..section.end() as usize].to_vec()
    };
    let units = (0..30).map(|place| name_unit(file, place) as u16);
    Parts {
        version: version(file),
        name: units.take_while(|&unit| unit != 0).collect(),
        stored_hash: stored_hash(file) as u32,
        run_time: run_times(file)[0],
        run_count: run_count(file) as u32,
        metrics: pairs(&bytes(METRICS), layout.metrics_entry, layout.name_offset),
        trace: pairs(&bytes(TRACE), layout.trace_entry, 0),
        strings: bytes(STRINGS),
        volumes: bytes(VOLUMES),
        volume_count: volume_count(file) as u32,
        places: trace_count(file) as usize,
    }
}

/// From entries of that size, with a pair at that place in each.
fn pairs(entries: &[u8], size: u64, place: usize) -> Vec<u32> {
    let pair = |entry: &[u8]| [place, place + 4].map(|at| number_32(entry, at) as u32);
    entries.chunks(size as usize).flat_map(pair).collect()
}
