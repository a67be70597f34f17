//! Checks 8, 14 and 15: every field of a volume damaged in turn, all small
//! numbers for a part, parts that overlap, and sections cut.

use super::Run;
use crate::boundary::compare_both;
use crate::generate::bare::{bare, one_volume_of, volume_entry};
use crate::generate::damage::{directory_ends, volume_start};
use crate::generate::{set_16, set_32, sound_of, Counts};
use crate::random::Random;
use crate::reference::head::{section, volume_count, VOLUMES};
use crate::reference::layout::{Layout, LAYOUTS};
use crate::reference::readers::{Answer, Verdict};
use crate::reference::volumes::{
    directories_fault, path_fault, reference_count, references_fault, volume, Volume,
};
use crate::tally::Tally;

pub fn run(run: &Run, tally: &mut Tally) {
    let mut volumes = Volumes { random: run.random("volumes"), tally, seen: Seen::default() };
    volumes.fields_in_turn(3 * run.scale);
    volumes.grids();
    volumes.overlapping_parts(60_000 * run.scale);
    volumes.cut_sections(200 * run.scale);
    volumes.entry_counts();
    volumes.many_volumes();
    volumes.longest_directories();
    volumes.seen.report(volumes.tally);
}

/// Volumes of the files with several.
const SEVERAL: usize = 3;

struct Volumes<'a> {
    random: Random,
    tally: &'a mut Tally,
    seen: Seen,
}

impl Volumes<'_> {
    fn file(&mut self, file: &[u8]) {
        let answer = compare_both(&mut self.random, self.tally, file, 0).prefix;
        self.seen.answer(file, &answer);
    }

    /// The whole, and all but the last byte that the volumes are waiting for.
    fn file_and_cut(&mut self, file: &[u8]) {
        self.file(file);
        let end = section(file, VOLUMES).end() as usize;
        if end <= file.len() {
            compare_both(&mut self.random, self.tally, &file[..end - 1], 0);
        }
    }

    fn fields_in_turn(&mut self, rounds: usize) {
        for _ in 0..rounds {
            for layout in &LAYOUTS {
                let file = full_file(&mut self.random, layout);
                for i in 0..SEVERAL as u64 {
                    self.fields_of(&file, i);
                    self.units_of(&file, i);
                }
            }
        }
    }

    /// Each number of the entry and of the reference data.
    fn fields_of(&mut self, file: &[u8], i: u64) {
        let numbers = telling_numbers(file, &volume(file, i));
        for at in fields(file, i) {
            let was = u32::from_le_bytes(file[at..at + 4].try_into().expect("four bytes"));
            let mut damaged = file.to_vec();
            for number in numbers.iter().copied().chain(around(was)).chain(around(was ^ 1 << 31)) {
                set_32(&mut damaged, at, number);
                self.file_and_cut(&damaged);
            }
        }
    }

    /// Each length and each unit of the directories, the last zero included.
    fn units_of(&mut self, file: &[u8], i: u64) {
        let size = section(file, VOLUMES).length as u16;
        let halves = around(size as u32 / 2).map(|half| half as u16);
        let small = 0..=20;
        let large = [0x00FF, 0x0100, 0x7FFF, 0x8000, 0xFF00, 0xFFFE, 0xFFFF];
        let numbers: Vec<u16> = small.chain(halves).chain(large).collect();
        for directory in directory_ends(file, i) {
            for at in (directory.start..=directory.last_unit).step_by(2) {
                let mut damaged = file.to_vec();
                for &number in &numbers {
                    set_16(&mut damaged, at, number);
                    self.file_and_cut(&damaged);
                }
            }
        }
    }

    /// One volume with one part: all small numbers and those near the ends of
    /// 32 bits, at every parity.
    fn grids(&mut self) {
        let lengths: [(u32, &[usize]); 4] = [
            (17, &[0, 1, 2, 3, 7, 8, 9, 15, 16, 17, 24]),
            (23, &[0, 1, 8, 17]),
            (26, &[0, 9, 16]),
            (30, &[0, 8, 15]),
        ];
        for (version, lengths) in lengths {
            for &length in lengths {
                self.path_grid(version, length);
                self.references_grid(version, length);
                self.directories_grid(version, length);
            }
        }
    }

    fn path_grid(&mut self, version: u32, length: usize) {
        let data = self.random.bytes(length);
        let size = volumes_size(version, length);
        for offset in small_and_huge(size + 2) {
            for units in small_and_huge(size / 2 + 2) {
                self.file(&one_volume_of(version, [offset, units, 0, 0, 0, 0], &data));
            }
        }
    }

    /// The count of references is one that fits just so, or one that doesn't.
    fn references_grid(&mut self, version: u32, length: usize) {
        let size = volumes_size(version, length);
        for offset in small_and_huge(size + 2) {
            for bytes in small_and_huge(size + 2) {
                let data = vec![0; length];
                let mut file = one_volume_of(version, [0, 0, offset, bytes, 0, 0], &data);
                let entry_end = file.len() - length;
                let at = file.len() as u64 - size as u64 + offset as u64 + 4;
                if at as usize >= entry_end && at as usize + 4 <= file.len() {
                    let fitting = bytes.wrapping_sub(8) / 8;
                    let n = [0, 1, fitting, fitting + 1, 1 << 29, (1 << 29) - 1, 1 << 31, u32::MAX];
                    set_32(&mut file, at as usize, *self.random.pick(&n));
                }
                self.file(&file);
            }
        }
    }

    /// Data of small numbers, so that directories are found at many places.
    fn directories_grid(&mut self, version: u32, length: usize) {
        let size = volumes_size(version, length);
        for offset in small_and_huge(size + 2) {
            for count in small_and_huge(6) {
                for _ in 0..4 {
                    let data = small_bytes(&mut self.random, length, 3);
                    self.file(&one_volume_of(version, [0, 0, 0, 0, offset, count], &data));
                }
            }
        }
    }

    /// Parts anywhere in the section, over each other and over the entries.
    fn overlapping_parts(&mut self, rounds: usize) {
        for _ in 0..rounds {
            let layout = self.random.pick(&LAYOUTS);
            let file = overlapping(&mut self.random, layout);
            self.file_and_cut(&file);
        }
    }

    /// A sound section made shorter byte by byte, and the file cut at every
    /// byte of the section.
    fn cut_sections(&mut self, rounds: usize) {
        for _ in 0..rounds {
            let layout = self.random.pick(&LAYOUTS);
            let counts = Counts { metrics: 1, trace: 0, volumes: self.random.between(1, 3) };
            let file = sound_of(&mut self.random, layout, counts).bytes;
            let section = section(&file, VOLUMES);
            let mut shorter = file.clone();
            for size in 0..section.length {
                set_32(&mut shorter, 116, size as u32);
                self.file(&shorter);
            }
            for length in section.start..=section.end() {
                self.file(&file[..length as usize]);
            }
        }
    }

    /// As many entries as fit, one more, and counts whose product with the
    /// entry size wraps.
    fn entry_counts(&mut self) {
        for layout in &LAYOUTS {
            let entry = layout.volume_entry as u32;
            for size in [0, 1, entry - 1, entry, entry + 1, 3 * entry - 1, 3 * entry] {
                let mut file = bare(layout.version, size);
                let start = file.len() as u32 - size;
                set_32(&mut file, 108, start);
                set_32(&mut file, 116, size);
                let wrapping = u32::MAX / entry;
                let counts = (0..6).chain(around(wrapping)).chain(around(1 << 31));
                for count in counts.chain(around(u32::MAX - 2)) {
                    set_32(&mut file, 112, count);
                    self.file(&file);
                }
            }
        }
    }

    /// The first fault met answers, wherever it is.
    fn many_volumes(&mut self) {
        const MANY: usize = 500;
        for layout in &LAYOUTS {
            let counts = Counts { metrics: 0, trace: 0, volumes: MANY };
            let file = sound_of(&mut self.random, layout, counts).bytes;
            self.file_and_cut(&file);
            let mut damaged = file.clone();
            for i in [MANY - 1, MANY / 2, 1, 0] {
                set_32(&mut damaged, volume_start(&file, i as u64) + 4, u32::MAX);
                self.file_and_cut(&damaged);
            }
        }
    }

    /// Directories of 65,535 units: as they should be, one byte short, and
    /// with a last unit that isn't zero.
    fn longest_directories(&mut self) {
        const BYTES: usize = 4 + 2 * 65_535;
        let mut data = vec![0x41; 2 * BYTES];
        for start in [0, BYTES] {
            set_16(&mut data, start, 65_535);
            set_16(&mut data, start + BYTES - 2, 0);
        }
        for (count, last, short) in [(1, 0, 0), (2, 0, 0), (2, 0, 1), (2, 1, 0), (3, 0, 0)] {
            let mut data = data.clone();
            set_16(&mut data, 2 * BYTES - 2, last);
            data.truncate(2 * BYTES - short);
            for version in [17, 23, 26, 30] {
                let entry = volumes_size(version, 0);
                self.file_and_cut(&one_volume_of(version, [0, 0, 0, 0, entry, count], &data));
            }
        }
    }
}

fn volumes_size(version: u32, data: usize) -> u32 {
    data as u32 + volume_entry(version)
}

/// From 0 to the bound, and near the halves and ends of 32 bits.
fn small_and_huge(bound: u32) -> impl Iterator<Item = u32> {
    let huge = [1 << 29, (1 << 31) - 1, 1 << 31, (1 << 31) + 1, (1 << 31) + 20];
    let last = [63, 39, 19, 8, 7, 4, 2, 1, 0].map(|less| u32::MAX - less);
    (0..=bound).chain(huge).chain(last)
}

/// Two on either side, wrapping.
fn around(middle: u32) -> impl Iterator<Item = u32> {
    (0..5).map(move |step| middle.wrapping_add(step).wrapping_sub(2))
}

/// Volumes that have each of the three parts.
fn full_file(random: &mut Random, layout: &Layout) -> Vec<u8> {
    let counts = Counts { metrics: 1, trace: 0, volumes: SEVERAL };
    loop {
        let file = sound_of(random, layout, counts).bytes;
        let full = (0..SEVERAL as u64).all(|i| {
            let volume = volume(&file, i);
            let references = reference_count(&file, &volume);
            volume.path_units > 0 && references > 0 && volume.directories > 0
        });
        if full {
            return file;
        }
    }
}

/// Where the numbers of volume i stand, those that nothing reads among them.
fn fields(file: &[u8], i: u64) -> Vec<usize> {
    let entry = volume_start(file, i);
    let data = (section(file, VOLUMES).start + volume(file, i).references_offset) as usize;
    let references = reference_count(file, &volume(file, i)) as usize;
    let mut places: Vec<usize> = (0..10).map(|number| entry + 4 * number).collect();
    places.extend([data, data + 4, data + 8, data + 8 * references + 4]);
    places
}

/// Numbers near those at which a sum with another of the volume's numbers
/// comes to the section's end, or past 32 bits.
fn telling_numbers(file: &[u8], volume: &Volume) -> Vec<u32> {
    let size = section(file, VOLUMES).length as u32;
    let others = [
        volume.path_offset,
        volume.path_units,
        volume.references_offset,
        volume.references_size,
        reference_count(file, volume),
        volume.directories_offset,
        volume.directories,
    ];
    let mut middles = vec![2, 7, 1 << 29, 1 << 31, u32::MAX - 7, u32::MAX - 2, size, size / 2];
    for other in others.map(|other| other as u32) {
        let rest = size.wrapping_sub(other);
        middles.extend([other, rest, rest / 2, rest / 8, size.wrapping_sub(2 * other)]);
        middles.extend([other.wrapping_neg(), (2 * other).wrapping_neg()]);
    }
    let mut numbers: Vec<u32> = middles.into_iter().flat_map(around).collect();
    numbers.sort();
    numbers.dedup();
    numbers
}

/// Zeros, and one of so many a small number.
fn small_bytes(random: &mut Random, length: usize, one_in: usize) -> Vec<u8> {
    let mut byte = || if random.one_in(one_in) { random.between(1, 3) as u8 } else { 0 };
    (0..length).map(|_| byte()).collect()
}

fn overlapping(random: &mut Random, layout: &Layout) -> Vec<u8> {
    let volumes = random.between(1, 4);
    let entry = layout.volume_entry as usize;
    let size = volumes * entry + random.between(0, 60);
    let gap = random.between(0, 3);
    let mut file = bare(layout.version, (gap + size) as u32);
    let start = file.len() - size;
    set_32(&mut file, 108, start as u32);
    set_32(&mut file, 112, volumes as u32);
    set_32(&mut file, 116, size as u32);
    file[start..].copy_from_slice(&small_bytes(random, size, 20));
    for i in 0..volumes {
        overlapping_entry(random, &mut file[start..], i * entry, volumes * entry);
    }
    file
}

/// Most of its parts are sound, so that later volumes are looked at too.
fn overlapping_entry(random: &mut Random, section: &mut [u8], at: usize, entries: usize) {
    let size = section.len();
    let one_more = random.one_in(8) as usize;
    let path = somewhere(random, entries, size);
    set_32(section, at, path as u32);
    set_32(section, at + 4, (random.below((size - path) / 2 + 1) + one_more) as u32);
    let references = somewhere(random, entries, size);
    let most = size - references;
    let bytes = *random.pick(&[0, 0, 0, 8, 8, 9, 16, 64, most, most + 1]);
    set_32(section, at + 20, references as u32);
    set_32(section, at + 24, bytes.min(most + one_more) as u32);
    set_32(section, at + 28, somewhere(random, entries, size) as u32);
    set_32(section, at + 32, *random.pick(&[0, 0, 0, 1, 1, 2, 7]));
}

/// Behind the entries, or in one of four cases anywhere.
fn somewhere(random: &mut Random, entries: usize, size: usize) -> usize {
    match random.one_in(4) {
        true => random.between(0, size),
        false => random.between(entries, size),
    }
}

/// How often each fault was the first, by volume.
#[derive(Default)]
struct Seen {
    accepted: u64,
    too_many: u64,
    path: u64,
    references: u64,
    directories: u64,
    unended: u64,
    by_volume: [u64; 4],
}

impl Seen {
    fn answer(&mut self, file: &[u8], answer: &Answer) {
        let refusal = match &answer.verdict {
            Verdict::Accepted(_) if volume_count(file) > 0 => return self.accepted += 1,
            Verdict::Refused(refusal) => refusal,
            _ => return,
        };
        if refusal.number == 8 {
            self.too_many += 1;
        }
        if refusal.number < 14 {
            return;
        }
        let volume = volume(file, refusal.index);
        let place = if path_fault(file, &volume).is_some() {
            &mut self.path
        } else if references_fault(file, &volume).is_some() {
            &mut self.references
        } else if directories_fault(file, &volume) == Some(14) {
            &mut self.directories
        } else {
            &mut self.unended
        };
        *place += 1;
        if let Some(count) = self.by_volume.get_mut(refusal.index as usize) {
            *count += 1;
        }
    }

    fn report(&self, tally: &mut Tally) {
        let kinds = [
            ("accepted", self.accepted),
            ("more entries than fit", self.too_many),
            ("a path outside", self.path),
            ("references outside", self.references),
            ("a directory outside", self.directories),
            ("a directory without its zero", self.unended),
            ("volume 0 at fault", self.by_volume[0]),
            ("volume 1 at fault", self.by_volume[1]),
            ("volume 2 at fault", self.by_volume[2]),
            ("volume 3 at fault", self.by_volume[3]),
        ];
        let counts: Vec<String> =
            kinds.iter().map(|(name, count)| format!("{name}: {count}")).collect();
        println!("volumes: {}", counts.join(", "));
        for (name, count) in kinds {
            tally.named(&format!("{name} has come up often"), &true, &(count >= 100));
        }
    }
}
