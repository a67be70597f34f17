//! Files as Windows lays them out: metrics, trace, strings, volumes. Each
//! file named in the metrics array has one chain of trace entries.

use crate::generate::{set_32, set_64};
use crate::reference::hashes;
use crate::reference::head::number_32;
use crate::reference::layout::{forms_of, Layout, END};
use crate::reference::search::hash_of;
use hivesaddle::{Reference, TestFile, TestVolume};

/// How much a file has to say.
#[derive(Clone, Copy)]
pub struct Amounts {
    pub files: usize,
    pub trace: usize,
    pub directories: usize,
}

/// About 150 KB.
pub const TYPICAL: Amounts = Amounts { files: 270, trace: 7_300, directories: 70 };

/// Bytes of a version 23 file with the typical amounts, roughly.
const TYPICAL_BYTES: usize = 150_000;

impl Amounts {
    /// In the typical proportions, for a file of about so many bytes.
    pub fn for_bytes(bytes: usize) -> Amounts {
        let share = |amount: usize| (amount * bytes / TYPICAL_BYTES).max(1);
        Amounts {
            files: share(TYPICAL.files),
            trace: share(TYPICAL.trace),
            directories: share(TYPICAL.directories),
        }
    }
}

/// The latest run time. The others are a day apart.
const RUN_TIME: u64 = 133_761_942_000_000_000;
const A_DAY: u64 = 864_000_000_000;
const RUN_COUNT: u32 = 42;

/// The program that a file is about.
pub struct Program {
    pub name: &'static str,
    folder: &'static str,
    /// What its /prefetch switch adds to the hash of its path.
    number: u32,
}

pub const CHAMBER: Program =
    Program { name: "CHAMBER.EXE", folder: r"PROGRAM FILES\CHAMBER", number: 0 };
/// A media program has one such file for each way to start it.
pub const PLAYER: Program =
    Program { name: "WMPLAYER.EXE", folder: r"PROGRAM FILES\WINDOWS MEDIA PLAYER", number: 6 };

/// The metrics entry of the program itself.
const PROGRAM_ENTRY: usize = 2;

const FOLDERS: [&str; 8] = [
    r"WINDOWS\SYSTEM32",
    r"WINDOWS\SYSTEM32\DRIVERS",
    r"WINDOWS\WINSXS\X86_MICROSOFT.WINDOWS.COMMON-CONTROLS_6595B64144CCF1DF_6.0.7600.16385",
    r"WINDOWS\GLOBALIZATION\SORTING",
    r"PROGRAM FILES\COMMON FILES\MICROSOFT SHARED\OFFICE14",
    r"PROGRAM FILES\CHAMBER\PLUGINS",
    r"USERS\CREW\APPDATA\ROAMING\CHAMBER\CURVES",
    r"USERS\CREW\DOCUMENTS\MEASUREMENTS\COLD CHAMBER",
];

const STEMS: [&str; 8] =
    ["NTDLL", "KERNEL32", "APISETSCHEMA", "LOCALE", "COMCTL32", "OLEAUT32", "FANCURVE", "READINGS"];

/// A sound file about the chamber's own program.
pub fn file(version: u32, amounts: &Amounts) -> Vec<u8> {
    file_of(&CHAMBER, version, amounts)
}

/// A sound file. The stored hash is that of the program's path and its number.
pub fn file_of(program: &Program, version: u32, amounts: &Amounts) -> Vec<u8> {
    let layout = forms_of(version).next().expect("one of the four versions");
    let names: Vec<String> = (0..amounts.files).map(|i| name(program, i)).collect();
    let mut file = vec![0; first_section(version)];
    set_head(&mut file, layout, program, &names);
    let metrics = metrics(layout, &names, amounts.trace);
    add_section(&mut file, &metrics, 84);
    set_32(&mut file, 88, names.len() as u32);
    add_section(&mut file, &trace(layout, amounts), 92);
    set_32(&mut file, 96, amounts.trace as u32);
    let strings: Vec<u8> = names.iter().flat_map(|name| ended(name)).collect();
    add_section(&mut file, &strings, 100);
    set_32(&mut file, 104, strings.len() as u32);
    let volumes = volumes(layout, amounts);
    add_section(&mut file, &volumes, 108);
    set_32(&mut file, 112, VOLUMES as u32);
    set_32(&mut file, 116, volumes.len() as u32);
    let size = file.len() as u32;
    set_32(&mut file, 12, size);
    file
}

/// The same file through the crate's builder: without gaps, and with zeros
/// where no reader looks.
pub fn test_file(program: &Program, version: u32, amounts: &Amounts) -> TestFile {
    let names: Vec<String> = (0..amounts.files).map(|i| name(program, i)).collect();
    let path = names.get(PROGRAM_ENTRY).unwrap_or(&names[0]);
    let hash = hash_of(version, &hashes::bytes(&units(path)));
    let mut file = TestFile::new(version)
        .name(program.name)
        .hash(hash.wrapping_add(program.number))
        .run_time(RUN_TIME)
        .run_count(RUN_COUNT);
    for (i, name) in names.iter().enumerate() {
        let entries = chain(amounts.files, amounts.trace, i).len() as u32;
        let blocks: Vec<u32> = (0..entries).map(|entry| 8 * entry).collect();
        file = file.file(name).chain(&blocks);
    }
    (0..VOLUMES).fold(file, |file, volume| file.volume(test_volume(amounts, volume)))
}

fn test_volume(amounts: &Amounts, volume: usize) -> TestVolume {
    TestVolume {
        path: device(volume),
        serial_number: serial_number(volume),
        creation_time: creation_time(volume),
        references: (0..reference_count(amounts, volume) as u64).map(reference).collect(),
        directories: (0..directory_count(amounts, volume)).map(|k| directory(volume, k)).collect(),
    }
}

/// A version 30 file as others of that version are: all of it from the metrics
/// array on lies eight bytes earlier, so that the array starts at 296.
pub fn another_form(file: &[u8]) -> Vec<u8> {
    let mut file = file.to_vec();
    file.drain(296..304);
    for field in [12, 84, 92, 100, 108] {
        let moved = number_32(&file, field) as u32 - 8;
        set_32(&mut file, field, moved);
    }
    file
}

/// Where Windows puts the metrics array.
fn first_section(version: u32) -> usize {
    match version {
        17 => 152,
        23 => 240,
        _ => 304,
    }
}

fn set_head(file: &mut [u8], layout: &Layout, program: &Program, names: &[String]) {
    set_32(file, 0, layout.version);
    file[4..8].copy_from_slice(b"SCCA");
    set_32(file, 8, 17);
    file[16..16 + 2 * program.name.len()].copy_from_slice(&units(program.name));
    let path = names.get(PROGRAM_ENTRY).unwrap_or(&names[0]);
    let hash = hash_of(layout.version, &hashes::bytes(&units(path)));
    set_32(file, 76, hash.wrapping_add(program.number));
    for i in 0..layout.time_count {
        set_64(file, layout.run_time + 8 * i, RUN_TIME - i as u64 * A_DAY);
    }
    set_32(file, layout.run_count, RUN_COUNT);
}

/// Sections start at a multiple of eight.
fn add_section(file: &mut Vec<u8>, section: &[u8], offset_field: usize) {
    file.resize(file.len().next_multiple_of(8), 0);
    let start = file.len() as u32;
    set_32(file, offset_field, start);
    file.extend(section);
}

fn units(text: &str) -> Vec<u8> {
    text.encode_utf16().flat_map(u16::to_le_bytes).collect()
}

/// With a zero unit behind it.
fn ended(text: &str) -> Vec<u8> {
    let mut bytes = units(text);
    bytes.extend([0, 0]);
    bytes
}

/// No two are the same.
fn name(program: &Program, i: usize) -> String {
    if i == PROGRAM_ENTRY {
        return format!(r"{}\{}\{}", device(0), program.folder, program.name);
    }
    let (folder, stem) = (FOLDERS[i * 7 % 8], STEMS[i * 5 % 8]);
    let volume = usize::from(i % 9 == 8);
    let ending = ["DLL", "NLS", "DLL", "DAT"][i % 4];
    format!(r"{}\{folder}\{stem}{i:03}.{ending}", device(volume))
}

fn metrics(layout: &Layout, names: &[String], trace: usize) -> Vec<u8> {
    let mut section = Vec::new();
    let mut name_offset = 0;
    for (i, name) in names.iter().enumerate() {
        let mut entry = vec![0; layout.metrics_entry as usize];
        let chain = chain(names.len(), trace, i);
        let name_units = name.encode_utf16().count();
        set_32(&mut entry, 0, chain.start as u32);
        set_32(&mut entry, 4, chain.len() as u32);
        set_32(&mut entry, layout.name_offset, name_offset as u32);
        set_32(&mut entry, layout.name_length, name_units as u32);
        let flags = layout.name_length + 4;
        set_32(&mut entry, flags, 0x0200);
        section.extend(entry);
        name_offset += 2 * name_units + 2;
    }
    section
}

/// The trace entries of file i: as many for each, as far as that goes.
fn chain(files: usize, trace: usize, i: usize) -> std::ops::Range<usize> {
    trace * i / files..trace * (i + 1) / files
}

/// The next index, where there is one, the block count and the rest.
fn trace(layout: &Layout, amounts: &Amounts) -> Vec<u8> {
    let mut section = Vec::new();
    for i in 0..amounts.files {
        let chain = chain(amounts.files, amounts.trace, i);
        for entry in chain.clone() {
            let next = if entry + 1 < chain.end { entry as u32 + 1 } else { END };
            if layout.has_next {
                section.extend(next.to_le_bytes());
            }
            section.extend((8 * (entry - chain.start) as u32).to_le_bytes());
            section.extend(0x0001_0102u32.to_le_bytes());
        }
    }
    section
}

const VOLUMES: usize = 2;

fn device(volume: usize) -> String {
    format!(r"\DEVICE\HARDDISKVOLUME{}", volume + 1)
}

fn serial_number(volume: usize) -> u32 {
    0x5C0A_70E1 + volume as u32
}

fn creation_time(volume: usize) -> u64 {
    129_000_000_000_000_000 + volume as u64
}

/// The first volume has most of what there is: so many ninths.
fn share(volume: usize) -> usize {
    if volume == 0 {
        8
    } else {
        1
    }
}

fn reference_count(amounts: &Amounts, volume: usize) -> usize {
    (amounts.files + amounts.directories) * share(volume) / 9
}

fn reference(k: u64) -> Reference {
    Reference { entry_index: 40 + 3 * k, sequence_number: 1 + (k % 3) as u16 }
}

fn directory_count(amounts: &Amounts, volume: usize) -> usize {
    (amounts.directories * share(volume)).div_ceil(9)
}

fn directory(volume: usize, k: usize) -> String {
    format!(r"{}\{}\{k:03}", device(volume), FOLDERS[k * 3 % 8])
}

/// The entries; then for each volume its path, references and directories.
fn volumes(layout: &Layout, amounts: &Amounts) -> Vec<u8> {
    let entry = layout.volume_entry as usize;
    let mut section = vec![0; VOLUMES * entry];
    for volume in 0..VOLUMES {
        let at = volume * entry;
        set_64(&mut section, at + 8, creation_time(volume));
        set_32(&mut section, at + 16, serial_number(volume));
        add_path(&mut section, at, volume);
        add_references(&mut section, at, reference_count(amounts, volume));
        add_directories(&mut section, at, volume, directory_count(amounts, volume));
    }
    section
}

fn add_path(section: &mut Vec<u8>, at: usize, volume: usize) {
    let path = device(volume);
    let offset = section.len() as u32;
    set_32(section, at, offset);
    set_32(section, at + 4, path.len() as u32);
    section.extend(ended(&path));
}

fn add_references(section: &mut Vec<u8>, at: usize, count: usize) {
    section.resize(section.len().next_multiple_of(8), 0);
    let offset = section.len() as u32;
    set_32(section, at + 20, offset);
    set_32(section, at + 24, 8 + 8 * count as u32);
    section.extend(3u32.to_le_bytes());
    section.extend((count as u32).to_le_bytes());
    for Reference { entry_index, sequence_number } in (0..count as u64).map(reference) {
        section.extend((u64::from(sequence_number) << 48 | entry_index).to_le_bytes());
    }
}

fn add_directories(section: &mut Vec<u8>, at: usize, volume: usize, count: usize) {
    let offset = section.len() as u32;
    set_32(section, at + 28, offset);
    set_32(section, at + 32, count as u32);
    for directory in (0..count).map(|k| directory(volume, k)) {
        section.extend((directory.encode_utf16().count() as u16).to_le_bytes());
        section.extend(ended(&directory));
    }
}

#[cfg(test)]
mod points {
    use super::*;
    use crate::reference::head::{section, STRINGS, VOLUMES};
    use crate::reference::readers::{read_file, Record, Verdict};

    #[test]
    fn accepted_in_every_version_and_size() {
        for version in [17, 23, 26, 30] {
            for bytes in [1_000, 4_000, 20_000] {
                let amounts = Amounts::for_bytes(bytes);
                let file = file(version, &amounts);
                let verdict = read_file(&file, amounts.trace).verdict;
                assert!(matches!(verdict, Verdict::Accepted(_)), "{version} {bytes} {verdict:?}");
            }
        }
    }

    /// The same but for the offsets, and what no reader looks at.
    #[test]
    fn the_builder_says_the_same() {
        let amounts = Amounts::for_bytes(4_000);
        for version in [17, 23] {
            let (own, made) = (file(version, &amounts), test_file(&CHAMBER, version, &amounts));
            let made = made.write().expect("a sound file");
            let verdict = |file: &[u8]| match read_file(file, amounts.trace).verdict {
                Verdict::Accepted(record) => Record { declared_size: 0, ..record },
                other => panic!("{version} {other:?}"),
            };
            assert_eq!(verdict(&own), verdict(&made));
            for which in [STRINGS, VOLUMES] {
                let bytes = |file: &[u8]| {
                    let section = section(file, which);
                    file[section.start as usize..section.end() as usize].to_vec()
                };
                // References begin with another number in version 17.
                assert!(version == 17 && which == VOLUMES || bytes(&own) == bytes(&made));
            }
        }
    }

    #[test]
    fn typical_is_about_150_kilobytes() {
        let length = file(23, &TYPICAL).len();
        assert!(length.abs_diff(TYPICAL_BYTES) < 5_000, "{length}");
    }
}
