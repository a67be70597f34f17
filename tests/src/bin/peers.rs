//! peers FOLDER
//!
//! Writes files for the comparison with other readers, the same bytes every
//! time: sound/ has each version in three sizes, in the order and at the
//! offsets that Windows uses; written/ has those of versions 17 and 23 as the
//! library writes them; damaged/ has copies of small sound files of versions 23
//! and 30, each aimed at the refusal that its name starts with.

use compare::generate::damage::{directory_ends, volume_start};
use compare::generate::{set_16, set_32};
use compare::reference::checks::{entry_start, name_of_entry};
use compare::reference::head::*;
use compare::reference::layout::END;
use compare::typical::{self, another_form, test_file, Amounts, CHAMBER};
use std::io;
use std::path::Path;
use std::process::ExitCode;

const SMALL: Amounts = Amounts { files: 6, trace: 40, directories: 5 };

fn main() -> ExitCode {
    let Some(folder) = std::env::args().nth(1) else {
        eprintln!("peers FOLDER");
        return ExitCode::from(2);
    };
    let folder = Path::new(&folder);
    let written = write_sound(&folder.join("sound"))
        .and_then(|()| write_written(&folder.join("written")))
        .and_then(|()| write_damaged(&folder.join("damaged")));
    match written {
        Ok(()) => ExitCode::SUCCESS,
        Err(error) => {
            eprintln!("peers: {}: {error}", folder.display());
            ExitCode::FAILURE
        }
    }
}

/// 150 KB, 1.6 MB and 16 MB, roughly.
const SIZES: [(&str, usize); 3] = [("a", 150_000), ("b", 1_600_000), ("c", 16_000_000)];

fn write_sound(folder: &Path) -> io::Result<()> {
    std::fs::create_dir_all(folder)?;
    for (name, bytes) in SIZES {
        for version in [17, 23, 26, 30] {
            let file = typical::file(version, &Amounts::for_bytes(bytes));
            std::fs::write(folder.join(format!("{name}-{version}.pf")), file)?;
        }
    }
    Ok(())
}

/// By the builder of the crate: without gaps, and with zeros where no field is
/// that the writer has. The smallest has one file.
fn write_written(folder: &Path) -> io::Result<()> {
    std::fs::create_dir_all(folder)?;
    for (name, bytes) in SIZES.into_iter().chain([("d", 1_000), ("e", 3_000)]) {
        for version in [17, 23] {
            let file = test_file(&CHAMBER, version, &Amounts::for_bytes(bytes)).write();
            let path = folder.join(format!("{name}-{version}.pf"));
            std::fs::write(path, file.expect("a sound file"))?;
        }
    }
    Ok(())
}

/// The metrics entry and the volume that are damaged.
const ENTRY: u64 = 4;
const VOLUME: u64 = 0;

/// Where things stand in the sound file.
struct Places {
    size: u32,
    metrics: u32,
    trace: usize,
    trace_entry: usize,
    strings: u32,
    strings_size: u32,
    volumes_size: u32,
    /// Fields of the metrics entry.
    name_offset: usize,
    name_length: usize,
    name: usize,
    volume: usize,
    /// Data of the volume.
    references: usize,
    directory_end: usize,
}

impl Places {
    fn of(file: &[u8]) -> Places {
        let entry = entry_start(file, ENTRY) as usize;
        let (strings, volumes) = (section(file, STRINGS), section(file, VOLUMES));
        let volume = volume_start(file, VOLUME);
        Places {
            size: file.len() as u32,
            metrics: section(file, METRICS).start as u32,
            trace: section(file, TRACE).start as usize,
            trace_entry: known_layout(file).trace_entry as usize,
            strings: strings.start as u32,
            strings_size: strings.length as u32,
            volumes_size: volumes.length as u32,
            name_offset: entry + known_layout(file).name_offset,
            name_length: entry + known_layout(file).name_length,
            name: (strings.start + name_of_entry(file, ENTRY).offset) as usize,
            volume,
            references: (volumes.start + number_32(file, volume + 20)) as usize,
            directory_end: directory_ends(file, VOLUME)[0].last_unit,
        }
    }

    /// A trace entry, which begins with its next index if it has one.
    fn next(&self, entry: usize) -> usize {
        self.trace + entry * self.trace_entry
    }
}

type Damage = (&'static str, fn(&mut Vec<u8>, &Places));

const DAMAGE: [Damage; 37] = [
    ("00-none", |_, _| ()),
    // Sound, but not as Windows lays a file out.
    ("00-gap-behind-head", |file, at| {
        file.splice(at.metrics as usize..at.metrics as usize, [0; 8]);
        for field in [12, 84, 92, 100, 108] {
            let moved = number_32(file, field) as u32 + 8;
            set_32(file, field, moved);
        }
    }),
    ("00-trace-before-metrics", |file, at| {
        let (metrics, trace) = (at.metrics as usize, at.trace);
        let trace_end = at.next(SMALL.trace);
        file[metrics..trace_end].rotate_left(trace - metrics);
        set_32(file, 92, at.metrics);
        set_32(file, 84, (metrics + trace_end - trace) as u32);
    }),
    ("01-version-24", |file, _| set_32(file, 0, 24)),
    ("01-version-31", |file, _| set_32(file, 0, 31)),
    ("02-signature", |file, _| file[5] ^= 1),
    ("03-size-147", |file, _| set_32(file, 12, 147)),
    ("03-size-67108865", |file, _| set_32(file, 12, 67_108_865)),
    ("04-name-without-end", |file, _| (0..30).for_each(|unit| set_16(file, 16 + 2 * unit, 65))),
    ("05-metrics-in-head", |file, _| set_32(file, 84, 120)),
    ("05-trace-past-end", |file, at| set_32(file, 92, at.size)),
    ("05-strings-past-end", |file, at| set_32(file, 104, at.size)),
    ("05-volumes-past-end", |file, at| set_32(file, 116, at.size)),
    ("05-trace-count-wraps", |file, _| set_32(file, 96, (1 << 30) + SMALL.trace as u32)),
    ("06-trace-on-metrics", |file, at| set_32(file, 92, at.metrics)),
    ("06-strings-on-trace", |file, at| set_32(file, 100, at.next(SMALL.trace) as u32 - 1)),
    ("06-volumes-on-strings", |file, at| set_32(file, 108, at.strings)),
    ("08-volume-count", |file, _| set_32(file, 112, 1_000)),
    ("09-name-offset", |file, at| set_32(file, at.name_offset, at.strings_size)),
    ("09-name-offset-wraps", |file, at| set_32(file, at.name_offset, u32::MAX - 1)),
    ("09-name-length", |file, at| set_32(file, at.name_length, at.strings_size)),
    ("10-zero-in-name", |file, at| set_16(file, at.name + 8, 0)),
    ("10-name-too-short", |file, at| set_32(file, at.name_length, 5)),
    ("11-next-is-count", |file, at| set_32(file, at.next(3), SMALL.trace as u32)),
    ("12-named-twice", |file, at| set_32(file, at.next(3), 1)),
    ("13-cycle", |file, at| set_32(file, at.next(39), 33)),
    ("13-own-next", |file, at| {
        set_32(file, at.next(38), END);
        set_32(file, at.next(39), 39);
    }),
    ("14-path-length", |file, at| set_32(file, at.volume + 4, 65_536)),
    ("14-references-offset", |file, at| set_32(file, at.volume + 20, at.volumes_size)),
    ("14-reference-count", |file, at| set_32(file, at.references + 4, 1_000)),
    ("14-directories-offset", |file, at| set_32(file, at.volume + 28, at.volumes_size)),
    ("14-directory-count", |file, at| set_32(file, at.volume + 32, 1_000)),
    ("15-directory-without-end", |file, at| set_16(file, at.directory_end, 65)),
    ("16-one-byte-short", |file, _| file.truncate(file.len() - 1)),
    ("16-size-16777216", |file, _| set_32(file, 12, 16_777_216)),
    ("17-one-byte-more", |file, _| file.push(0)),
    ("21-version-30", |file, _| set_32(file, 0, 30)),
];

/// Damage that is version 30's own, and what is none in it.
const DAMAGE_30: [Damage; 7] = [
    ("00-30-none", |_, _| ()),
    ("00-30-trace-noise", |file, at| {
        let (first, behind) = (at.next(0), at.next(SMALL.trace));
        file[first..behind].fill(0xA5);
    }),
    ("05-30-trace-past-end", |file, at| set_32(file, 92, at.size)),
    ("06-30-strings-on-trace", |file, at| set_32(file, 100, at.next(SMALL.trace) as u32 - 1)),
    ("08-30-volume-count", |file, at| set_32(file, 112, at.volumes_size / 96 + 1)),
    ("21-30-metrics-at-296", |file, _| *file = another_form(file)),
    ("21-30-metrics-at-305", |file, at| set_32(file, 84, at.metrics + 1)),
];

fn write_damaged(folder: &Path) -> io::Result<()> {
    std::fs::create_dir_all(folder)?;
    for (version, damages) in [(23, &DAMAGE[..]), (30, &DAMAGE_30[..])] {
        let sound = typical::file(version, &SMALL);
        let places = Places::of(&sound);
        for (name, damage) in damages {
            let mut file = sound.clone();
            damage(&mut file, &places);
            std::fs::write(folder.join(format!("{name}.pf")), file)?;
        }
    }
    Ok(())
}
