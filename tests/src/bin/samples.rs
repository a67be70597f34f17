//! samples FOLDER
//!
//! Writes the sample files of the examples, the same bytes every time: a small
//! sound file, one of version 26 that a media program left with a /prefetch
//! number, one of version 30 and the same with another head form, one of about
//! 150 KB, and copies of that one, each with a fault. Those of version 23 come
//! from the crate's builder of test files.

use compare::generate::damage::volume_start;
use compare::generate::{set_16, set_32};
use compare::reference::checks::{entry_start, name_of_entry};
use compare::reference::head::{known_layout, section, STRINGS};
use compare::reference::trace;
use compare::typical::{self, another_form, test_file, Amounts, CHAMBER, PLAYER, TYPICAL};
use std::io;
use std::path::Path;
use std::process::ExitCode;

const SMALL: Amounts = Amounts { files: 6, trace: 40, directories: 5 };
const VERSION: u32 = 23;

fn main() -> ExitCode {
    let Some(folder) = std::env::args().nth(1) else {
        eprintln!("samples FOLDER");
        return ExitCode::from(2);
    };
    match write_all(Path::new(&folder)) {
        Ok(()) => ExitCode::SUCCESS,
        Err(error) => {
            eprintln!("samples: {folder}: {error}");
            ExitCode::FAILURE
        }
    }
}

fn write_all(folder: &Path) -> io::Result<()> {
    std::fs::create_dir_all(folder)?;
    std::fs::write(folder.join("small.pf"), sound(&SMALL))?;
    std::fs::write(folder.join("player.pf"), typical::file_of(&PLAYER, 26, &SMALL))?;
    let unpacked = typical::file(30, &SMALL);
    std::fs::write(folder.join("unpacked.pf"), &unpacked)?;
    std::fs::write(folder.join("form.pf"), another_form(&unpacked))?;
    let good = sound(&TYPICAL);
    std::fs::write(folder.join("good.pf"), &good)?;
    std::fs::write(folder.join("cut.pf"), &good[..100_000])?;
    let faults: [(&str, fn(&mut [u8])); 6] = [
        ("version.pf", wrong_version),
        ("size.pf", wrong_size),
        ("names.pf", name_outside),
        ("strings.pf", zero_in_a_name),
        ("cycle.pf", cycle),
        ("volume.pf", path_outside),
    ];
    for (name, damage) in faults {
        let mut file = good.clone();
        damage(&mut file);
        std::fs::write(folder.join(name), file)?;
    }
    Ok(())
}

fn sound(amounts: &Amounts) -> Vec<u8> {
    test_file(&CHAMBER, VERSION, amounts).write().expect("a sound file")
}

fn wrong_version(file: &mut [u8]) {
    set_32(file, 0, 24);
}

/// One bit of the declared size: past the limit.
fn wrong_size(file: &mut [u8]) {
    file[15] |= 4;
}

/// The name of metrics entry 100 begins where the strings end.
fn name_outside(file: &mut [u8]) {
    let field = entry_start(file, 100) as usize + known_layout(file).name_offset;
    let strings = section(file, STRINGS).length as u32;
    set_32(file, field, strings);
}

/// The fifth unit of the name of metrics entry 200.
fn zero_in_a_name(file: &mut [u8]) {
    let name = section(file, STRINGS).start + name_of_entry(file, 200).offset;
    set_16(file, name as usize + 8, 0);
}

/// The last trace entry names the first of its chain.
fn cycle(file: &mut [u8]) {
    let last = trace::entry_start(file, TYPICAL.trace as u64 - 1);
    let first = TYPICAL.trace * (TYPICAL.files - 1) / TYPICAL.files;
    set_32(file, last as usize, first as u32);
}

/// More units in the path of volume 1 than the section has.
fn path_outside(file: &mut [u8]) {
    let field = volume_start(file, 1) + 4;
    set_32(file, field, 65_536);
}
