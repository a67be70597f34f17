//! Makes one odd file for each refusal that a written file can get, and shows
//! what the reader says of it: number, index and file offset. 7 and 20 are
//! about the caller's lists and not about a file.
//!
//!     odd_files [FOLDER]
//!
//! With a folder the files are written there, but for that of 3, which takes
//! 64 MiB.

use hivesaddle::{read_file, read_file_alloc, Reference, Refusal, TestFile, TestVolume};
use std::process::ExitCode;

const DISK: &str = r"\DEVICE\HARDDISKVOLUME1";
const PROGRAM: &str = r"\DEVICE\HARDDISKVOLUME1\WINDOWS\SYSTEM32\CMD.EXE";

/// A sound file: two names, the chains 0 -> 1 -> 2 and 3, and a volume.
fn sound() -> TestFile {
    with_entries(23).volume(TestVolume {
        path: DISK.into(),
        serial_number: 0x5C0A_70E1,
        creation_time: 129_000_000_000_000_000,
        references: vec![Reference { entry_index: 40, sequence_number: 1 }],
        directories: vec![format!(r"{DISK}\WINDOWS")],
    })
}

fn with_entries(version: u32) -> TestFile {
    let library = format!(r"{DISK}\WINDOWS\SYSTEM32\NTDLL.DLL");
    let file = TestFile::new(version).name("CMD.EXE").hash_of(PROGRAM).run_count(42);
    file.run_time(133_761_942_000_000_000)
        .file(PROGRAM)
        .file(&library)
        .chain(&[8, 16, 4])
        .chain(&[2])
}

/// A volumes section of one entry of version 23, with fields set to numbers.
fn one_volume(fields: &[(usize, u32)]) -> TestFile {
    let mut section = [0; 104];
    for &(at, number) in fields {
        section[at..at + 4].copy_from_slice(&number.to_le_bytes());
    }
    with_entries(23).volumes(&section).volume_count(1)
}

fn odd_files() -> [(&'static str, TestFile); 11] {
    [
        ("01-version-24", with_entries(24)),
        ("03-one-byte-past-64-mib", TestFile::new(23).strings(&vec![0; (64 << 20) + 1 - 240])),
        ("04-name-of-thirty-units", sound().name("A-NAME-OF-THIRTY-UNITS-OR-MORE")),
        ("08-more-volumes-than-room", sound().volume_count(100)),
        ("09-name-past-the-strings", sound().metrics(1_000, 5)),
        ("10-name-cut-short", sound().metrics(0, 5)),
        ("11-next-index-astray", sound().trace(5, 1)),
        ("12-two-lead-to-one", sound().trace(1, 1)),
        ("13-leads-back-to-itself", sound().trace(4, 1)),
        // 100 units of path from the start of the section.
        ("14-path-past-the-volumes", one_volume(&[(4, 100)])),
        // One directory at 44: no units, and then a unit that is not zero.
        ("15-directory-without-end", one_volume(&[(28, 44), (32, 1), (46, 1)])),
    ]
}

fn show(name: &str, refusal: Refusal) {
    println!("{name}: refused {} {} at {}", refusal.number, refusal.index, refusal.offset);
}

/// The writer does not write it and says what the reader says of it.
fn show_odd(name: &str, file: &TestFile, folder: Option<&str>) -> std::io::Result<()> {
    let bytes = file.lay_out();
    match read_file_alloc(&bytes) {
        Ok(_) => println!("{name}: accepted, which it should not be"),
        Err(refusal) if file.write() == Err(refusal) => show(name, refusal),
        Err(refusal) => println!("{name}: {refusal:?} but {:?}", file.write()),
    }
    match folder {
        Some(folder) if bytes.len() < 1 << 20 => {
            std::fs::write(format!("{folder}/{name}.pf"), bytes)
        }
        _ => Ok(()),
    }
}

/// The refusals that are about lists: too few slots, too small an output.
fn show_lists() -> Result<(), Refusal> {
    let file = sound().write()?;
    println!("sound: {} bytes", file.len());
    let mut output = vec![0; file.len()];
    if let Err(refusal) = read_file(&file, &mut [0; 3]) {
        show("07-three-slots-for-four-entries", refusal);
    }
    let short = &mut output[1..];
    if let Err(refusal) = sound().write_into(&mut [0; 4], short) {
        show("20-output-one-byte-short", refusal);
    }
    Ok(())
}

fn main() -> ExitCode {
    let folder = std::env::args().nth(1);
    if let Err(refusal) = show_lists() {
        show("sound", refusal);
        return ExitCode::FAILURE;
    }
    for (name, file) in odd_files() {
        if let Err(error) = show_odd(name, &file, folder.as_deref()) {
            eprintln!("odd_files: {name}: {error}");
            return ExitCode::from(2);
        }
    }
    ExitCode::SUCCESS
}
