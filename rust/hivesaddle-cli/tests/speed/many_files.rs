//! Writes test files of about 150 KB into a folder, each another program's.
//!
//!     many_files FOLDER COUNT

use hivesaddle::{Reference, Refusal, TestFile, TestVolume};
use std::process::ExitCode;

const DISK: &str = r"\DEVICE\HARDDISKVOLUME1";
const FOLDERS: [&str; 4] = [
    r"WINDOWS\SYSTEM32",
    r"WINDOWS\WINSXS\X86_MICROSOFT.WINDOWS.COMMON-CONTROLS_6595B64144CCF1DF_6.0.7600.16385",
    r"PROGRAM FILES\COMMON FILES\MICROSOFT SHARED\OFFICE14",
    r"USERS\CREW\DOCUMENTS\MEASUREMENTS\COLD CHAMBER",
];
const FILES: usize = 270;
/// Trace entries of each file's chain.
const CHAIN: [u32; 27] = [8; 27];
const DIRECTORIES: usize = 70;

/// As a program of Windows 7 leaves it; its own path is the third that it loads.
/// Every other is a hosting program, whose hash no path has.
fn file(program: usize) -> Result<Vec<u8>, Refusal> {
    let name = format!("PROGRAM{program}.EXE");
    let path = format!(r"{DISK}\PROGRAM FILES\CHAMBER\{name}");
    let mut file = TestFile::new(23)
        .name(&name)
        .hash_of(&path)
        .run_time(133_761_942_000_000_000 + 600_000_000 * program as u64)
        .run_count(program as u32);
    if program % 2 == 1 {
        file = file.hash(program as u32);
    }
    for i in 0..FILES {
        let library = format!(r"{DISK}\{}\LIBRARY{i}.DLL", FOLDERS[i % FOLDERS.len()]);
        file = file.file(if i == 2 { &path } else { &library }).chain(&CHAIN);
    }
    let reference = |i| Reference { entry_index: 40 + i, sequence_number: 1 };
    let directory = |i: usize| format!(r"{DISK}\{}\{i}", FOLDERS[i % FOLDERS.len()]);
    file.volume(TestVolume {
        path: DISK.into(),
        serial_number: 0x5C0A_70E1,
        creation_time: 129_000_000_000_000_000,
        references: (0..FILES as u64).map(reference).collect(),
        directories: (0..DIRECTORIES).map(directory).collect(),
    })
    .write()
}

fn main() -> ExitCode {
    let words: Vec<String> = std::env::args().skip(1).collect();
    let [folder, count] = &words[..] else {
        eprintln!("many_files FOLDER COUNT");
        return ExitCode::from(2);
    };
    for program in 0..count.parse().unwrap_or(0) {
        let Ok(bytes) = file(program) else { return ExitCode::FAILURE };
        let path = format!("{folder}/PROGRAM{program}-{program:08X}.pf");
        if let Err(error) = std::fs::write(&path, bytes) {
            eprintln!("many_files: {path}: {error}");
            return ExitCode::from(2);
        }
    }
    ExitCode::SUCCESS
}
