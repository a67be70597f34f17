//! Lists what a file says of itself: the program and when it ran, the files it
//! read, the volumes they lie on, which files the program itself can be and
//! with which number, where its trace chains start, and what was loaded along
//! them.
//!
//!     contents FILE
//!
//! The status is 0 for an accepted file, 1 for any other and 2 where FILE
//! can't be read.

use hivesaddle::{
    list_paths_alloc, names, program_name, read_file_alloc, volumes, walk, FileContents, Text, NONE,
};
use std::process::ExitCode;

fn show(file: &[u8], contents: &FileContents) {
    let record = &contents.record;
    println!("program {}", Text::new(program_name(file).unwrap_or_default()));
    println!("version {}, run {} times", record.version, record.run_count);
    println!("last run at {} (FILETIME)", record.run_time);
    for time in &record.times()[1..] {
        println!("run before at {time}");
    }
    for (_, name) in names(file) {
        println!("file {name}");
    }
    for (_, volume) in volumes(file) {
        println!("volume {:08X} {}", volume.serial_number, Text::new(volume.path));
    }
    for found in list_paths_alloc(file) {
        println!("path {} {}", found.entry, found.number);
    }
    // The trace entries of version 30 have no links, so there is no table.
    let links = contents.predecessors.iter().enumerate();
    let starts: Vec<usize> = links.filter(|link| *link.1 == NONE).map(|link| link.0).collect();
    if starts.is_empty() {
        println!("{} trace entries, no chains", record.trace_count);
        return;
    }
    println!("{} trace entries, chains start at {starts:?}", record.trace_count);
    let mut order = vec![0; contents.predecessors.len()];
    if let Ok(walk) = walk(file, &mut contents.predecessors.clone(), &mut order) {
        println!("{} steps along the chains, {} blocks loaded", walk.steps, walk.total);
    }
}

fn main() -> ExitCode {
    let path = std::env::args().nth(1).unwrap_or_default();
    let file = match std::fs::read(&path) {
        Ok(file) => file,
        Err(error) => {
            eprintln!("contents: {path}: {error}");
            return ExitCode::from(2);
        }
    };
    match read_file_alloc(&file) {
        Ok(contents) => {
            show(&file, &contents);
            ExitCode::SUCCESS
        }
        Err(refusal) => {
            println!("refused {} {} at {}", refusal.number, refusal.index, refusal.offset);
            ExitCode::FAILURE
        }
    }
}
