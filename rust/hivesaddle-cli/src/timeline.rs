//! `hivesaddle timeline`: the starts of all programs, in the order of time.

use crate::args::{Args, Known};
use crate::files::Wanted;
use crate::look::{each_look, Look};
use crate::options::{of_files, of_tables};
use crate::outcome::{usage, written, Outcome};
use crate::output::rows;
use crate::path::{self, volume_of};
use crate::table::{Cell, Style, Table};
use crate::{text, time};
use hivesaddle::{program_name, Record};
use std::collections::HashSet;
use std::ffi::{OsStr, OsString};
use std::io::{self, Write};
use std::rc::Rc;

pub const HELP: &str = concat!(
    "\
usage: hivesaddle timeline [OPTIONS] FILE|FOLDER ..

A row for each run time of each file, in the order of time: when (UTC), the program's name, its
path, which of how many starts that the file tells of, how often the program ran, the stored hash,
the serial number of the volume that the path lies on, and the file. A start that several files
tell of, as pulls of one board do, stands once. A path is found as `hivesaddle list` finds it. Files
that are refused go to standard error.

  --bodyfile    as The Sleuth Kit's mactime reads it: the run time as access time in seconds, the
                other fields 0. A time before 1970 is 0 there
",
    of_files!(),
    of_tables!(),
    "
Exit status: 0; 1 if a file was refused; 2 if one could not be read, or a folder has none.

example: hivesaddle timeline examples/samples
"
);

const TITLES: &[&str] =
    &["time", "program", "path", "start", "of", "runs", "hash", "serial", "file", "path_found"];

/// A start, and what its file says.
struct Start {
    time: u64,
    program: Vec<u8>,
    /// Of all starts of a file the same.
    path: Option<Rc<[u8]>>,
    path_found: String,
    /// Which of how many, from 1.
    which: usize,
    of: usize,
    runs: u32,
    hash: u32,
    serial: Option<u32>,
    file: OsString,
}

pub fn run(words: Vec<OsString>) -> Outcome {
    let known = Known { flags: &["csv", "json", "bodyfile", "recursive", "patient"], valued: &[] };
    let parsed = Args::of_files(words, known).and_then(|args| Ok((Style::of(&args)?, args)));
    match parsed {
        Ok((_, args)) if args.has("bodyfile") && (args.has("csv") || args.has("json")) => {
            usage("timeline", "--bodyfile excludes --csv and --json")
        }
        Ok((_, args)) if args.has("bodyfile") => {
            written(|worst| write_body(&starts(args.wanted(), worst)))
        }
        Ok((style, args)) => written(|worst| write(&starts(args.wanted(), worst), style)),
        Err(message) => usage("timeline", message),
    }
}

/// All starts, each once, in the order of time.
fn starts(wanted: Wanted, worst: &mut Outcome) -> Vec<Start> {
    let mut starts = Vec::new();
    // Nothing is written here that could fail.
    let _ = each_look(wanted, worst, |name, look| {
        look.complain(name);
        if let Look::Accepted(file, record) = look {
            starts.extend(starts_of(name, file, &record));
        }
        Ok(())
    });
    let mut seen = HashSet::new();
    starts.retain(|start| {
        seen.insert((start.time, start.hash, start.program.clone(), start.path.clone()))
    });
    starts.sort_by_key(|start| start.time);
    starts
}

fn starts_of(name: &OsStr, file: &[u8], record: &Record) -> Vec<Start> {
    let search = path::find(file, record);
    let found = search.as_ref().ok();
    let volume = found.and_then(|found| volume_of(file, record, found.name));
    let path = found.map(|found| Rc::from(&*found.path));
    // A time of 0 is a start that has not been.
    let times: Vec<u64> = record.times().iter().copied().filter(|time| *time != 0).collect();
    let start = |(i, &time): (usize, &u64)| Start {
        time,
        program: program_name(file).unwrap_or_default().to_vec(),
        path: path.clone(),
        path_found: path::how_found(&search),
        which: i + 1,
        of: times.len(),
        runs: record.run_count,
        hash: record.stored_hash,
        serial: volume.map(|(_, volume)| volume.serial_number),
        file: name.to_owned(),
    };
    times.iter().enumerate().map(start).collect()
}

fn write(starts: &[Start], style: Style) -> io::Result<()> {
    let mut table = Table::new(rows(), style, TITLES);
    for start in starts {
        table.row(vec![
            time::iso(start.time).map_or(Cell::Empty, Cell::Words),
            Cell::Units(start.program.clone()),
            Cell::units(start.path.as_deref()),
            Cell::Number(start.which as u64),
            Cell::Number(start.of as u64),
            Cell::Number(start.runs.into()),
            Cell::Hash(start.hash),
            start.serial.map_or(Cell::Empty, Cell::Hash),
            Cell::name(&start.file),
            Cell::words(&start.path_found),
        ])?;
    }
    table.end()
}

/// MD5|name|inode|mode|UID|GID|size|atime|mtime|ctime|crtime
fn write_body(starts: &[Start]) -> io::Result<()> {
    let mut out = rows();
    for start in starts {
        let program = start.path.as_deref().unwrap_or(&start.program);
        let (program, file) = (text::shown(program), text::shown_name(&start.file));
        // A bar would end the field.
        let name = format!("{program} (prefetch {file})").replace('|', "\\u{7C}");
        let seconds = time::unix_seconds(start.time);
        writeln!(out, "0|{name}|0|0|0|0|0|{seconds}|0|0|0")?;
    }
    out.flush()
}
