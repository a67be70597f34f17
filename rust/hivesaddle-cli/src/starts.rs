//! `hivesaddle starts`: when the programs of Prefetch files were started.

pub mod lines;

use crate::args::{Args, Known};
use crate::board::{sources_of_boards, Source};
use crate::files::Ways;
use crate::options::of_files;
use crate::outcome::{usage, written, Outcome};
use crate::output::rows;
use crate::pulls::{each_pull, Once};
use std::ffi::OsString;
use std::io::{self, Write};

pub const HELP: &str = concat!(
    "\
usage: hivesaddle starts [OPTIONS] BOARD=FILE|BOARD=FOLDER ..

Writes a line for each start that the files tell of: 26 digits, which are the
run time (16), the board (2) and the stored hash (8). BOARD is the number of the
board that the files were taken from, 0 to 255. The year and the replay take
such lines.

Files of versions 17 and 23 tell of the last start, those of 26 and 30 of the
last eight. Several pulls of one board tell of more: a start is written once for
its board, program name, hash and time, however often it stands, and standard
error says how many stood more than once. A file that is refused goes to
standard error.

",
    of_files!(),
    "
Exit status: 0; 1 if a file was refused; 2 if one could not be read.

example: hivesaddle starts 3=examples/samples/small.pf >starts.txt
"
);

pub fn run(words: Vec<OsString>) -> Outcome {
    let args = Args::of_files(words, Known { flags: &["recursive", "patient"], valued: &[] });
    match args.and_then(|args| Ok((sources_of_boards(&args.operands)?, args.ways()))) {
        Ok((sources, ways)) => written(|worst| write(&sources, ways, worst)),
        Err(message) => usage("starts", message),
    }
}

fn write(sources: &[Source], ways: Ways, worst: &mut Outcome) -> io::Result<()> {
    let mut once = Once::default();
    let mut out = rows();
    each_pull(sources, ways, worst, |pull| match pull {
        None => out.flush(),
        Some(pull) => once
            .new_starts(&pull)
            .into_iter()
            .try_for_each(|start| writeln!(out, "{}", lines::line(start, pull.record.stored_hash))),
    })?;
    out.flush()?;
    once.say("starts".as_ref());
    Ok(())
}
