//! `hivesaddle catalogue`: a catalogue line for each file.

use crate::args::{Args, Known};
use crate::board::{sources, Source};
use crate::files::Ways;
use crate::options::of_files;
use crate::outcome::{usage, written, Outcome};
use crate::output::rows;
use crate::pulls::{each_pull, joined, Pull, Twice};
use std::ffi::OsString;
use std::io::{self, Write};

pub const HELP: &str = concat!(
    "\
usage: hivesaddle catalogue [OPTIONS] FILE|FOLDER|BOARD=FILE|BOARD=FOLDER ..

A catalogue line for each file: 26 digits 0-9 A-F and a line feed, being size (8 digits), stored
hash (8), run count (8) and version (2). Files that are refused, or that can't be read, go to
standard error, a line each. `hivesaddle year` takes the lines.

BOARD is the number of the board that the files were taken from, 0 to 255. Run counts are
cumulative, so several pulls of one board must not be added up: files of one board, program name
and hash are joined. In the order of their latest run time, then of their run count, a count at
least as high takes the place of the one before. A lower one means that Windows began the file
anew: both count, and standard error names it. A new beginning that has already passed the old count
can't be seen. Without BOARD= nothing is joined, and what comes twice is warned of. A file whose
name looks so is given as ./3=x.

Of a folder, the files whose names end in .pf, or .PF, are taken, in the order of their names.

  --all         a line for every file, joined or not
",
    of_files!(),
    "
Exit status: 0; 1 if a file was refused; 2 if one could not be read, or a folder has none.

example: hivesaddle catalogue 3=examples/samples >catalogue.txt
"
);

pub fn run(words: Vec<OsString>) -> Outcome {
    let args =
        Args::of_files(words, Known { flags: &["all", "recursive", "patient"], valued: &[] });
    let parsed = args.and_then(|args| Ok((sources(&args.operands)?, args)));
    let (sources, args) = match parsed {
        Ok(parsed) => parsed,
        Err(message) => return usage("catalogue", message),
    };
    let ways = args.ways();
    let has_boards = sources.iter().any(|source| source.board.is_some());
    written(|worst| match (args.has("all"), has_boards) {
        (true, _) => write_each(&sources, ways, worst, |_| {}),
        (false, true) => write_joined(&sources, ways, worst),
        (false, false) => {
            let mut twice = Twice::default();
            write_each(&sources, ways, worst, |pull| twice.add(pull))?;
            twice.warn("catalogue".as_ref());
            Ok(())
        }
    })
}

/// A line as soon as its file is read.
fn write_each(
    sources: &[Source],
    ways: Ways,
    worst: &mut Outcome,
    mut see: impl FnMut(&Pull),
) -> io::Result<()> {
    let mut out = rows();
    each_pull(sources, ways, worst, |pull| match pull {
        None => out.flush(),
        Some(pull) => {
            see(&pull);
            out.write_all(&pull.line())
        }
    })?;
    out.flush()
}

/// Which files are joined is known when all are read.
fn write_joined(sources: &[Source], ways: Ways, worst: &mut Outcome) -> io::Result<()> {
    let (mut pulls, mut twice) = (Vec::new(), Twice::default());
    each_pull(sources, ways, worst, |pull| {
        pulls.extend(pull.inspect(|pull| twice.add(pull)));
        Ok(())
    })?;
    let mut out = rows();
    for pull in joined(pulls, "catalogue".as_ref()) {
        out.write_all(&pull.line())?;
    }
    out.flush()?;
    twice.warn("catalogue".as_ref());
    Ok(())
}
