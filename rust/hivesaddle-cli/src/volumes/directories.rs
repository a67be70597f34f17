//! `hivesaddle directories`: the directories of the files that programs loaded.

use crate::args::Known;
use crate::options::{of_files, of_tables};
use crate::outcome::Outcome;
use crate::parts::{Parts, Put, Whole};
use crate::table::Cell;
use std::ffi::OsString;
use std::io;

pub const HELP: &str = concat!(
    "\
usage: hivesaddle directories [OPTIONS] FILE|FOLDER ..

The directories that files list for their volumes, a row for each: the number of the volume, as
`hivesaddle volumes` has it, the directory, and the Prefetch file that it stands in. Of a file that
is refused those of sound volumes are shown, and then the refusal on standard error.

  --find TEXT   only directories that have this text somewhere in them, in whatever letter case
",
    of_files!(),
    of_tables!(),
    "
Exit status: 0; 1 if a file was refused; 2 if one could not be read, or a folder has none.

example: hivesaddle directories examples/samples
"
);

const DIRECTORIES: Parts = Parts {
    command: "directories",
    known: Known { flags: &[], valued: &["find"] },
    titles: |_| &["volume", "directory", "file"],
    each,
};

pub fn run(words: Vec<OsString>) -> Outcome {
    DIRECTORIES.run(words)
}

fn each(whole: &Whole, put: &mut Put) -> io::Result<()> {
    for (i, _) in super::shown(whole) {
        let directories = hivesaddle::directories(whole.file, i);
        for directory in directories.into_iter().filter(|text| whole.is_wanted(text)) {
            let cells = [Cell::Number(i), Cell::units(Some(directory)), Cell::name(whole.name)];
            put(cells.to_vec())?;
        }
    }
    Ok(())
}
