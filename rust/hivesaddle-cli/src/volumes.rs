//! `hivesaddle volumes`: the volumes that the files loaded lie on.

pub mod directories;

use crate::args::Known;
use crate::options::{of_files, of_tables};
use crate::outcome::Outcome;
use crate::parts::{Parts, Put, Whole};
use crate::table::Cell;
use crate::time;
use hivesaddle::{references, volume, Volume};
use std::ffi::OsString;
use std::io;

pub const HELP: &str = concat!(
    "\
usage: hivesaddle volumes [OPTIONS] FILE|FOLDER ..

The volumes of files, a row for each: path, serial number, when it was created (UTC), how many file
references, how many directories, and the Prefetch file that it stands in. Of a file that is refused
the volumes that are sound are shown, and then the refusal on standard error. `hivesaddle
directories` shows the directories themselves.

  --references  instead a row for each file reference of each volume: the volume's number, path and
                serial number, the reference as entry-sequence, and the Prefetch file
",
    of_files!(),
    of_tables!(),
    "
Exit status: 0; 1 if a file was refused; 2 if one could not be read, or a folder has none.

example: hivesaddle volumes examples/samples/small.pf
"
);

const VOLUMES: Parts = Parts {
    command: "volumes",
    known: Known { flags: &["references"], valued: &[] },
    titles: |args| match args.has("references") {
        true => &["volume", "path", "serial", "reference", "file"],
        false => &["volume", "path", "serial", "created", "references", "directories", "file"],
    },
    each: |whole, put| match whole.args.has("references") {
        true => each_reference(whole, put),
        false => each_volume(whole, put),
    },
};

/// Bytes of the shortest volume entry.
const LEAST: usize = 40;

pub fn run(words: Vec<OsString>) -> Outcome {
    VOLUMES.run(words)
}

/// The volumes that can be shown, and their numbers.
pub fn shown<'a>(whole: &'a Whole) -> impl Iterator<Item = (u64, Volume<'a>)> {
    whole.indexes(LEAST).filter_map(|i| Some((i, volume(whole.file, i)?)))
}

/// What all rows begin with.
fn start(i: u64, volume: &Volume) -> [Cell; 3] {
    [Cell::Number(i), Cell::units(Some(volume.path)), Cell::Hash(volume.serial_number)]
}

fn each_volume(whole: &Whole, put: &mut Put) -> io::Result<()> {
    for (i, volume) in shown(whole) {
        let rest = [
            time::iso(volume.creation_time).map_or(Cell::Empty, Cell::Words),
            Cell::Number(volume.references.into()),
            Cell::Number(volume.directories.into()),
            Cell::name(whole.name),
        ];
        put(start(i, &volume).into_iter().chain(rest).collect())?;
    }
    Ok(())
}

fn each_reference(whole: &Whole, put: &mut Put) -> io::Result<()> {
    for (i, volume) in shown(whole) {
        for reference in references(whole.file, i) {
            let rest = [Cell::reference(reference), Cell::name(whole.name)];
            put(start(i, &volume).into_iter().chain(rest).collect())?;
        }
    }
    Ok(())
}
