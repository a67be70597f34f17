//! `hivesaddle names`: the files that programs loaded.

use crate::args::Known;
use crate::options::{of_files, of_tables};
use crate::outcome::Outcome;
use crate::parts::{Parts, Put, Whole};
use crate::path;
use crate::table::Cell;
use hivesaddle::{entry_name, entry_reference};
use std::ffi::OsString;
use std::io;

pub const HELP: &str = concat!(
    "\
usage: hivesaddle names [OPTIONS] FILE|FOLDER ..

The files that programs loaded, a row for each, with the number of its metrics entry and the
Prefetch file that it stands in. Of a file that is refused the names that are sound are shown, and
then the refusal on standard error.

  --find TEXT   only names that have this text somewhere in them, in whatever letter case: a part of
                a file's name or of a directory's
  --references  two more columns: the NTFS file reference as entry-sequence, and, in the row of the
                program itself, how that was found, as `hivesaddle list` finds it. A reference that
                is not set is 0-0, and version 17 has none
",
    of_files!(),
    of_tables!(),
    "
Exit status: 0; 1 if a file was refused; 2 if one could not be read, or a folder has none.

example: hivesaddle names --find ntdll examples/samples
"
);

const NAMES: Parts = Parts {
    command: "names",
    known: Known { flags: &["references"], valued: &["find"] },
    titles: |args| match args.has("references") {
        true => &["entry", "name", "file", "reference", "program"],
        false => &["entry", "name", "file"],
    },
    each: |whole, put| match whole.args.has("references") {
        true => each_with_reference(whole, put),
        false => each_name(whole, put),
    },
};

/// Bytes of the shortest metrics entry.
const LEAST: usize = 20;

pub fn run(words: Vec<OsString>) -> Outcome {
    NAMES.run(words)
}

/// The names that can be shown and are wanted, and their numbers.
fn shown<'a>(whole: &'a Whole) -> impl Iterator<Item = (u64, &'a [u8])> {
    let names = whole.indexes(LEAST).filter_map(|i| Some((i, entry_name(whole.file, i)?)));
    names.filter(|(_, name)| whole.is_wanted(name))
}

fn each_name(whole: &Whole, put: &mut Put) -> io::Result<()> {
    for (i, name) in shown(whole) {
        put(vec![Cell::Number(i), Cell::units(Some(name)), Cell::name(whole.name)])?;
    }
    Ok(())
}

fn each_with_reference(whole: &Whole, put: &mut Put) -> io::Result<()> {
    let Whole { name: file_name, file, record, .. } = *whole;
    let search = record.map(|record| path::find(file, record));
    let program = search.as_ref().and_then(|search| Some((search.as_ref().ok()?.entry, search)));
    for (i, name) in shown(whole) {
        let mark =
            program.filter(|(entry, _)| *entry == i).map(|(_, search)| path::how_found(search));
        let reference = entry_reference(file, i).and_then(|found| found.reference);
        put(vec![
            Cell::Number(i),
            Cell::units(Some(name)),
            Cell::name(file_name),
            reference.map_or(Cell::Empty, Cell::reference),
            mark.map_or(Cell::Empty, Cell::Words),
        ])?;
    }
    Ok(())
}
