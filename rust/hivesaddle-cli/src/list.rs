//! `hivesaddle list`: a row for each file.

mod sum;

use crate::args::{Args, Known};
use crate::look::{each_look, Look};
use crate::options::{of_files, of_tables};
use crate::outcome::{failed, plain, usage, written, Outcome};
use crate::output::rows;
use crate::path::{self, Device, How};
use crate::table::{Cell, Fit, Style, Table};
use crate::{terminal, time};
use hivesaddle::{program_name, volume, Record, Refusal, Volume};
use std::ffi::{OsStr, OsString};
use std::fs;
use std::io;
use std::path::Path;

pub const HELP: &str = concat!(
    "\
usage: hivesaddle list [OPTIONS] FILE|FOLDER ..

A row for each file: its name, the program's name, the stored hash, the version, how often the
program ran and when last (UTC), how many files it loaded, in how many chains, from how many
volumes, and its path, if one of the files loaded has the stored hash. A path with (+6) behind it
has the hash less 6, which the program's /prefetch switch added. Windows 10 names \\VOLUME{..} in
place of the device over which it takes the hash: the path is shown from that device on, found among
\\DEVICE\\HARDDISKVOLUME1 to 64, with (for volume 0) behind it, as `hivesaddle volumes` counts. Where
no file has the hash, the one with the program's name is shown, with (by name) behind it: the hash
of a hosting program, such as SVCHOST.EXE, covers its command line too, and no path has it. Where
there is none either, it is said why. A file that is refused, or that can't be read, has a row too,
with the problem in place of the path; `hivesaddle check` says more.

What is not printable in a name is shown as an escape, \\u{1B}. JSON has each name as it is.

Of a folder, the files whose names end in .pf, or .PF, are listed in the order of their names, and
without --recursive not those of folders inside it.

  --wide        on a terminal all columns, also where a row then takes more than one line; else
                those that do not fit are left out, and a long path is cut
  --sha256      a last column with the file's SHA-256, which sha256sum takes; with --csv or --json
",
    of_files!(),
    of_tables!(),
    "
In a pipe the columns are separated by tabs, without titles. CSV and JSON have more columns: the
number of the path, the parts of a refusal, the problem, how the path was found, all run times,
path, serial number and creation time of each volume, a thousand at most, size and modification
time of the file, and whether the hash in its name is the stored one. A text in CSV that begins
with = + - or @ has an apostrophe before it, so that no spreadsheet takes it for a formula, and a
hash has 0x before it.

Exit status: 0; 1 if a file was refused; 2 if one could not be read, or a folder has none.

example: hivesaddle list examples/samples
"
);

const FOR_PEOPLE: &[&str] = &[
    "file",
    "name",
    "hash",
    "version",
    "runs",
    "last run",
    "files",
    "chains",
    "volumes",
    "path, or problem",
];
/// Columns that a narrow terminal does not show, the least important first: chains,
/// files, volumes, version, hash, name, runs, last run.
const LEFT_OUT: &[usize] = &[7, 6, 8, 3, 2, 1, 4, 5];
const FOR_PROGRAMS: &[&str] = &[
    "file",
    "name",
    "hash",
    "version",
    "runs",
    "last_run",
    "files",
    "chains",
    "volumes",
    "path",
    "path_number",
    "refused",
    "index",
    "offset",
    "problem",
    "path_found",
    "run_times",
    "volume_paths",
    "volume_serials",
    "volume_times",
    "size",
    "modified",
    "hash_in_name",
    "sha256",
];

/// Volumes that are shown in one row, and bytes of their paths.
const MOST_VOLUMES: usize = 1_000;
const MOST_BYTES: usize = 1_048_576;

/// One file's row, as its columns are for programs.
#[derive(Default)]
struct Row {
    file: Cell,
    name: Cell,
    record: [Cell; 7],
    path: Cell,
    how: Option<How>,
    /// How it was found, or why there is none.
    path_found: Cell,
    refusal: [Cell; 3],
    problem: Cell,
    more: [Cell; 8],
}

pub fn run(words: Vec<OsString>) -> Outcome {
    let known =
        Known { flags: &["csv", "json", "sha256", "recursive", "patient", "wide"], valued: &[] };
    let parsed = Args::of_files(words, known).and_then(|args| Ok((Style::of(&args)?, args)));
    match parsed {
        Ok((style, args)) if args.has("sha256") && !style.is_for_programs() => {
            usage("list", "--sha256 goes with --csv or --json")
        }
        Ok((style, args)) => written(|worst| list(&args, style, worst)),
        Err(message) => usage("list", message),
    }
}

fn list(args: &Args, style: Style, worst: &mut Outcome) -> io::Result<()> {
    let without_sum = FOR_PROGRAMS.len() - usize::from(!args.has("sha256"));
    let titles = if style.is_for_programs() { &FOR_PROGRAMS[..without_sum] } else { FOR_PEOPLE };
    let mut no_sums = None;
    let fit = (style == Style::Aligned && !args.has("wide"))
        .then(|| Fit { width: terminal::width(), order: LEFT_OUT });
    let mut table = Table::new(rows(), style, titles).fitted(fit);
    each_look(args.wanted(), worst, |name, look| {
        if let Look::Ahead = look {
            return table.flush();
        }
        let mut row = Row::new(name, &look);
        if !style.is_for_programs() {
            return table.row(row.for_people());
        }
        row.add_more(name, &look);
        if let (true, Some(file)) = (args.has("sha256"), look.bytes()) {
            match sum::sha256(file) {
                Ok(sum) => row.more[7] = Cell::Words(sum),
                Err(error) => no_sums = Some(error),
            }
        }
        let mut cells = row.for_programs();
        cells.truncate(titles.len());
        table.row(cells)
    })?;
    table.end()?;
    if let Some(error) = no_sums {
        worst.note(failed("sha256sum".as_ref(), plain(&error)));
    }
    Ok(())
}

impl Row {
    fn new(name: &OsStr, look: &Look) -> Row {
        let mut row = match look {
            Look::Accepted(file, record) => Row::accepted(file, record),
            Look::Refused(_, Refusal { number, index, offset }) => Row {
                refusal: [(*number).into(), *index, *offset].map(Cell::Number),
                ..Row::default()
            },
            _ => Row::default(),
        };
        row.file = Cell::name(name);
        row.name = Cell::units(look.bytes().and_then(program_name));
        row.problem = look.problem().map_or(Cell::Empty, Cell::Words);
        row
    }

    fn accepted(file: &[u8], record: &Record) -> Row {
        let search = path::find(file, record);
        let found = search.as_ref().ok();
        Row {
            record: [
                Cell::Hash(record.stored_hash),
                Cell::Number(record.version.into()),
                Cell::Number(record.run_count.into()),
                time::iso(record.run_time).map_or(Cell::Empty, Cell::Words),
                Cell::Number(record.metrics_count.into()),
                Cell::Number(record.chain_count.into()),
                Cell::Number(record.volume_count.into()),
            ],
            path: Cell::units(found.map(|found| &*found.path)),
            how: found.map(|found| found.how),
            path_found: Cell::Words(path::how_found(&search)),
            ..Row::default()
        }
    }

    /// What only programs are told.
    fn add_more(&mut self, name: &OsStr, look: &Look) {
        let text = |time: u64| time::iso(time).map_or(Cell::Empty, Cell::Words);
        if let Look::Accepted(file, record) = look {
            let times = record.times().iter().filter(|time| **time != 0);
            let volumes = volumes(file, record);
            let each = |of: fn(&Volume) -> Cell| Cell::List(volumes.iter().map(of).collect());
            self.more[0] = Cell::List(times.map(|time| text(*time)).collect());
            self.more[1] = each(|volume| Cell::units(Some(volume.path)));
            self.more[2] = each(|volume| Cell::Hash(volume.serial_number));
            self.more[3] =
                each(|volume| time::iso(volume.creation_time).map_or(Cell::Empty, Cell::Words));
            self.more[6] = hash_in(name).map_or(Cell::Empty, |hash| {
                Cell::words(if hash == record.stored_hash { "yes" } else { "no" })
            });
        }
        if let Some(data) = fs::metadata(name).ok().filter(|data| data.is_file()) {
            self.more[4] = Cell::Number(data.len());
            let modified = data.modified().ok().and_then(time::filetime);
            self.more[5] = modified.map_or(Cell::Empty, text);
        }
    }

    fn for_programs(self) -> Vec<Cell> {
        let added = self.how.and_then(How::added);
        let start = [self.file, self.name].into_iter().chain(self.record);
        let path = [self.path, added.map_or(Cell::Empty, |added| Cell::Number(added.into()))];
        let refusal = self.refusal.into_iter().chain([self.problem, self.path_found]);
        start.chain(path).chain(refusal).chain(self.more).collect()
    }

    fn for_people(self) -> Vec<Cell> {
        let last = match (self.problem, self.how) {
            (Cell::Empty, Some(how)) => Cell::Words(self.path.shown() + &mark(how)),
            (Cell::Empty, None) => self.path_found,
            (problem, _) => problem,
        };
        [self.file, self.name].into_iter().chain(self.record).chain([last]).collect()
    }
}

/// What stands behind a path, if it is not simply the one that has the hash.
fn mark(how: How) -> String {
    match how {
        How::Hash(0) => String::new(),
        How::Hash(added) => format!(" (+{added})"),
        How::Name => " (by name)".to_string(),
        How::Device(Device { added: 0, volume, .. }) => format!(" (for volume {volume})"),
        How::Device(Device { added, volume, .. }) => format!(" (for volume {volume}, +{added})"),
    }
}

/// The volumes of a row. A file that is made so has more than any cell can hold,
/// since they may all have the same long path: `volumes` shows one after another.
fn volumes<'a>(file: &'a [u8], record: &Record) -> Vec<Volume<'a>> {
    let shown = (0..record.volume_count.into()).filter_map(|i| volume(file, i)).take(MOST_VOLUMES);
    let mut left = MOST_BYTES;
    let fits = |volume: &Volume| {
        let rest = left.checked_sub(volume.path.len());
        left = rest.unwrap_or(left);
        rest.is_some()
    };
    shown.take_while(fits).collect()
}

/// The hash in a file's name, as Windows gives it: CMD.EXE-4A81B364.pf.
fn hash_in(name: &OsStr) -> Option<u32> {
    let stem = Path::new(name).file_stem()?.to_str()?;
    let digits = stem.rsplit_once('-')?.1;
    let is_hash = digits.len() == 8 && digits.bytes().all(|byte| byte.is_ascii_hexdigit());
    is_hash.then(|| u32::from_str_radix(digits, 16).ok()).flatten()
}
