//! `hivesaddle year`: for each program how often it ran, and how cold and how
//! warm its board was.

mod inputs;
mod names;

use crate::age;
use crate::args::{input_once, Args, Known};
use crate::board::{source, sources_of_boards};
use crate::files::{Wanted, Ways};
use crate::outcome::{usage, written, Outcome};
use crate::page::{tenths, Page};
use crate::pulls::each_pull;
use crate::replay::{degrees, within};
use crate::table::{Cell, Style, Table};
use crate::{output, text};
use inputs::Inputs;
pub use inputs::Line;
use names::Names;
use std::ffi::{OsStr, OsString};
use std::io;

pub const HELP: &str = "\
usage: hivesaddle year RECORDING BOARD=FOLDER .. [OPTIONS]
       hivesaddle year CATALOGUE STARTS RECORDING [OPTIONS]

Makes the year's table: for each program, by its stored hash, the files and runs
of the catalogue, and over the readings at its starts their number, the lowest,
the mean and the highest, in degrees, and how old the oldest of them was at its
start. The mean is rounded down to a tenth, below zero too. A program without
readings has none.

RECORDING has a line of 22 digits for each reading, as hivesaddle replay takes
it. BOARD is the number of a board, 0 to 255, and FOLDER has the files that were
taken from it, as hivesaddle catalogue and hivesaddle starts take them: a board
may come more than once, with a folder for each pull, and pulls are joined.

CATALOGUE and STARTS are what these two commands wrote. One of the files may be
-, standard input.

  --csv           as CSV; the age is in seconds
  --json          as JSON, likewise
  --html OUT      as a page to open in a browser; - is standard output, and a
                  Prefetch file is not written over
  --by-board      a table for each board, with its number in the first column;
                  with BOARD=FOLDER
  --recursive     the files of folders inside folders too, also those that only
                  begin as a Prefetch file does
  --patient       also what is made to be slow: a file whose names or directories
                  overlap many times is else not read
  --within AGE    a reading that is older at the start is none; AGE is a number
                  and s, m, h or d, as 90m
  --names FOLDER  with the programs' names, from a folder of their Prefetch
                  files, or from a file; may be given more than once. With
                  BOARD=FOLDER the names are there already

A line that is something else is refused, and no table is made. A file that is
refused goes to standard error, and the table is made of the others. Starts
whose hash no catalogue line has make rows too, and standard error says how many
they are; where all starts are such, no table is made. Standard error also says
what looks like pulls that were not joined, which boards have no reading, and
whether a reading was older than an hour.

Exit status: 0; 1 if a line or a file was refused; 2 if something could not be
read or written, or if no start is of the catalogue.

example: hivesaddle year examples/year/chamber.txt 3=examples/samples/small.pf --html year.html
";

const KNOWN: Known = Known {
    flags: &["csv", "json", "by-board", "recursive", "patient"],
    valued: &["html", "names", "within"],
};

pub fn run(words: Vec<OsString>) -> Outcome {
    match Args::split(words, KNOWN) {
        Ok(args) => asked(&args).unwrap_or_else(|message| usage("year", message)),
        Err(message) => usage("year", message),
    }
}

/// Which of the two ways it is called in, and how it is to be shown.
fn asked(args: &Args) -> Result<Outcome, String> {
    if args.value("html").is_some() && (args.has("csv") || args.has("json")) {
        return Err("--html excludes --csv and --json".to_string());
    }
    let style = Style::of(args)?;
    let out = args.value("html").map_or(Out::Table(style), Out::Page);
    let show =
        Show { out, by_board: args.has("by-board"), ways: args.ways(), within: within(args)? };
    let folders: Vec<OsString> = args.values("names").map(OsStr::to_owned).collect();
    let has_board = |name: &OsString| source(name).map_or(true, |source| source.board.is_some());
    let made = match &args.operands[..] {
        [recording, boards @ ..] if boards.iter().any(has_board) => {
            if !folders.is_empty() {
                return Err("--names is for CATALOGUE STARTS RECORDING".to_string());
            }
            of_boards(recording, boards, &show)?
        }
        [catalogue, starts, recording] => {
            if show.by_board {
                return Err("--by-board is for RECORDING BOARD=FOLDER ..".to_string());
            }
            input_once(args.operands.iter().chain(&folders))?;
            of_files([catalogue, starts, recording], &folders, &show)
        }
        _ => {
            let ways = "CATALOGUE STARTS RECORDING, or RECORDING BOARD=FOLDER ..";
            return Err(format!("it takes {ways}"));
        }
    };
    Ok(made.unwrap_or_else(|stopped| stopped))
}

struct Show<'a> {
    out: Out<'a>,
    by_board: bool,
    ways: Ways,
    within: u64,
}

enum Out<'a> {
    Table(Style),
    Page(&'a OsStr),
}

/// From the files of boards, in one step.
fn of_boards(
    recording: &OsString,
    boards: &[OsString],
    show: &Show,
) -> Result<Result<Outcome, Outcome>, String> {
    let sources = sources_of_boards(boards)?;
    let files: Vec<OsString> = std::iter::once(recording.clone())
        .chain(sources.iter().map(|source| source.name.clone()))
        .collect();
    input_once(&files)?;
    let (mut pulls, mut worst) = (Vec::new(), Outcome::Done);
    // Nothing is written here that could fail.
    let _ = each_pull(&sources, show.ways, &mut worst, |pull| {
        pulls.extend(pull);
        Ok(())
    });
    let names = Names::of_pulls(&pulls);
    let inputs = Inputs::of_pulls(pulls);
    let table = inputs.table(recording, show.within, show.by_board);
    Ok(table.map(|table| show.table(&table, &names, inputs.times(), &files).worst(worst)))
}

/// From what `catalogue` and `starts` wrote.
fn of_files(files: [&OsString; 3], folders: &[OsString], show: &Show) -> Result<Outcome, Outcome> {
    let [catalogue, starts, recording] = files;
    let inputs = Inputs::read(catalogue, starts)?;
    let table = inputs.table(recording, show.within, false)?;
    let wanted = Wanted { operands: folders, ways: show.ways };
    let names = Names::read(wanted, table.iter().map(|line| line.row.stored_hash));
    let files: Vec<OsString> = files.into_iter().chain(folders).cloned().collect();
    Ok(show.table(&table, &names, inputs.times(), &files).worst(names.outcome))
}

impl Show<'_> {
    fn table(
        &self,
        table: &[Line],
        names: &Names,
        times: Option<(u64, u64)>,
        inputs: &[OsString],
    ) -> Outcome {
        match self.out {
            Out::Table(style) => written(|_| write(table, names, style, self.by_board)),
            Out::Page(out) => {
                let name = |hash| text::shown(&names.joined(hash));
                let page = Page { lines: table, name: &name, times };
                let inputs = Wanted { operands: inputs, ways: self.ways };
                output::write_view(out, &page.html(), inputs)
            }
        }
    }
}

/// With `board` before them where there is a table for each.
const FOR_PEOPLE: &[&str] = &[
    "board", "hash", "program", "files", "runs", "readings", "lowest", "mean", "highest", "oldest",
];
const FOR_PROGRAMS: &[&str] = &[
    "board",
    "hash",
    "program",
    "files",
    "runs",
    "readings",
    "lowest",
    "mean",
    "highest",
    "oldest_seconds",
];

fn write(table: &[Line], names: &Names, style: Style, by_board: bool) -> io::Result<()> {
    let titles = if style.is_for_programs() { FOR_PROGRAMS } else { FOR_PEOPLE };
    let left_out = usize::from(!by_board);
    let mut rows = Table::new(output::rows(), style, &titles[left_out..]);
    for line in table {
        rows.row(cells(line, names, style).split_off(left_out))?;
    }
    rows.end()
}

fn cells(line: &Line, names: &Names, style: Style) -> Vec<Cell> {
    let row = &line.row;
    let name = names.joined(row.stored_hash);
    let mut cells = vec![
        line.board.map_or(Cell::Empty, |board| Cell::Number(board.into())),
        Cell::Hash(row.stored_hash),
        if name.is_empty() { Cell::Empty } else { Cell::Units(name) },
        Cell::Number(row.lines),
        Cell::Number(row.run_counts),
        Cell::Number(row.readings.map_or(0, |readings| readings.count)),
    ];
    cells.extend(match row.readings {
        Some(readings) => tenths(&readings).map(|tenths| Cell::Decimal(degrees(tenths))),
        None if style.is_for_programs() => [const { Cell::Empty }; 3],
        // Below the numbers, to the right as they are.
        None => ["none"; 3].map(|none| Cell::Decimal(none.to_string())),
    });
    cells.push(match line.oldest {
        Some(age) if style.is_for_programs() => Cell::Number(age::seconds(age)),
        Some(age) => Cell::Decimal(age::shown(age)),
        None => Cell::Empty,
    });
    cells
}
