//! `hivesaddle replay`: the reading that each start has in a recording.

mod boards;
mod input;
mod line;
mod progress;

pub use input::{has_no_lines, refused, Input};
pub use line::{refuse_catalogue_line, refuse_line};

use crate::age;
use crate::args::{input_once, Args, Known};
use crate::outcome::{complain, usage, written, Outcome};
use crate::output::rows;
use crate::starts::lines::{self, StartLine};
use crate::table::{Cell, Style, Table};
use crate::time;
use boards::Boards;
use hivesaddle::{catalogue_read, Reading, Replay, Start};
use std::ffi::{OsStr, OsString};
use std::io::{self, IsTerminal, Write};

pub const HELP: &str = "\
usage: hivesaddle replay [--within AGE] STARTS RECORDING

Writes for each start, in their order, the reading of its board with the
greatest time not after the start's: 22 digits, or none. On a terminal these are
shown as times and degrees.

STARTS has a line of 18 digits 0-9 A-F for each start, run time (16) and board
(2), or of 26 as hivesaddle starts writes them; the last 8 are not used here.
RECORDING has a line of 22 digits for each reading: run time (16), board (2) and
temperature (4), tenths of a degree in two's complement, so FF38 is 20.0 below
zero. It may be of any length. One of the two may be -, standard input.

  --within AGE    a reading that is older at the start is none; AGE is a number
                  and s, m, h or d, as 90m

A board of the starts that has no reading at all is named on standard error.

A line that is something else is refused with 22, and no answer is given.

Exit status: 0; 1 if a line was refused; 2 if a file could not be read.

example: hivesaddle replay examples/year/starts.txt examples/year/chamber.txt
";

pub fn run(words: Vec<OsString>) -> Outcome {
    let args = match Args::split(words, Known { flags: &[], valued: &["within"] }) {
        Ok(args) => args,
        Err(message) => return usage("replay", message),
    };
    let [starts, recording] = &args.operands[..] else {
        return usage("replay", "it takes two files, STARTS and RECORDING");
    };
    match input_once(&args.operands).and_then(|()| within(&args)) {
        Ok(within) => replay(starts, recording, within).unwrap_or_else(|stopped| stopped),
        Err(message) => usage("replay", message),
    }
}

/// The greatest age of a reading that counts.
pub fn within(args: &Args) -> Result<u64, String> {
    let given = args.value("within").map(|age| age::parse(&age.to_string_lossy()));
    given.unwrap_or(Ok(u64::MAX))
}

fn replay(starts_file: &OsStr, recording: &OsStr, within: u64) -> Result<Outcome, Outcome> {
    let lines = lines::read(starts_file)?;
    let starts: Vec<Start> = lines.iter().map(|line| line.start).collect();
    let answers = answers(recording, &starts, within)?;
    if !starts.is_empty() && answers.iter().all(Option::is_none) && are_of_catalogue(&lines) {
        let are = "every line reads as a catalogue line, and no start has a reading";
        complain(starts_file, format_args!("{are}; is it the file that hivesaddle starts wrote?"));
    }
    let out = rows();
    Ok(written(|_| match io::stdout().is_terminal() {
        true => show(out, &starts, &answers),
        false => write(out, &answers),
    }))
}

/// Bytes of a reading's line.
const READING: u64 = 23;
/// Bytes of a bad line that are looked at.
const LOOKED_AT: usize = 64;

/// What a recording says about each start. It is read in pieces, so that memory
/// does not grow with its length.
/// A reading that is older at the start than is allowed is none.
pub fn answers(
    recording: &OsStr,
    starts: &[Start],
    within: u64,
) -> Result<Vec<Option<Reading>>, Outcome> {
    let mut replay = Replay::new(starts);
    let mut boards = Boards::default();
    let mut input = Input::open(recording)?;
    let mut is_empty = true;
    input.each_piece(|piece| {
        is_empty = false;
        replay.feed(piece);
        boards.feed(piece);
        replay.bad_line().is_none()
    })?;
    if is_empty {
        has_no_lines(recording);
    }
    let answers = replay.finish().map_err(|bad| {
        // All lines before it are readings.
        let bytes = input.bytes_at(READING * (bad.line - 1), LOOKED_AT);
        let rule = "reading, 22 digits 0-9 A-F and a line feed";
        refuse_line(recording, bad.line, rule, &bytes, LOOKED_AT)
    })?;
    if !is_empty {
        boards.warn(recording, starts);
    }
    let in_time = |(start, answer): (&Start, Option<Reading>)| {
        answer.filter(|reading| start.time - reading.time <= within)
    };
    Ok(starts.iter().zip(answers).map(in_time).collect())
}

/// Lines of starts and of the catalogue both have 26 digits.
fn are_of_catalogue(lines: &[StartLine]) -> bool {
    let is_line = |line: &StartLine| {
        let digits = line.stored_hash.map(|hash| lines::line(line.start, hash) + "\n");
        digits.is_some_and(|digits| catalogue_read(digits.as_bytes()).is_ok())
    };
    lines.iter().all(is_line)
}

/// For programs: the digits as they stand in the recording.
fn write(mut out: impl Write, answers: &[Option<Reading>]) -> io::Result<()> {
    for answer in answers {
        match answer {
            Some(Reading { time, board, temperature }) => {
                writeln!(out, "{time:016X}{board:02X}{:04X}", *temperature as u16)?;
            }
            None => writeln!(out, "none")?,
        }
    }
    out.flush()
}

/// For people.
fn show(out: impl Write, starts: &[Start], answers: &[Option<Reading>]) -> io::Result<()> {
    let titles = &["start", "board", "reading", "degrees", "age"];
    let mut table = Table::new(out, Style::Aligned, titles);
    let time = |filetime| time::iso(filetime).map_or(Cell::words("time 0"), Cell::Words);
    for (start, answer) in starts.iter().zip(answers) {
        let [read_at, degrees, age] = match answer {
            Some(Reading { time: at, temperature, .. }) => [
                time(*at),
                Cell::Decimal(degrees(i64::from(*temperature))),
                Cell::words(age::shown(start.time - at)),
            ],
            None => [Cell::words("none"), Cell::Empty, Cell::Empty],
        };
        table.row(vec![
            time(start.time),
            Cell::Number(start.board.into()),
            read_at,
            degrees,
            age,
        ])?;
    }
    table.end().map(|_| ())
}

/// Tenths as degrees, with a minus for all below zero, -0.5 too.
pub fn degrees(tenths: i64) -> String {
    let sign = if tenths < 0 { "-" } else { "" };
    format!("{sign}{}.{}", tenths.unsigned_abs() / 10, tenths.unsigned_abs() % 10)
}

#[cfg(test)]
mod tests {
    use super::degrees;

    #[test]
    fn every_sign() {
        let cases = [
            (0, "0.0"),
            (5, "0.5"),
            (-1, "-0.1"),
            (-5, "-0.5"),
            (-10, "-1.0"),
            (-200, "-20.0"),
            (1_300, "130.0"),
            (i16::MAX.into(), "3276.7"),
            (i16::MIN.into(), "-3276.8"),
            (i64::MAX, "922337203685477580.7"),
            (i64::MIN, "-922337203685477580.8"),
        ];
        for (tenths, expected) in cases {
            assert_eq!(degrees(tenths), expected);
        }
    }
}
