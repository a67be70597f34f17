//! Makes the table at year's end, all the way: the files of the boards to
//! catalogue lines and starts, the starts and a recording to readings, and both
//! to a row for each stored hash.
//!
//!     year RECORDING BOARD=FILE..
//!
//! RECORDING has a line of 22 digits for each reading, see `replay`. Each FILE
//! is a Prefetch file, and BOARD the number of the board that it was taken from,
//! 0 to 255. A file that the reader refuses is named and left out.
//!
//! The status is 0 for a table, 1 where the recording is bad or no table can be
//! made, and 2 where the words are wrong or something can't be read.

use hivesaddle::{
    catalogue_write, read_file_alloc, replay, year_table, CatalogueFields, Refusal, Start, YearRow,
    YearStart, CATALOGUE_LINE_LENGTH,
};
use std::process::ExitCode;

/// What the files say: a line for each, and its starts, each with the file's
/// hash.
#[derive(Default)]
struct Year {
    lines: Vec<u8>,
    starts: Vec<Start>,
    hashes: Vec<u32>,
}

impl Year {
    fn add(&mut self, board: u8, file: &[u8]) -> Result<(), Refusal> {
        let record = read_file_alloc(file)?.record;
        let mut line = [0; CATALOGUE_LINE_LENGTH];
        let fields = CatalogueFields {
            size: record.declared_size,
            stored_hash: record.stored_hash,
            run_count: record.run_count,
            version: record.version,
        };
        catalogue_write(fields, &mut line)?;
        self.lines.extend(line);
        // A time of 0 is a start that has not been.
        for &time in record.times().iter().filter(|time| **time != 0) {
            self.starts.push(Start { time, board });
            self.hashes.push(record.stored_hash);
        }
        Ok(())
    }

    /// The table, or why there is none.
    fn table(&self, recording: &[u8]) -> Result<Vec<YearRow>, String> {
        let answers = replay(recording, &self.starts)
            .map_err(|bad| format!("line {} of the recording is no reading", bad.line))?;
        let starts: Vec<YearStart> = self
            .hashes
            .iter()
            .zip(answers)
            .map(|(&stored_hash, answer)| YearStart { stored_hash, answer })
            .collect();
        year_table(&self.lines, &starts)
            .map_err(|refusal| format!("refused {} at {}", refusal.number, refusal.place))
    }
}

/// Tenths as degrees, with a minus for all below zero, -0.5 too.
fn degrees(tenths: i64) -> String {
    let sign = if tenths < 0 { "-" } else { "" };
    format!("{sign}{}.{}", tenths.unsigned_abs() / 10, tenths.unsigned_abs() % 10)
}

fn show(row: &YearRow) {
    print!("{:08X}: files {}, runs {}, ", row.stored_hash, row.lines, row.run_counts);
    match &row.readings {
        Some(readings) => {
            let [lowest, highest] = [readings.lowest, readings.highest].map(i64::from).map(degrees);
            let (sum, mean) = (degrees(readings.sum), degrees(readings.mean));
            print!("readings {}, from {lowest} to {highest}, ", readings.count);
            println!("sum {sum}, mean {mean} remainder {}", readings.remainder);
        }
        None => println!("no reading"),
    }
}

fn read(path: &str) -> Result<Vec<u8>, String> {
    std::fs::read(path).map_err(|error| format!("{path}: {error}"))
}

fn year(words: &[String]) -> Result<ExitCode, String> {
    let (recording, files) = words.split_first().ok_or("year RECORDING BOARD=FILE..")?;
    let mut year = Year::default();
    for word in files {
        let (board, path) = word.split_once('=').ok_or(format!("{word}: no board"))?;
        let board = board.parse().map_err(|_| format!("{board}: no board from 0 to 255"))?;
        if let Err(refusal) = year.add(board, &read(path)?) {
            let Refusal { number, index, offset } = refusal;
            println!("{path}: refused {number} {index} at {offset}");
        }
    }
    match year.table(&read(recording)?) {
        Ok(rows) => rows.iter().for_each(show),
        Err(reason) => {
            println!("{reason}");
            return Ok(ExitCode::FAILURE);
        }
    }
    Ok(ExitCode::SUCCESS)
}

fn main() -> ExitCode {
    let words: Vec<String> = std::env::args().skip(1).collect();
    year(&words).unwrap_or_else(|complaint| {
        eprintln!("year: {complaint}");
        ExitCode::from(2)
    })
}
