//! Says how warm a board was at each of its program starts.
//!
//!     replay FILE
//!
//! FILE is what the program `replay` takes: the starts, a line of 18 digits
//! each (time 16, board 2), then the recording, a line of 22 digits for each
//! reading. The recording is read in pieces of 4,096 bytes, so it may be longer
//! than there is memory.
//!
//! The status is 0 for a good recording, 1 for a bad one and 2 where FILE can't
//! be read.

use hivesaddle::{Reading, Replay, Start};
use std::fs::File;
use std::io::{self, BufRead, BufReader};
use std::process::ExitCode;

/// Run times count 100 nanoseconds.
const A_SECOND: f64 = 10_000_000.0;

/// None where the line is no start.
fn start(line: &[u8]) -> Option<Start> {
    let digits = line.strip_suffix(b"\n").filter(|digits| digits.len() == 18)?;
    let is_digit = |byte: &u8| matches!(byte, b'0'..=b'9' | b'A'..=b'F');
    let digits = digits.iter().all(is_digit).then_some(digits)?;
    let text = std::str::from_utf8(digits).ok()?;
    let time = u64::from_str_radix(&text[..16], 16).ok()?;
    let board = u8::from_str_radix(&text[16..], 16).ok()?;
    Some(Start { time, board })
}

fn show(start: &Start, answer: Option<Reading>) {
    print!("{:016X}, board {}: ", start.time, start.board);
    match answer {
        Some(reading) => {
            let before = (start.time - reading.time) as f64 / A_SECOND;
            println!("{:.1} degrees, read {before:.1} seconds before", reading.degrees());
        }
        None => println!("no reading before"),
    }
}

fn replay(mut input: impl BufRead) -> io::Result<ExitCode> {
    let (mut starts, mut line) = (Vec::new(), Vec::new());
    input.read_until(b'\n', &mut line)?;
    while let Some(start) = start(&line) {
        starts.push(start);
        line.clear();
        input.read_until(b'\n', &mut line)?;
    }
    let mut replay = Replay::new(&starts);
    replay.feed(&line);
    loop {
        let piece = input.fill_buf()?;
        if piece.is_empty() {
            break;
        }
        replay.feed(piece);
        let length = piece.len();
        input.consume(length);
    }
    match replay.finish() {
        Ok(answers) => {
            starts.iter().zip(answers).for_each(|(start, answer)| show(start, answer));
            Ok(ExitCode::SUCCESS)
        }
        Err(bad) => {
            println!("line {} is no reading", starts.len() as u64 + bad.line);
            Ok(ExitCode::FAILURE)
        }
    }
}

fn main() -> ExitCode {
    let path = std::env::args().nth(1).unwrap_or_default();
    let opened = File::open(&path).map(|file| BufReader::with_capacity(4_096, file));
    match opened.and_then(replay) {
        Ok(code) => code,
        Err(error) => {
            eprintln!("replay: {path}: {error}");
            ExitCode::from(2)
        }
    }
}
