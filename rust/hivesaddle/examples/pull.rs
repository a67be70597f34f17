//! Pulls a file as a serial line brings it: asks the prefix reader, fetches
//! exactly the bytes that it wants, and stops at its verdict.
//!
//!     pull FILE [BYTES PLACES]
//!
//! BYTES and PLACES are the sizes of the two buffers: on the rack 49152 and
//! 4096, and otherwise what the largest file needs. The status is 0 for an
//! accepted file, 1 for any other and 2 where FILE can't be read. It prints
//! what examples/pull.c prints.

use hivesaddle::{read_file, read_prefix, Record, Refusal, Verdict};
use std::fs::File;
use std::io::{self, Read};
use std::process::ExitCode;

const LARGEST_FILE: usize = 67_108_864;
const MOST_TRACE_ENTRIES: usize = (LARGEST_FILE - 148) / 12;
const BYTES_A_SECOND: u64 = 11_520;

/// The buffers, and what has come.
struct Pull<L> {
    line: L,
    file: Vec<u8>,
    /// Bytes of the buffer that have come.
    have: usize,
    predecessors: Vec<u32>,
}

impl<L: Read> Pull<L> {
    /// True for an acceptance.
    fn run(&mut self) -> io::Result<bool> {
        loop {
            let verdict = read_prefix(&self.file[..self.have], &mut self.predecessors);
            let wanted = match verdict {
                Verdict::Accepted(record) => return Ok(self.accepted(&record)),
                Verdict::Refused(refusal) => return Ok(self.refused(&refusal)),
                Verdict::Wanted(bytes) => bytes,
            };
            println!("{} bytes: wants {wanted}", self.have);
            if wanted > self.file.len() as u64 {
                println!("too long");
                return Ok(false);
            }
            if !self.fetch(wanted as usize)? {
                println!("{} bytes: the line has ended", self.have);
                return Ok(self.whole());
            }
        }
    }

    /// Brings the prefix to that length. False where the line ends before.
    fn fetch(&mut self, length: usize) -> io::Result<bool> {
        while self.have < length {
            match self.line.read(&mut self.file[self.have..length])? {
                0 => return Ok(false),
                bytes => self.have += bytes,
            }
        }
        Ok(true)
    }

    fn whole(&mut self) -> bool {
        match read_file(&self.file[..self.have], &mut self.predecessors) {
            Ok(record) => self.accepted(&record),
            Err(refusal) => self.refused(&refusal),
        }
    }

    fn accepted(&self, record: &Record) -> bool {
        println!("{} bytes: accepted", self.have);
        println!("version {}", record.version);
        println!("size {}", record.declared_size);
        println!("name units {}", record.name_units);
        println!("hash {:08X}", record.stored_hash);
        println!("run time {}", record.run_time);
        println!("runs {}", record.run_count);
        println!("metrics {}", record.metrics_count);
        println!("trace {}", record.trace_count);
        println!("volumes {}", record.volume_count);
        println!("chains {}", record.chain_count);
        true
    }

    fn refused(&self, refusal: &Refusal) -> bool {
        let Refusal { number, index, offset } = refusal;
        println!("{} bytes: refused {number} {index} at {offset}", self.have);
        false
    }
}

/// Rounded to hundredths.
fn seconds(bytes: u64) -> String {
    let hundredths = (100 * bytes + BYTES_A_SECOND / 2) / BYTES_A_SECOND;
    format!("{}.{:02}", hundredths / 100, hundredths % 100)
}

fn pull(path: &str, bytes: usize, places: usize) -> io::Result<bool> {
    let line = File::open(path)?;
    let whole = line.metadata()?.len();
    let mut pull = Pull { line, file: vec![0; bytes], have: 0, predecessors: vec![0; places] };
    let accepted = pull.run()?;
    let have = pull.have as u64;
    println!(
        "read {have} of {whole} bytes: {} of {} seconds at {BYTES_A_SECOND} bytes a second",
        seconds(have),
        seconds(whole)
    );
    Ok(accepted)
}

fn main() -> ExitCode {
    let words: Vec<String> = std::env::args().skip(1).collect();
    let number = |word: &str| word.parse().unwrap_or(0);
    let result = match &words[..] {
        [path] => pull(path, LARGEST_FILE, MOST_TRACE_ENTRIES),
        [path, bytes, places] => pull(path, number(bytes), number(places)),
        _ => {
            eprintln!("pull FILE [BYTES PLACES]");
            return ExitCode::from(2);
        }
    };
    match result {
        Ok(true) => ExitCode::SUCCESS,
        Ok(false) => ExitCode::FAILURE,
        Err(error) => {
            eprintln!("pull: {}: {error}", words[0]);
            ExitCode::from(2)
        }
    }
}
