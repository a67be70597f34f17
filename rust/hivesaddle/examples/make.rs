//! Makes a test file of version 17 or 23 from a plain text description;
//! `TestFile::from_description` says what can stand in one.
//!
//!     make DESCRIPTION FILE
//!
//! The status is 0 where the reader takes the file, 1 where it refuses it, and
//! 2 where the description or a file is at fault.

use hivesaddle::{read_file_alloc, DescribedFile, FileContents, Refusal, TestFile};
use std::process::ExitCode;

/// Whether the reader takes the file. It is made if so, or if it may be odd.
fn make(described: &DescribedFile, path: &str) -> std::io::Result<bool> {
    let file = match described.make() {
        Ok(file) => file,
        Err(refusal) => {
            println!("{}: no file made; with a line `odd` it is made all the same", said(refusal));
            return Ok(false);
        }
    };
    std::fs::write(path, &file)?;
    let verdict = read_file_alloc(&file);
    match &verdict {
        Ok(FileContents { record, .. }) => println!(
            "{} bytes, {} files, {} chains, {} volumes",
            file.len(),
            record.metrics_count,
            record.chain_count,
            record.volume_count
        ),
        Err(refusal) => println!("{} bytes, {}", file.len(), said(*refusal)),
    }
    Ok(verdict.is_ok())
}

fn said(refusal: Refusal) -> String {
    format!("refused {} {} at {}", refusal.number, refusal.index, refusal.offset)
}

fn main() -> ExitCode {
    let words: Vec<String> = std::env::args().skip(1).collect();
    let [description, path] = &words[..] else {
        eprintln!("make DESCRIPTION FILE");
        return ExitCode::from(2);
    };
    let text = std::fs::read_to_string(description).map_err(|error| error.to_string());
    let described =
        text.and_then(|text| TestFile::from_description(&text).map_err(|error| error.to_string()));
    let made = described
        .map_err(|complaint| format!("{description}: {complaint}"))
        .and_then(|described| make(&described, path).map_err(|error| format!("{path}: {error}")));
    match made {
        Ok(true) => ExitCode::SUCCESS,
        Ok(false) => ExitCode::FAILURE,
        Err(complaint) => {
            eprintln!("make: {complaint}");
            ExitCode::from(2)
        }
    }
}
