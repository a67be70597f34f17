//! header HEADER [FUNCTION]
//!
//! Writes a C program that calls every function of the C header, or that one, with the arguments in the order in which the
//! header names them, and holds what the library gives and leaves to the answers of the independent reading.

mod call;
mod cases;
#[path = "../fuzz/judge.rs"]
mod judge;
mod program;
mod prototypes;

use call::Call;
use judge::reference;
use prototypes::{prototypes, Prototype};
use std::process::ExitCode;

fn main() -> ExitCode {
    let words: Vec<String> = std::env::args().skip(1).collect();
    let Some(header) = words.first() else {
        eprintln!("header HEADER [FUNCTION]");
        return ExitCode::from(2);
    };
    match written(header, words.get(1)) {
        Ok(text) => {
            print!("{text}");
            ExitCode::SUCCESS
        }
        Err(reason) => {
            eprintln!("header: {header}: {reason}");
            ExitCode::FAILURE
        }
    }
}

fn written(header: &str, only: Option<&String>) -> Result<String, String> {
    let text = std::fs::read_to_string(header).map_err(|error| error.to_string())?;
    let mut prototypes = prototypes(&text)?;
    prototypes.retain(|prototype| only.is_none_or(|only| *only == prototype.name));
    if prototypes.is_empty() {
        return Err("no function is declared".to_string());
    }
    let mut calls = cases::all();
    calls.retain(|call| only.is_none_or(|only| only == call.function));
    for prototype in &prototypes {
        checked(prototype, &calls)?;
    }
    for call in &calls {
        if !prototypes.iter().any(|prototype| prototype.name == call.function) {
            return Err(format!("{} is not declared", call.function));
        }
    }
    Ok(program::text(&prototypes, &calls))
}

/// There are calls of the function, and they have its parameters.
fn checked(prototype: &Prototype, calls: &[Call]) -> Result<(), String> {
    let mut calls = calls.iter().filter(|call| call.function == prototype.name).peekable();
    if calls.peek().is_none() {
        return Err(format!("{} is called by no case", prototype.name));
    }
    calls.try_for_each(|call| call.fits(&prototype.parameters))
}
