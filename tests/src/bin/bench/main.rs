//! bench contents
//!
//! What document 03 adds, beside what a call has to do anyway: all directories of
//! a volume beside its check, an entry's file reference beside its name, the cost
//! of a file beside its reading.
//!
//! bench hashes
//!
//! The path hashes over the C boundary beside a plain Rust loop.
//!
//! bench powers
//!
//! The second hash engine on device paths and on single lengths, its swap of a
//! path's volume, and the Vista and 2008 hashes of the same paths, beside the
//! plain Rust loop.
//!
//! bench readers
//!
//! The whole-file reader on files as Windows lays them out, from 1 KB to 64 MiB,
//! beside the reader of `plain`.
//!
//! bench trace
//!
//! The whole-file reader on files that are nearly all trace section: chains and a
//! cycle, in and out of order, beside the reader of `plain`.
//!
//! bench overlap
//!
//! The whole-file reader on files whose entries all name the same bytes. The rules
//! allow that, and then the work grows with the square of the file's size; and the
//! time that a unit of their cost takes.
//!
//! bench search
//!
//! The path search and the list of paths through 10,000 names, none of which
//! has the stored hash, beside those of `plain`.
//!
//! bench walk
//!
//! The walk along one chain, in and out of order, beside that of `plain`: the
//! walk alone, which is that of the library less its whole-file reader, and the
//! whole of both.
//!
//! bench replay
//!
//! The replay of 1,000,000 readings against 1, 1,024 and 100,000 starts, beside
//! that of `plain`; and the program that HIVESADDLE_REPLAY names, if it names
//! one, on 1 and 1,024 starts.
//!
//! bench write
//!
//! The writer on what files as Windows has them say, of 150 KB and 16 MB,
//! beside that of `plain`.
//!
//! bench year
//!
//! The year's table of 1,048,576 lines and as many starts with 1,024 hashes, and
//! of fewer, beside that of `plain`, which has a `BTreeMap`.
//!
//! The two run turn and turn about on the same input, and medians are shown.

mod contents;
mod hashes;
mod overlap;
mod powers;
mod readers;
mod replay;
mod replay_program;
mod search;
mod timing;
mod trace;
mod walk;
mod write;
mod year;

use std::process::ExitCode;

fn main() -> ExitCode {
    match std::env::args().nth(1).as_deref() {
        Some("contents") => contents::run(),
        Some("hashes") => hashes::run(),
        Some("powers") => powers::run(),
        Some("readers") => readers::run(),
        Some("trace") => trace::run(),
        Some("overlap") => overlap::run(),
        Some("search") => search::run(),
        Some("walk") => walk::run(),
        Some("replay") => replay::run(),
        Some(replay_program::PLAIN) => replay_program::plain(),
        Some("write") => write::run(),
        Some("year") => year::run(),
        _ => {
            eprintln!(
                "bench contents | hashes | powers | readers | trace | overlap | search | walk | replay | write | year"
            );
            return ExitCode::from(2);
        }
    }
    ExitCode::SUCCESS
}
