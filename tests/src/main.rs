//! cargo run --release --offline --bin compare -- [--seed N] [--scale N] [group ...]
//!
//! Runs the named groups, or all of them. The group `listing` runs the program
//! that HIVESADDLE_PROGRAM names, and is left out of all where none is named;
//! `replays` runs that of HIVESADDLE_REPLAY and leaves that part out.
//! The last line is `N passed, M failed`, where N and M count comparisons.

use compare::groups::{listing, Group, Run, GROUPS};
use compare::tally::Tally;
use std::process::ExitCode;
use std::sync::atomic::{AtomicUsize, Ordering};
use std::thread::{available_parallelism, scope};

const SEED: u64 = 20_261_115;

struct Asked {
    run: Run,
    groups: Vec<&'static Group>,
}

fn main() -> ExitCode {
    match asked(std::env::args().skip(1)) {
        Ok(asked) => run_all(&asked),
        Err(complaint) => {
            eprintln!("{complaint}");
            ExitCode::from(2)
        }
    }
}

/// The groups do not depend on each other: each thread takes the next one that is left.
fn run_all(asked: &Asked) -> ExitCode {
    let (mut passed, mut failed) = (0, 0);
    for tally in tallies(asked) {
        let (group, compared) = (tally.group, tally.passed + tally.failed);
        println!("{group}: {compared} compared, {} failed", tally.failed);
        passed += tally.passed;
        failed += tally.failed;
    }
    println!("{passed} passed, {failed} failed");
    if failed == 0 {
        ExitCode::SUCCESS
    } else {
        ExitCode::FAILURE
    }
}

fn tallies(asked: &Asked) -> Vec<Tally> {
    let groups = &asked.groups;
    let threads = available_parallelism().map_or(1, usize::from).min(groups.len());
    let next = AtomicUsize::new(0);
    let take = || {
        let mut taken = Vec::new();
        loop {
            let at = next.fetch_add(1, Ordering::Relaxed);
            let Some((name, run)) = groups.get(at) else { return taken };
            let mut tally = Tally::new(name);
            run(&asked.run, &mut tally);
            taken.push((at, tally));
        }
    };
    let mut all: Vec<(usize, Tally)> = scope(|s| {
        let started: Vec<_> = (0..threads).map(|_| s.spawn(take)).collect();
        started.into_iter().flat_map(|thread| thread.join().expect("a group panicked")).collect()
    });
    all.sort_by_key(|(at, _)| *at);
    all.into_iter().map(|(_, tally)| tally).collect()
}

fn asked(mut words: impl Iterator<Item = String>) -> Result<Asked, String> {
    let mut asked = Asked { run: Run { seed: SEED, scale: 1 }, groups: Vec::new() };
    while let Some(word) = words.next() {
        match word.as_str() {
            "--seed" => asked.run.seed = number(words.next())?,
            "--scale" => asked.run.scale = number(words.next())? as usize,
            name => asked.groups.push(group(name)?),
        }
    }
    if asked.groups.is_empty() {
        asked.groups = GROUPS.iter().filter(|group| can_run(group)).collect();
    }
    match asked.groups.iter().find(|group| !can_run(group)) {
        Some((name, _)) => Err(format!("{name} needs {}", listing::PROGRAM)),
        None => Ok(asked),
    }
}

fn can_run(group: &Group) -> bool {
    group.0 != "listing" || std::env::var_os(listing::PROGRAM).is_some()
}

fn number(word: Option<String>) -> Result<u64, String> {
    word.and_then(|word| word.parse().ok()).ok_or("a number is missing".to_string())
}

fn group(name: &str) -> Result<&'static Group, String> {
    let known = || GROUPS.iter().map(|(name, _)| *name).collect::<Vec<_>>().join(" ");
    GROUPS
        .iter()
        .find(|group| group.0 == name)
        .ok_or(format!("no group {name}; there are: {}", known()))
}
