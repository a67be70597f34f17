//! Files as they are pulled from boards, month after month. Run counts are
//! cumulative, and a file keeps its last starts, so the pulls of one file must
//! not be added up.

use crate::board::Source;
use crate::files::{Wanted, Ways};
use crate::look::{Look, Looker};
use crate::outcome::{complain, Outcome};
use crate::text;
use hivesaddle::{
    catalogue_write, program_name, CatalogueFields, Record, Start, CATALOGUE_LINE_LENGTH,
};
use std::collections::HashMap;
use std::ffi::{OsStr, OsString};
use std::io;

/// A file that was accepted.
pub struct Pull {
    pub board: Option<u8>,
    pub file: OsString,
    /// The program's name as it stands: UTF-16, low byte first.
    pub program: Vec<u8>,
    pub record: Record,
}

/// Hands over each file of the sources; nothing where the next will take long.
/// What is refused goes to standard error.
pub fn each_pull(
    sources: &[Source],
    ways: Ways,
    worst: &mut Outcome,
    mut take: impl FnMut(Option<Pull>) -> io::Result<()>,
) -> io::Result<()> {
    let names: Vec<OsString> = sources.iter().map(|source| source.name.clone()).collect();
    let mut looker = Looker::new(Wanted { operands: &names, ways });
    for (source, name) in sources.iter().zip(&names) {
        let wanted = Wanted { operands: std::slice::from_ref(name), ways };
        looker.each(wanted, worst, |name, look| match look {
            Look::Ahead => take(None),
            Look::Accepted(file, record) => {
                let program = program_name(file).unwrap_or_default().to_vec();
                let (board, file) = (source.board, name.to_owned());
                take(Some(Pull { board, file, program, record }))
            }
            _ => {
                look.complain(name);
                Ok(())
            }
        })?;
    }
    Ok(())
}

impl Pull {
    /// Pulls of one board, name and hash are pulls of one file, unless it was
    /// begun anew.
    fn is_of(&self, other: &Pull) -> bool {
        self.board.is_some() && self.key() == other.key()
    }

    fn key(&self) -> (Option<u8>, &[u8], u32) {
        (self.board, &self.program, self.record.stored_hash)
    }

    /// The order of pulls: the latest run time, then the run count.
    fn order(&self) -> (u64, u32) {
        let latest = self.record.times().iter().max();
        (latest.copied().unwrap_or(0), self.record.run_count)
    }

    /// As `CHAMBER.EXE 978DAB15`.
    pub fn title(&self) -> String {
        format!("{} {:08X}", text::shown(&self.program), self.record.stored_hash)
    }

    /// The catalogue line, with its line feed.
    pub fn line(&self) -> [u8; CATALOGUE_LINE_LENGTH] {
        let Record { declared_size: size, stored_hash, run_count, version, .. } = self.record;
        let mut line = [0; CATALOGUE_LINE_LENGTH];
        let written =
            catalogue_write(CatalogueFields { size, stored_hash, run_count, version }, &mut line);
        written.expect("the fields of an accepted file form a line");
        line
    }

    /// A time of 0 is a start that has not been. Without a board it is board 0.
    pub fn starts(&self) -> impl Iterator<Item = Start> + '_ {
        let board = self.board.unwrap_or(0);
        let times = self.record.times().iter().copied().filter(|time| *time != 0);
        times.map(move |time| Start { time, board })
    }
}

/// The last pull of each stretch, in the order given. A count at least as high
/// takes the place of the one before; a lower one begins a stretch, as Windows
/// began the file anew, and both count.
pub fn joined(mut pulls: Vec<Pull>, command: &OsStr) -> Vec<Pull> {
    let mut order: Vec<usize> = (0..pulls.len()).collect();
    order.sort_by(|&a, &b| {
        let [a, b] = [&pulls[a], &pulls[b]];
        a.key().cmp(&b.key()).then(a.order().cmp(&b.order()))
    });
    let mut is_kept = vec![true; pulls.len()];
    for pair in order.windows(2) {
        let [before, after] = [&pulls[pair[0]], &pulls[pair[1]]];
        if !after.is_of(before) {
            continue;
        }
        if after.record.run_count < before.record.run_count {
            say_begun(before, after);
        } else {
            is_kept[pair[0]] = false;
        }
    }
    let all = pulls.len();
    let mut kept = is_kept.into_iter();
    pulls.retain(|_| kept.next().unwrap_or(true));
    let earlier = all - pulls.len();
    if earlier > 0 {
        let (files, are) = (text::count(all, "file"), if earlier == 1 { "is" } else { "are" });
        let pulls = if earlier == 1 { "an earlier pull" } else { "earlier pulls" };
        complain(command, format_args!("of {files} {earlier} {are} {pulls} of others, and joined"));
    }
    pulls
}

fn say_begun(before: &Pull, after: &Pull) {
    let board = after.board.unwrap_or(0);
    let [old, new] = [before, after].map(|pull| pull.record.run_count);
    let title = after.title();
    complain(
        &after.file,
        format_args!(
            "board {board}, {title}: begun anew, with {} after {old}; both count",
            text::count(new as usize, "run")
        ),
    );
}

/// Names and hashes that come twice among files whose board is not said.
#[derive(Default)]
pub struct Twice {
    counts: HashMap<(Vec<u8>, u32), usize>,
    /// As it is shown.
    first: Option<String>,
}

impl Twice {
    pub fn add(&mut self, pull: &Pull) {
        if pull.board.is_some() {
            return;
        }
        let count = self.counts.entry((pull.program.clone(), pull.record.stored_hash)).or_default();
        *count += 1;
        if *count == 2 && self.first.is_none() {
            self.first = Some(pull.title());
        }
    }

    pub fn warn(&self, command: &OsStr) {
        let Some(first) = &self.first else {
            return;
        };
        let several = self.counts.values().filter(|count| **count > 1).count();
        let come = match several {
            1 => format!("{first} comes more than once"),
            _ => format!("{several} programs come more than once, {first} the first"),
        };
        let advice = "pulls of one board are joined where it is named, as in 3=FOLDER";
        complain(command, format_args!("{come}; {advice}"));
    }
}

/// Starts, each once for its board, program and hash, however often it stands.
#[derive(Default)]
pub struct Once {
    /// Whether it has come again.
    seen: HashMap<(Start, Vec<u8>, u32), bool>,
}

impl Once {
    /// The starts of a file that have not come before.
    pub fn new_starts(&mut self, pull: &Pull) -> Vec<Start> {
        let mut new = Vec::new();
        for start in pull.starts() {
            let key = (start, pull.program.clone(), pull.record.stored_hash);
            self.seen.entry(key).and_modify(|again| *again = true).or_insert_with(|| {
                new.push(start);
                false
            });
        }
        new
    }

    pub fn say(&self, command: &OsStr) {
        match self.seen.values().filter(|again| **again).count() {
            0 => {}
            1 => complain(command, "1 start stood more than once, and counts once"),
            count => complain(
                command,
                format_args!("{count} starts stood more than once, and count once"),
            ),
        }
    }
}
