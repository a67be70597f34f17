//! One file after another before the library's reader, with the same memory for
//! all.

use crate::bar::{self, Bar};
use crate::files::{each_file, takes_long, Reader, Trouble, Wanted};
use crate::outcome::{complain, Outcome};
use crate::refusal;
use crate::slow::Slow;
use hivesaddle::{places, read_file, Record, Refusal};
use std::convert::Infallible;
use std::ffi::OsStr;
use std::io;

/// What became of a file.
pub enum Look<'a> {
    /// Nothing yet, and it will take a while: what is written so far should be
    /// there to see.
    Ahead,
    Accepted(&'a [u8], Record),
    Refused(&'a [u8], Refusal),
    /// Not read: it would take long, and nobody said that there is time.
    Slow(&'a [u8], Slow),
    Troubled(Trouble),
}

impl Look<'_> {
    fn outcome(&self) -> Outcome {
        match self {
            Look::Ahead | Look::Accepted(..) => Outcome::Done,
            Look::Refused(..) | Look::Slow(..) => Outcome::Refused,
            Look::Troubled(_) => Outcome::Failed,
        }
    }

    /// What is wrong, in a line.
    pub fn problem(&self) -> Option<String> {
        match self {
            Look::Ahead | Look::Accepted(..) => None,
            Look::Refused(file, refusal) => Some(refusal::line(file, *refusal)),
            Look::Slow(_, slow) => Some(slow.to_string()),
            Look::Troubled(trouble) => Some(trouble.to_string()),
        }
    }

    /// Says what is wrong on standard error.
    pub fn complain(&self, name: &OsStr) {
        if let Some(problem) = self.problem() {
            complain(name, problem);
        }
    }

    /// All that was read.
    pub fn bytes(&self) -> Option<&[u8]> {
        match self {
            Look::Accepted(file, _) | Look::Refused(file, _) | Look::Slow(file, _) => Some(file),
            Look::Ahead | Look::Troubled(_) => None,
        }
    }
}

/// Looks at each file named, those of folders too, and notes the worst outcome.
pub fn each_look(
    wanted: Wanted,
    worst: &mut Outcome,
    show: impl FnMut(&OsStr, Look) -> io::Result<()>,
) -> io::Result<()> {
    Looker::new(wanted).each(wanted, worst, show)
}

/// Looks at files, and knows how many there are to look at.
pub struct Looker<'a> {
    all: Wanted<'a>,
    /// Their number, once it is asked for.
    count: Option<u64>,
    done: u64,
    bar: Bar,
    reader: Reader,
    predecessors: Vec<u32>,
}

impl<'a> Looker<'a> {
    /// For these files, at which it may look in parts.
    pub fn new(all: Wanted<'a>) -> Looker<'a> {
        let (reader, predecessors) = (Reader::default(), Vec::new());
        Looker { all, count: None, done: 0, bar: Bar::new(), reader, predecessors }
    }

    /// As [`each_look`], at some of the files.
    pub fn each(
        &mut self,
        wanted: Wanted,
        worst: &mut Outcome,
        mut show: impl FnMut(&OsStr, Look) -> io::Result<()>,
    ) -> io::Result<()> {
        let looked = each_file(wanted, |name, trouble| {
            self.show_bar();
            if trouble.is_none() && takes_long(name) {
                show(name, Look::Ahead)?;
            }
            let look = match trouble {
                None => self.look(name, || show(name, Look::Ahead))?,
                Some(trouble) => Look::Troubled(trouble),
            };
            worst.note(look.outcome());
            show(name, look)?;
            self.done += 1;
            Ok(())
        });
        bar::clear();
        looked
    }

    /// Tells before it reads what is made to be slow.
    fn look(
        &mut self,
        name: &OsStr,
        ahead: impl FnOnce() -> io::Result<()>,
    ) -> io::Result<Look<'_>> {
        let Looker { all, count, done, bar, reader, predecessors } = self;
        let file = match reader.read(name) {
            Ok(file) => file,
            Err(trouble) => return Ok(Look::Troubled(trouble)),
        };
        if let Some(slow) = Slow::of(file) {
            if !all.ways.patient {
                return Ok(Look::Slow(file, slow));
            }
            ahead()?;
            bar.hurry();
            bar.show(|| text(*done, *count.get_or_insert_with(|| number_of(*all))));
        }
        let needed = places(file).unwrap_or(0);
        if predecessors.len() < needed {
            predecessors.resize(needed, 0);
        }
        Ok(match read_file(file, &mut predecessors[..needed]) {
            Ok(record) => Look::Accepted(file, record),
            Err(refusal) => Look::Refused(file, refusal),
        })
    }

    fn show_bar(&mut self) {
        let Looker { all, count, done, bar, .. } = self;
        bar.show(|| text(*done, *count.get_or_insert_with(|| number_of(*all))));
    }
}

/// Folders are gone through for it once more.
fn number_of(all: Wanted) -> u64 {
    let mut count = 0;
    let Ok(()) = each_file(all, |_, _| {
        count += 1;
        Ok::<(), Infallible>(())
    });
    count
}

fn text(done: u64, count: u64) -> String {
    // There may be more by now.
    let count = count.max(done).max(1);
    format!("reading {} {done} of {count} files", bar::cells(done, count))
}
