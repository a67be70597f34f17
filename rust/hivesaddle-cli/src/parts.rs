//! What `names`, `directories` and `volumes` have in common: a table of the parts
//! of files, of which the sound ones are shown also where a file is refused.

use crate::args::{Args, Known};
use crate::look::{each_look, Look};
use crate::outcome::{usage, written, Outcome};
use crate::output::rows;
use crate::table::{Cell, Style, Table};
use crate::text;
use hivesaddle::Record;
use std::ffi::{OsStr, OsString};
use std::io;

/// A command that shows parts of files.
pub struct Parts {
    pub command: &'static str,
    /// What it takes besides what all take.
    pub known: Known<'static>,
    pub titles: fn(&Args) -> &'static [&'static str],
    /// Hands over a row for each part that can be shown and is wanted.
    pub each: fn(&Whole, &mut Put) -> io::Result<()>,
}

/// Takes a row.
pub type Put<'a> = dyn FnMut(Vec<Cell>) -> io::Result<()> + 'a;

/// A file whose parts are shown.
pub struct Whole<'a> {
    pub name: &'a OsStr,
    pub file: &'a [u8],
    /// Of an accepted one.
    pub record: Option<&'a Record>,
    pub args: &'a Args,
}

impl Parts {
    pub fn run(&self, words: Vec<OsString>) -> Outcome {
        let flags = [&["csv", "json", "recursive", "patient"], self.known.flags].concat();
        let known = Known { flags: &flags, ..self.known };
        let parsed = Args::of_files(words, known).and_then(|args| Ok((Style::of(&args)?, args)));
        match parsed {
            Ok((style, args)) => written(|worst| self.show(&args, style, worst)),
            Err(message) => usage(self.command, message),
        }
    }

    fn show(&self, args: &Args, style: Style, worst: &mut Outcome) -> io::Result<()> {
        let mut table = Table::new(rows(), style, (self.titles)(args));
        each_look(args.wanted(), worst, |name, look| {
            let mut each = |file, record| {
                (self.each)(&Whole { name, file, record, args }, &mut |cells| table.row(cells))
            };
            match &look {
                Look::Ahead => return table.flush(),
                Look::Accepted(file, record) => each(file, Some(record))?,
                Look::Refused(file, _) => each(file, None)?,
                Look::Slow(..) | Look::Troubled(_) => {}
            }
            look.complain(name);
            Ok(())
        })?;
        table.end()
    }
}

impl Whole<'_> {
    /// Indexes of parts that take so many bytes at least, so that no file has more.
    pub fn indexes(&self, least: usize) -> std::ops::Range<u64> {
        0..(self.file.len() / least) as u64
    }

    /// Whether the text of `--find`, if there is one, is in a text of the file.
    pub fn is_wanted(&self, bytes: &[u8]) -> bool {
        let find = self.args.value("find");
        find.is_none_or(|find| {
            let find = text::shown_name(find).to_lowercase();
            text::shown(bytes).to_lowercase().contains(&find)
        })
    }
}
