//! What is written when all of it is there.

mod beside;
mod interrupt;

use crate::bar;
use crate::files::{each_file, is_prefetch, Wanted, Ways, INPUT};
use crate::outcome::{failed, plain, written, Outcome};
use std::ffi::{OsStr, OsString};
use std::fs::{self, File, Metadata};
use std::io::{self, BufWriter, Read, StdoutLock, Write};
use std::os::fd::AsFd;
use std::os::unix::fs::MetadataExt;

/// Standard output, for rows that come one after another. A bar that is shown
/// goes before they are seen.
pub struct Rows(StdoutLock<'static>);

pub fn rows() -> BufWriter<Rows> {
    BufWriter::new(Rows(io::stdout().lock()))
}

impl Write for Rows {
    fn write(&mut self, bytes: &[u8]) -> io::Result<usize> {
        bar::clear();
        self.0.write(bytes)
    }

    fn flush(&mut self) -> io::Result<()> {
        self.0.flush()
    }
}

/// Writes to standard output.
pub fn say(bytes: &[u8]) -> Outcome {
    let mut out = io::stdout().lock();
    written(|_| out.write_all(bytes).and_then(|()| out.flush()))
}

/// Writes a file anew, or to standard output for `-`. What it is made from is
/// not written over, nor a file of a folder among the inputs.
fn write(name: &OsStr, bytes: &[u8], inputs: Wanted) -> Outcome {
    if name == INPUT {
        return say(bytes);
    }
    if is_among(name, inputs) {
        return failed(name, "is what it would be made from; give it another name");
    }
    match beside::write(name, bytes) {
        Ok(()) => Outcome::Done,
        Err(error) => failed(name, format_args!("cannot write: {}", plain(&error))),
    }
}

/// As [`write`], for what is no Prefetch file: it takes the place of none, as in
/// `chart *.pf`.
pub fn write_view(name: &OsStr, view: &str, inputs: Wanted) -> Outcome {
    if name != INPUT && is_prefetch(&start_of(name)) {
        let over = "is a Prefetch file, and would be written over; give the output another name";
        return failed(name, over);
    }
    write(name, view.as_bytes(), inputs)
}

/// As [`write`], for a Prefetch file that is made: it takes the place of one that
/// was made, and of none that Windows wrote. Windows has a number at 8, 15 or 17,
/// and what is made has 0 there.
pub fn write_made(name: &OsStr, file: &[u8], input: &OsString) -> Outcome {
    let start = start_of(name);
    let is_made = start.get(8..12).is_none_or(|number| number == [0; 4]);
    if name != INPUT && is_prefetch(&start) && !is_made {
        let over = "is a Prefetch file that was not made with this command; give another name";
        return failed(name, over);
    }
    write(name, file, one(input))
}

/// The first bytes of a file; none where it can't be read. A pipe is not asked,
/// as that would wait.
fn start_of(name: &OsStr) -> Vec<u8> {
    let mut start = Vec::new();
    if fs::metadata(name).is_ok_and(|data| data.is_file()) {
        let _ = File::open(name).and_then(|file| file.take(12).read_to_end(&mut start));
    }
    start
}

/// A single input, which is no folder to search through.
pub fn one(input: &OsString) -> Wanted<'_> {
    Wanted { operands: std::slice::from_ref(input), ways: Ways::default() }
}

/// By whatever names, hard links and standard input too. A file that is not
/// there is the same as none, and a device is no file.
pub fn is_among(name: &OsStr, inputs: Wanted) -> bool {
    let Some(place) = fs::metadata(name).ok().and_then(identity) else {
        return false;
    };
    let differs = |input: &OsStr, _| {
        let data = if input == INPUT { input_data() } else { fs::metadata(input) };
        match data.ok().and_then(identity) {
            Some(found) if found == place => Err(()),
            _ => Ok(()),
        }
    };
    each_file(inputs, differs).is_err()
}

/// Device and inode: what tells files apart.
fn identity(data: Metadata) -> Option<(u64, u64)> {
    data.is_file().then(|| (data.dev(), data.ino()))
}

fn input_data() -> io::Result<Metadata> {
    File::from(io::stdin().as_fd().try_clone_to_owned()?).metadata()
}
