//! Inputs that are read a piece at a time, of any length, and how a command
//! stops that can't go on with one.

use super::progress::Progress;
use crate::bar;
use crate::outcome::{complain, failed, plain, Outcome};
use std::ffi::OsStr;
use std::fmt::Display;
use std::fs::File;
use std::io::{self, BufRead, BufReader, Read, Seek, SeekFrom};
use std::time::SystemTime;

/// Bytes that are read at a time.
const PIECE: usize = 65_536;

/// Stops a command: a line or a file is refused.
pub fn refused(name: &OsStr, message: impl Display) -> Outcome {
    complain(name, message);
    Outcome::Refused
}

/// Allowed, and seldom meant: as a rule the command that was to write it failed.
pub fn has_no_lines(name: &OsStr) {
    complain(name, "has no lines");
}

/// A file, or standard input for `-`.
pub struct Input<'a> {
    name: &'a OsStr,
    reader: BufReader<Box<dyn Read>>,
    /// The file again, and its stamp when it was opened. A pipe has none.
    file: Option<(File, Stamp)>,
}

/// What changes where a file is written to: its size and the time of that.
type Stamp = (u64, Option<SystemTime>);

impl<'a> Input<'a> {
    pub fn open(name: &'a OsStr) -> Result<Input<'a>, Outcome> {
        let opened = if name == "-" { Ok((boxed(io::stdin()), None)) } else { open_file(name) };
        let (source, file) = opened.map_err(|error| cannot_read(name, &error))?;
        Ok(Input { name, reader: BufReader::with_capacity(PIECE, source), file })
    }

    /// A piece after the other, as long as they are wanted, with a bar on a
    /// terminal.
    pub fn each_piece(&mut self, mut take: impl FnMut(&[u8]) -> bool) -> Result<(), Outcome> {
        let mut progress = Progress::new(self.file.as_ref().map(|(_, stamp)| stamp.0));
        loop {
            let (length, wanted) = match self.reader.fill_buf() {
                Ok([]) => break,
                Ok(piece) => (piece.len(), take(piece)),
                Err(error) if error.kind() == io::ErrorKind::Interrupted => continue,
                Err(error) => return Err(cannot_read(self.name, &error)),
            };
            self.reader.consume(length);
            progress.add(length as u64);
            if !wanted {
                break;
            }
        }
        bar::clear();
        self.end()
    }

    /// The next line with its line feed, or what there is within so many bytes;
    /// nothing at the end. So a line that has no end is not kept whole.
    pub fn line(&mut self, most: u64, line: &mut Vec<u8>) -> Result<(), Outcome> {
        line.clear();
        let read = self.reader.by_ref().take(most).read_until(b'\n', line);
        read.map(|_| ()).map_err(|error| cannot_read(self.name, &error))
    }

    /// The bytes at a place of a file, so many at most; of a pipe none. Only for
    /// when all else is read, as reading would go on from there.
    pub fn bytes_at(&mut self, offset: u64, most: usize) -> Vec<u8> {
        let mut bytes = Vec::new();
        let read = self.file.as_mut().map(|(file, _)| {
            file.seek(SeekFrom::Start(offset))?;
            file.take(most as u64).read_to_end(&mut bytes)
        });
        if !matches!(read, Some(Ok(_))) {
            bytes.clear();
        }
        bytes
    }

    /// What has been read is the file, if nobody has written to it since.
    pub fn end(&self) -> Result<(), Outcome> {
        match &self.file {
            Some((file, before)) if stamp(file).as_ref().ok() != Some(before) => {
                Err(failed(self.name, "changed while it was read"))
            }
            _ => Ok(()),
        }
    }
}

fn boxed(source: impl Read + 'static) -> Box<dyn Read> {
    Box::new(source)
}

type Opened = (Box<dyn Read>, Option<(File, Stamp)>);

fn open_file(name: &OsStr) -> io::Result<Opened> {
    let file = File::open(name)?;
    if !file.metadata()?.is_file() {
        return Ok((boxed(file), None));
    }
    let stamp = stamp(&file)?;
    Ok((boxed(file.try_clone()?), Some((file, stamp))))
}

fn stamp(file: &File) -> io::Result<Stamp> {
    file.metadata().map(|data| (data.len(), data.modified().ok()))
}

fn cannot_read(name: &OsStr, error: &io::Error) -> Outcome {
    failed(name, format_args!("cannot read: {}", plain(error)))
}

#[cfg(test)]
mod tests {
    use super::*;
    use std::ffi::OsString;
    use std::io::Write;

    /// A file of the process' own, which holds a line.
    fn file(name: &str) -> OsString {
        let name = format!("hivesaddle-{}-{name}", std::process::id());
        let path = std::env::temp_dir().join(name);
        std::fs::write(&path, "line\n").unwrap();
        path.into_os_string()
    }

    #[test]
    fn a_file_that_grows_is_seen_to() {
        let name = file("grows");
        let mut input = Input::open(&name).unwrap();
        File::options().append(true).open(&name).unwrap().write_all(b"more\n").unwrap();
        assert_eq!(input.each_piece(|_| true), Err(Outcome::Failed));
        std::fs::remove_file(&name).unwrap();
    }

    #[test]
    fn pieces_and_lines() {
        let name = file("lines");
        let mut all = Vec::new();
        let each = Input::open(&name).unwrap().each_piece(|piece| {
            all.extend_from_slice(piece);
            true
        });
        assert_eq!((each, &all[..]), (Ok(()), &b"line\n"[..]));
        let mut input = Input::open(&name).unwrap();
        for expected in ["lin", "e\n", ""] {
            input.line(3, &mut all).unwrap();
            assert_eq!(all, expected.as_bytes());
        }
        assert_eq!(input.end(), Ok(()));
        assert_eq!((input.bytes_at(1, 2), input.bytes_at(3, 9)), (b"in".to_vec(), b"e\n".to_vec()));
        assert_eq!(input.bytes_at(9, 9), b"");
        std::fs::remove_file(&name).unwrap();
    }
}
