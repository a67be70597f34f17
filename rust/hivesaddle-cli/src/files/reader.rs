//! The bytes of one file after another.

use super::{Trouble, INPUT, LARGEST};
use std::ffi::OsStr;
use std::fs::{File, Metadata};
use std::io::{self, Read};
use std::ops::{Deref, DerefMut};
use std::path::Path;
use std::time::SystemTime;

/// Reads one file after another into the same memory.
#[derive(Default)]
pub struct Reader {
    pub(super) buffer: Buffer,
}

impl Reader {
    /// All bytes of a file, or of standard input for `-`: one at least, and at
    /// most as many as a Prefetch file has.
    pub fn read(&mut self, name: &OsStr) -> Result<&[u8], Trouble> {
        let length = if name == INPUT {
            self.fill(&mut io::stdin().lock(), 0)?
        } else {
            self.read_path(Path::new(name))?
        };
        match length {
            0 => Err(Trouble::Empty),
            length => Ok(&self.buffer[..length]),
        }
    }

    fn read_path(&mut self, path: &Path) -> Result<usize, Trouble> {
        let mut file = File::open(path)?;
        let before = file.metadata()?;
        if !before.is_file() {
            // A pipe, say, has no size to hold it to.
            return self.fill(&mut file, 0);
        }
        if before.len() > LARGEST as u64 {
            return Err(Trouble::AboveLimit);
        }
        let length = self.fill(&mut file, before.len() as usize)?;
        if length as u64 != before.len() || stamp(&before) != stamp(&file.metadata()?) {
            return Err(Trouble::Changed);
        }
        Ok(length)
    }

    /// Reads to the end, or as many bytes as are expected, if any; gives their
    /// number.
    pub(super) fn fill(
        &mut self,
        source: &mut impl Read,
        expected: usize,
    ) -> Result<usize, Trouble> {
        let mut length = 0;
        self.buffer.make_room(expected, 0);
        loop {
            let end = if expected > 0 { expected } else { self.buffer.len() };
            match source.read(&mut self.buffer[length..end]) {
                Ok(0) => return Ok(length),
                Ok(count) => length += count,
                Err(error) if error.kind() == io::ErrorKind::Interrupted => {}
                Err(error) => return Err(error.into()),
            }
            if length > LARGEST {
                return Err(Trouble::AboveLimit);
            }
            if length == expected {
                return Ok(length);
            }
            if length == self.buffer.len() {
                self.buffer.make_room(2 * length, length);
            }
        }
    }
}

/// Bytes that start at a page, to which the system copies quicker.
#[derive(Default)]
pub(super) struct Buffer {
    memory: Vec<u8>,
    start: usize,
}

const PAGE: usize = 4_096;

impl Buffer {
    /// Room for so many bytes at least, of which the first are there already.
    fn make_room(&mut self, length: usize, kept: usize) {
        let length = length.clamp(65_536, LARGEST + 1);
        if self.len() < length {
            let kept = self.start..self.start + kept;
            self.memory.resize(length + PAGE, 0);
            self.start = self.memory.as_ptr().align_offset(PAGE).min(PAGE);
            self.memory.copy_within(kept, self.start);
        }
    }
}

impl Deref for Buffer {
    type Target = [u8];

    fn deref(&self) -> &[u8] {
        &self.memory[self.start..]
    }
}

impl DerefMut for Buffer {
    fn deref_mut(&mut self) -> &mut [u8] {
        &mut self.memory[self.start..]
    }
}

/// What changes where a file is written to.
fn stamp(data: &Metadata) -> (u64, Option<SystemTime>) {
    (data.len(), data.modified().ok())
}

#[cfg(test)]
mod tests {
    use super::*;

    #[test]
    fn bytes_stay_where_the_room_grows() {
        let text: Vec<u8> = (0..300_000u32).map(|i| (i % 251) as u8).collect();
        let mut reader = Reader::default();
        assert_eq!(reader.fill(&mut &text[..], 0).unwrap(), text.len());
        assert!(reader.buffer[..text.len()] == text);
    }
}
