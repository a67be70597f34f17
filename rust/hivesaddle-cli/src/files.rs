//! Files and folders named on the command line, and their bytes.

mod reader;

use crate::outcome::plain;
pub use reader::Reader;
use std::collections::BinaryHeap;
use std::ffi::{OsStr, OsString};
use std::fmt;
use std::fs::{self, DirEntry, File, Metadata};
use std::io::{self, Read};
use std::path::{Path, PathBuf};

/// The largest Prefetch file that the library reads.
pub const LARGEST: usize = 67_108_864;
/// Stands for standard input, and as an output for standard output.
pub const INPUT: &str = "-";
/// Bytes from which on a file may take more than a moment to look at.
const LONG: u64 = 262_144;
/// Names of a folder that are held at a time, so that a folder of any size is
/// gone through in order with bounded memory.
const HELD: usize = 8_192;

/// Begins as a Prefetch file does, sound or not.
pub fn is_prefetch(bytes: &[u8]) -> bool {
    has_signature(bytes) || is_compressed(bytes)
}

pub fn has_signature(bytes: &[u8]) -> bool {
    bytes.get(4..8) == Some(b"SCCA")
}

/// As Windows 10 keeps them: the letters, and how the rest is compressed.
pub fn is_compressed(bytes: &[u8]) -> bool {
    bytes.starts_with(b"MAM")
}

/// Why a file has no bytes to show.
#[derive(Debug)]
pub enum Trouble {
    CannotRead(io::Error),
    AboveLimit,
    Empty,
    Changed,
    /// A folder in which no name ends in .pf, and whether it has folders inside.
    NoFiles(bool),
}

impl fmt::Display for Trouble {
    fn fmt(&self, f: &mut fmt::Formatter) -> fmt::Result {
        match self {
            Trouble::CannotRead(error) => write!(f, "cannot read: {}", plain(error)),
            Trouble::AboveLimit => write!(f, "above the limit of {LARGEST} bytes"),
            Trouble::Empty => write!(f, "empty"),
            Trouble::Changed => write!(f, "changed while it was read"),
            Trouble::NoFiles(false) => write!(f, "no .pf files in this folder"),
            Trouble::NoFiles(true) => {
                write!(f, "no .pf files in this folder; --recursive looks into its subfolders")
            }
        }
    }
}

impl From<io::Error> for Trouble {
    fn from(error: io::Error) -> Trouble {
        Trouble::CannotRead(error)
    }
}

/// Files and folders named on the command line.
#[derive(Clone, Copy)]
pub struct Wanted<'a> {
    pub operands: &'a [OsString],
    pub ways: Ways,
}

/// How they are gone through.
#[derive(Clone, Copy, Default)]
pub struct Ways {
    /// Folders inside folders too.
    pub recursive: bool,
    /// Files that are made to be slow too.
    pub patient: bool,
}

/// Hands over each file named: a file as it is, a folder's files that end in
/// .pf, in whatever letter case, in the order of their names. Those of folders
/// inside it come behind them, if they are wanted. Where a folder can't be read,
/// its own name with the trouble.
pub fn each_file<E>(
    wanted: Wanted,
    mut take: impl FnMut(&OsStr, Option<Trouble>) -> Result<(), E>,
) -> Result<(), E> {
    let recursive = wanted.ways.recursive;
    for operand in wanted.operands {
        let folder = Path::new(operand);
        if operand == INPUT || !folder.is_dir() {
            take(operand, None)?;
        } else if each_of_folder(folder, recursive, &mut take)? == 0 {
            let has_folders = !recursive && !folders_in(folder).is_empty();
            take(operand, Some(Trouble::NoFiles(has_folders)))?;
        }
    }
    Ok(())
}

/// Gives how many files, or troubles, there were.
fn each_of_folder<E>(
    folder: &Path,
    recursive: bool,
    take: &mut impl FnMut(&OsStr, Option<Trouble>) -> Result<(), E>,
) -> Result<usize, E> {
    let (mut last, mut count) = (None, 0);
    loop {
        let names = match names_behind(folder, last.as_deref(), HELD, recursive) {
            Ok(names) => names,
            Err(error) => {
                take(folder.as_os_str(), Some(error.into()))?;
                return Ok(count + 1);
            }
        };
        for name in &names {
            take(folder.join(name).as_os_str(), None)?;
        }
        count += names.len();
        match names.into_iter().last() {
            Some(name) => last = Some(name),
            None => break,
        }
    }
    if recursive {
        for inner in folders_in(folder) {
            count += each_of_folder(&inner, recursive, take)?;
        }
    }
    Ok(count)
}

/// In the order of their names. Links are not followed, so that there is no way
/// in a circle.
fn folders_in(folder: &Path) -> Vec<PathBuf> {
    let entries = fs::read_dir(folder).into_iter().flatten().flatten();
    let folders = entries.filter(|entry| entry.file_type().is_ok_and(|kind| kind.is_dir()));
    let mut folders: Vec<PathBuf> = folders.map(|entry| entry.path()).collect();
    folders.sort();
    folders
}

/// The next names in order behind the last one, as many as are to be held.
/// Where folders are searched through, files are also known by how they begin.
fn names_behind(
    folder: &Path,
    last: Option<&OsStr>,
    held: usize,
    recursive: bool,
) -> io::Result<Vec<OsString>> {
    let mut names = BinaryHeap::new();
    for entry in fs::read_dir(folder)? {
        let entry = entry?;
        let name = entry.file_name();
        let is_next = last.is_none_or(|last| &*name > last);
        let is_wanted = |entry: &DirEntry| has_ending(&name) || recursive && begins_so(entry);
        if is_next && may_be_file(&entry)? && is_wanted(&entry) {
            names.push(name);
        }
        if names.len() > held {
            names.pop();
        }
    }
    Ok(names.into_sorted_vec())
}

/// No folder, and no pipe, at which a reader would wait. A link that leads
/// nowhere is found out when it is read.
fn may_be_file(entry: &DirEntry) -> io::Result<bool> {
    let kind = entry.file_type()?;
    let leads_to_file = || fs::metadata(entry.path()).map_or(true, |data| data.is_file());
    Ok(kind.is_file() || kind.is_symlink() && leads_to_file())
}

/// A regular file that begins as a Prefetch file does, whatever its name. Behind
/// the letters MAM stands how it is compressed, so that no text is taken for one.
fn begins_so(entry: &DirEntry) -> bool {
    let mut start = Vec::new();
    let is_file = entry.file_type().is_ok_and(|kind| kind.is_file());
    let mut read = || File::open(entry.path())?.take(8).read_to_end(&mut start);
    if !is_file || read().is_err() {
        return false;
    }
    has_signature(&start) || start.starts_with(b"MAM\x04") || start.starts_with(b"MAM\x84")
}

fn has_ending(name: &OsStr) -> bool {
    let ending = Path::new(name).extension();
    ending.is_some_and(|ending| ending.eq_ignore_ascii_case("pf"))
}

/// Whether a file is large, or has to be waited for, as a pipe.
pub fn takes_long(name: &OsStr) -> bool {
    let is_short = |data: Metadata| data.is_file() && data.len() < LONG;
    name == INPUT || fs::metadata(name).is_ok_and(|data| !is_short(data))
}

#[cfg(test)]
mod tests {
    use super::*;

    #[test]
    fn a_folder_is_gone_through_in_parts() {
        let folder = std::env::temp_dir().join(format!("hivesaddle-parts-{}", std::process::id()));
        fs::create_dir_all(&folder).unwrap();
        for name in ["e.pf", "b.PF", "d.pf", "a.pf", "c.pf", "c.txt"] {
            fs::write(folder.join(name), "").unwrap();
        }
        let behind =
            |last: Option<&str>| names_behind(&folder, last.map(OsStr::new), 2, false).unwrap();
        assert_eq!(behind(None), ["a.pf", "b.PF"]);
        assert_eq!(behind(Some("b.PF")), ["c.pf", "d.pf"]);
        assert_eq!(behind(Some("d.pf")), ["e.pf"]);
        assert!(behind(Some("e.pf")).is_empty());
        fs::remove_dir_all(&folder).unwrap();
    }

    /// What came before leaves nothing behind.
    #[test]
    fn memory_serves_one_after_another() {
        let mut reader = Reader::default();
        for text in ["a long text", "short", ""] {
            let length = reader.fill(&mut text.as_bytes(), text.len()).unwrap();
            assert_eq!(&reader.buffer[..length], text.as_bytes());
        }
        let bytes = |count: usize| io::repeat(7).take(count as u64);
        assert_eq!(reader.fill(&mut bytes(LARGEST), 0).unwrap(), LARGEST);
        let above = reader.fill(&mut bytes(LARGEST + 1), 0);
        assert!(matches!(above, Err(Trouble::AboveLimit)));
    }
}
