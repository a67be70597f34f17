//! The program's own path, and how it was found.

mod device;

use crate::head;
use crate::text::utf16;
pub use device::Device;
use hivesaddle::{entry_name, find_path, program_name, volume, Record, Volume};
use std::borrow::Cow;

/// UTF-16, low byte first, as in the file.
pub struct Found<'a> {
    /// As it stands there, or with another start.
    pub path: Cow<'a, [u8]>,
    /// The metrics entry that it is of, and the name there.
    pub entry: u64,
    pub name: &'a [u8],
    pub how: How,
}

#[derive(Clone, Copy, Debug, PartialEq, Eq)]
pub enum How {
    /// It has the stored hash less this number, which a /prefetch switch added.
    Hash(u32),
    /// So has the path with a device in place of its volume.
    Device(Device),
    /// It only ends in the program's name.
    Name,
}

impl How {
    /// What a /prefetch switch added to the hash.
    pub fn added(self) -> Option<u32> {
        match self {
            How::Hash(added) | How::Device(Device { added, .. }) => Some(added),
            How::Name => None,
        }
    }
}

/// A path, or why there is none.
pub type Search<'a> = Result<Found<'a>, &'static str>;

const NEITHER: &str = "none: no file loaded has the stored hash or the program's name";
const HOSTING: &str = "none: the hash of a hosting program covers its command line, and no file \
    loaded has its name";

const BACKSLASH: &[u8] = b"\\\0";

/// Whose hash is no path's, as the papers say.
const HOSTS: [&str; 4] = ["RUNDLL32.EXE", "MMC.EXE", "DLLHOST.EXE", "SVCHOST.EXE"];

/// How it was found, or why not, for a column of its own.
pub fn how_found(search: &Search) -> String {
    match search.as_ref().map(|found| found.how) {
        Err(why) => why.to_string(),
        Ok(How::Hash(_)) => "by hash".to_string(),
        Ok(How::Name) => "by name".to_string(),
        Ok(How::Device(Device { number, volume, .. })) => {
            format!("by hash, with HARDDISKVOLUME{number} for volume {volume}")
        }
    }
}

/// Of an accepted file. The hash decides where it can. That of a hosting program,
/// such as SVCHOST.EXE, covers its command line, and no file loaded has it.
pub fn find<'a>(file: &'a [u8], record: &Record) -> Search<'a> {
    if let Some(found) = by_hash(file) {
        return Ok(found);
    }
    let named = entries_of_program(file, record);
    let by_name = || named.first().map(|&(entry, name)| found(entry, name, How::Name));
    device::by_device(file, record, &named).or_else(by_name).ok_or_else(|| why(file))
}

fn by_hash(file: &[u8]) -> Option<Found<'_>> {
    let hit = find_path(file)?;
    Some(found(hit.entry, entry_name(file, hit.entry)?, How::Hash(hit.number)))
}

/// A path as it stands in the file.
fn found(entry: u64, name: &[u8], how: How) -> Found<'_> {
    Found { path: name.into(), entry, name, how }
}

fn why(file: &[u8]) -> &'static str {
    let program = program_name(file).unwrap_or_default();
    match HOSTS.iter().any(|host| utf16(host) == program) {
        true => HOSTING,
        false => NEITHER,
    }
}

/// As many bytes as a file has of a program's name.
const WHOLE: usize = 2 * 29;

/// The entries whose last part is the program's name.
fn entries_of_program<'a>(file: &'a [u8], record: &Record) -> Vec<(u64, &'a [u8])> {
    let Some(program) = program_name(file).filter(|name| !name.is_empty()) else {
        return Vec::new();
    };
    // The last unit tells most of them apart, unless the name may be cut.
    let (end, may_be_cut) = (program.last_chunk::<2>(), program.len() == WHOLE);
    let named = (0..)
        .zip(head::names(file, record))
        .filter(|(_, name)| may_be_cut || name.last_chunk() == end)
        .filter(|(_, name)| is_of(name, program));
    named.filter_map(|(entry, _)| Some((entry, entry_name(file, entry)?))).collect()
}

/// Whether the last part of a path is the program's name.
fn is_of(path: &[u8], program: &[u8]) -> bool {
    let is_folder = |rest: &[u8]| rest.is_empty() || rest.ends_with(BACKSLASH);
    path.strip_suffix(program).is_some_and(is_folder)
        || program.len() == WHOLE && last_part(path).starts_with(program)
}

fn last_part(path: &[u8]) -> &[u8] {
    let backslash = path.chunks(2).rposition(|unit| unit == BACKSLASH);
    backslash.map_or(path, |at| &path[2 * at + 2..])
}

/// The volume that a name lies on, and its index.
pub fn volume_of<'a>(file: &'a [u8], record: &Record, name: &[u8]) -> Option<(u64, Volume<'a>)> {
    let is_on = |volume: &Volume| {
        let rest = name.strip_prefix(volume.path).filter(|_| !volume.path.is_empty());
        rest.is_some_and(|rest| rest.starts_with(BACKSLASH))
    };
    let mut volumes = (0..record.volume_count.into()).filter_map(|i| Some((i, volume(file, i)?)));
    volumes.find(|(_, volume)| is_on(volume))
}

#[cfg(test)]
mod tests {
    use super::is_of;

    #[test]
    fn the_last_part_is_the_name() {
        let units =
            |text: &str| -> Vec<u8> { text.encode_utf16().flat_map(u16::to_le_bytes).collect() };
        let is = |path: &str, program: &str| is_of(&units(path), &units(program));
        assert!(is(r"\A\CMD.EXE", "CMD.EXE") && is("CMD.EXE", "CMD.EXE"));
        assert!(!is(r"\A\XCMD.EXE", "CMD.EXE") && !is(r"\CMD.EXE\A", "CMD.EXE"));
        let long = "A".repeat(40);
        assert!(
            is(&format!(r"\B\{long}"), &long[..29]) && !is(&format!(r"\B\{long}"), &long[..28])
        );
    }
}
