//! Windows 10 writes \VOLUME{..}, and takes the hash over the path from a device
//! on, \DEVICE\HARDDISKVOLUME2 say. Its number stands nowhere in the file, so
//! numbers are tried.

use super::{Found, How, BACKSLASH};
use crate::text::utf16;
use hivesaddle::{find_path_from, hash_vista_bytes, volume, Record};
use std::collections::HashMap;
use std::sync::OnceLock;

#[derive(Clone, Copy, Debug, PartialEq, Eq)]
pub struct Device {
    /// What is added to the hash.
    pub added: u32,
    /// Behind \DEVICE\HARDDISKVOLUME.
    pub number: u32,
    /// Which of the file's volumes it stands for.
    pub volume: u64,
}

/// Numbers that are tried.
const NUMBERS: std::ops::RangeInclusive<u32> = 1..=64;
/// The most that a /prefetch switch adds.
const MOST_ADDED: u32 = 8;

/// Of entries with the program's name, the one to whose hash least is added, as
/// in the search. Version 17, which hashes otherwise, is older than such names.
pub fn by_device<'a>(
    file: &'a [u8],
    record: &Record,
    named: &[(u64, &'a [u8])],
) -> Option<Found<'a>> {
    let split: Vec<_> =
        named.iter().filter_map(|(entry, name)| Some((*entry, split(name)?))).collect();
    if record.version == 17 || split.is_empty() {
        return None;
    }
    let volumes = volumes(file, record);
    let hits = split.into_iter().filter_map(|(entry, (start, rest))| {
        let volume = *volumes.get(start)?;
        Some((hit(record.stored_hash, rest)?, entry, volume, rest))
    });
    let ((added, number), entry, volume, rest) = hits.min_by_key(|(hit, ..)| *hit)?;
    let start = start(number);
    let found = find_path_from(file, volume, &start)?;
    let name = named.iter().find(|(of, _)| *of == entry)?.1;
    let how = How::Device(Device { added, number, volume });
    let path = [&start, rest].concat().into();
    ((found.entry, found.number) == (entry, added)).then_some(Found { path, entry, name, how })
}

/// What a name begins with, \VOLUME{..}, and what is behind that.
fn split(name: &[u8]) -> Option<(&[u8], &[u8])> {
    let is_volume = name.starts_with(&utf16(r"\VOLUME{"));
    let mut units = name.chunks_exact(2).skip(1);
    let end = units.position(|unit| unit == BACKSLASH).filter(|_| is_volume)?;
    Some(name.split_at(2 * end + 2))
}

/// The number of the first volume that has a path. There may be as many as there
/// are entries, so they are not gone through for each.
fn volumes<'a>(file: &'a [u8], record: &Record) -> HashMap<&'a [u8], u64> {
    let mut volumes = HashMap::new();
    for i in 0..record.volume_count.into() {
        if let Some(volume) = volume(file, i) {
            volumes.entry(volume.path).or_insert(i);
        }
    }
    volumes
}

/// The least that is added to the hash of a path with this rest, and the number
/// with which it is. The hash of a start and a rest is that of the rest, and what
/// the start adds times 37 for each byte of the rest; the search confirms it.
fn hit(stored_hash: u32, rest: &[u8]) -> Option<(u32, u32)> {
    let (hash, power) = (hash_vista_bytes(rest), 37u32.wrapping_pow(rest.len() as u32));
    let added =
        |start: &u32| stored_hash.wrapping_sub(hash).wrapping_sub(start.wrapping_mul(power));
    let hits = starts().iter().map(added).zip(NUMBERS);
    hits.filter(|(added, _)| *added <= MOST_ADDED).min()
}

/// What each start adds to the hash.
fn starts() -> &'static [u32] {
    static STARTS: OnceLock<Vec<u32>> = OnceLock::new();
    let adds = |number| hash_vista_bytes(&start(number)).wrapping_sub(hash_vista_bytes(&[]));
    STARTS.get_or_init(|| NUMBERS.map(adds).collect())
}

fn start(number: u32) -> Vec<u8> {
    utf16(&format!(r"\DEVICE\HARDDISKVOLUME{number}"))
}
