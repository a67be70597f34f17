//! What a file says that the library does not hand over, or only bit by bit.

use hivesaddle::Record;

/// The number at a place; 0 where there is none, which no accepted file has.
pub fn number(bytes: &[u8], at: usize) -> u32 {
    let four = bytes.get(at..).and_then(|rest| rest.first_chunk());
    four.map_or(0, |four| u32::from_le_bytes(*four))
}

/// Where a section starts that the head names at this place.
fn section(file: &[u8], at: usize) -> &[u8] {
    file.get(number(file, at) as usize..).unwrap_or_default()
}

pub fn metrics(file: &[u8]) -> &[u8] {
    section(file, 84)
}

pub fn metrics_count(file: &[u8]) -> u64 {
    number(file, 88).into()
}

pub fn trace(file: &[u8]) -> &[u8] {
    section(file, 92)
}

pub fn strings_size(file: &[u8]) -> u64 {
    number(file, 104).into()
}

pub fn volume_count(file: &[u8]) -> u64 {
    number(file, 112).into()
}

pub fn volumes_size(file: &[u8]) -> u64 {
    number(file, 116).into()
}

/// The name of each metrics entry of an accepted file. The library checks the head
/// for each that it is asked for, which takes a while for all.
pub fn names<'a>(file: &'a [u8], record: &Record) -> impl Iterator<Item = &'a [u8]> {
    let (length, name_at) = if record.version == 17 { (20, 8) } else { (32, 12) };
    let strings = section(file, 100);
    let name = move |entry: &[u8]| {
        let [start, units] = [name_at, name_at + 4].map(|at| number(entry, at) as usize);
        strings.get(start..start + 2 * units).unwrap_or_default()
    };
    metrics(file).chunks_exact(length).take(record.metrics_count as usize).map(name)
}
