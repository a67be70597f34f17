//! The path search from another start.

use super::hashes::{bytes, hash_joined};
use super::head::*;
use super::queries::{head_and_sections_pass, name_of_shown_entry, volume, Part};
use super::search::{Found, NUMBERS};

const BACKSLASH: [u8; 2] = [0x5C, 0x00];

/// The number that each entry that takes part is short of the stored hash by,
/// and of those from 0 to 8 the least; of equal ones that of the first entry.
pub fn find_path_from(file: &[u8], i: u64, start: &[u8]) -> Option<Found> {
    let found = rests(file, i).into_iter().map(|(entry, rest)| {
        let version = known_layout(file).version;
        let hash = hash_joined(version, &bytes(start), &bytes(rest));
        let number = (stored_hash(file) as i64 - hash as i64).rem_euclid(4_294_967_296);
        Found { entry, number: number as u64 }
    });
    found
        .filter(|found| NUMBERS.contains(&found.number))
        .min_by_key(|found| (found.number, found.entry))
}

/// The entries that take part, each with what stands behind the volume's path.
pub fn rests(file: &[u8], i: u64) -> Vec<(u64, &[u8])> {
    let text = |part: Part| &file[part.offset as usize..][..part.length as usize];
    let Some(path) = volume(file, i).map(|volume| text(volume.path)) else {
        return Vec::new();
    };
    if path.is_empty() || !head_and_sections_pass(file) {
        return Vec::new();
    }
    let rest = |entry| {
        let name = text(name_of_shown_entry(file, entry)?);
        Some((entry, behind(name, path)?))
    };
    (0..metrics_count(file)).filter_map(rest).collect()
}

/// A name is cut before each backslash and at its end; one of the fronts has to
/// be the path.
fn behind<'a>(name: &'a [u8], path: &[u8]) -> Option<&'a [u8]> {
    let cuts = (0..=name.len()).step_by(2);
    let mut cuts = cuts.filter(|&at| at == name.len() || name[at..at + 2] == BACKSLASH);
    cuts.find(|&at| &name[..at] == path).map(|at| &name[at..])
}

#[cfg(test)]
mod points {
    use super::behind;

    fn text(text: &str) -> Vec<u8> {
        text.encode_utf16().flat_map(u16::to_le_bytes).collect()
    }

    #[test]
    fn names_that_take_part() {
        let cases = [
            (r"\V1", r"\V1", Some("")),
            (r"\V1\A", r"\V1", Some(r"\A")),
            (r"\V1\", r"\V1", Some(r"\")),
            (r"\V1\\A", r"\V1", Some(r"\\A")),
            (r"\V1\A\B", r"\V1\A", Some(r"\B")),
            // a path that ends in a backslash wants another behind it
            (r"\V1\A", r"\V1\", None),
            (r"\V1\\A", r"\V1\", Some(r"\A")),
            (r"\V10\A", r"\V1", None),
            (r"\V10", r"\V1", None),
            (r"\V1/A", r"\V1", None),
            ("\\V1\u{15C}A", r"\V1", None),
            ("\\V1\u{5C00}A", r"\V1", None),
            (r"\V", r"\V1", None),
            ("", r"\V1", None),
            (r"\V2\A", r"\V1", None),
            (r"A\V1\A", r"\V1", None),
        ];
        for (name, path, rest) in cases {
            let (name, path) = (text(name), text(path));
            assert_eq!(behind(&name, &path), rest.map(text).as_deref(), "{name:?}, {path:?}");
        }
    }
}
