//! The path search from another start on files put together by hand.

use crate::generate::bare::{volume_entry, with_volumes};
use crate::generate::{set_16, set_32};
use crate::reference::hashes::bytes;
use crate::reference::path_from;
use crate::reference::search::hash_of;
use crate::tally::Tally;
use hivesaddle::raw;
use std::ptr::{null, null_mut};

pub fn run(tally: &mut Tally) {
    notepad(tally);
    numbers(tally);
    first_and_least(tally);
    what_follows(tally);
    volumes_one_and_ten(tally);
    starts_of_any_length(tally);
    paths(tally);
    volumes_not_shown(tally);
    prefixes(tally);
    null_pointers(tally);
}

const VERSIONS: [u32; 4] = [17, 23, 26, 30];

fn text(text: &str) -> Vec<u8> {
    text.encode_utf16().flat_map(u16::to_le_bytes).collect()
}

/// The version's hash of a path.
fn hash(version: u32, path: &str) -> u32 {
    hash_of(version, &bytes(&text(path)))
}

/// The library and the reference both have to find that pair, or none.
fn finds(
    tally: &mut Tally,
    name: &str,
    file: &[u8],
    (i, start): (u64, &[u8]),
    pair: Option<(u64, u64)>,
) {
    let given = hivesaddle::find_path_from(file, i, start);
    tally.named(name, &pair, &given.map(|found| (found.entry, found.number.into())));
    let own = path_from::find_path_from(file, i, start);
    tally.named(name, &pair, &own.map(|found| (found.entry, found.number)));
}

const NAMED: &str = r"\VOLUME{01d0c0ffee000000-12345678}";

/// The hashes are those of the path search's own points: of source document 000
/// for XP, and of its functions for the others.
fn notepad(tally: &mut Tally) {
    let name = format!(r"{NAMED}\WINDOWS\NOTEPAD.EXE");
    let first = text(r"\DEVICE\HARDDISKVOLUME1");
    let second = text(r"\DEVICE\HARDDISKVOLUME2");
    let hashes = [
        (17, 0x189578DA, None),
        (23, 0x3D2AFDB4, Some(0x86E0E9B9)),
        (26, 0x3D2AFDB4, Some(0x86E0E9B9)),
        (30, 0x3D2AFDB4, Some(0x86E0E9B9)),
    ];
    for (version, of_first, of_second) in hashes {
        let file = |stored| with_volumes(version, &["A", &name], &[NAMED], stored);
        let case = format!("notepad, version {version}");
        let given = hivesaddle::find_path(&file(of_first));
        tally.named(&case, &None, &given);
        finds(tally, &case, &file(of_first), (0, &first), Some((1, 0)));
        finds(tally, &case, &file(of_first), (0, &second), None);
        finds(tally, &case, &file(of_first), (0, &text(NAMED)), None);
        finds(tally, &case, &file(of_first), (0, &[]), None);
        if let Some(of_second) = of_second {
            finds(tally, &case, &file(of_second), (0, &second), Some((1, 0)));
            finds(tally, &case, &file(of_second), (0, &first), None);
        }
    }
}

/// From 0 to 8 above the hash, and not 9 or one below.
fn numbers(tally: &mut Tally) {
    for version in VERSIONS {
        let hash = hash(version, r"\D2\A");
        for number in 0..=10 {
            let stored = hash.wrapping_add(number).wrapping_sub(1);
            let file = with_volumes(version, &[r"\V\A"], &[r"\V"], stored);
            let pair = (1..=9).contains(&number).then(|| (0, u64::from(number) - 1));
            let name = format!("version {version}, {number} less one");
            finds(tally, &name, &file, (0, &text(r"\D2")), pair);
        }
    }
    // XP of no bytes is 0; its number comes behind the end step.
    let file = |stored| with_volumes(17, &[r"\V"], &[r"\V"], stored);
    for stored in 0..=8 {
        finds(tally, "XP of nothing", &file(stored), (0, &[]), Some((0, stored.into())));
    }
    for stored in [9, u32::MAX] {
        finds(tally, "XP of nothing, past it", &file(stored), (0, &[]), None);
    }
}

/// The unit 0x0141 is one hash above 0x0041 where it is the last but for eight
/// bits; so names differ by one in their numbers.
fn first_and_least(tally: &mut Tally) {
    for version in [23, 26, 30] {
        let low = hash(version, r"\D\A");
        let (a, b) = (r"\V\A", "\\V\\\u{141}");
        let start = text(r"\D");
        let cases: [(&[&str], u32, Option<(u64, u64)>); 8] = [
            (&[a, b], 0, Some((0, 0))),
            (&[a, b], 1, Some((1, 0))),
            (&[b, a], 1, Some((0, 0))),
            (&[a, b], 8, Some((1, 7))),
            (&[a, b], 9, Some((1, 8))),
            (&[a, a, b, b], 1, Some((2, 0))),
            (&["X", a, a], 3, Some((1, 3))),
            // The same rest behind another path takes no part.
            (&[r"\W\A", r"\V0\A", a], 0, Some((2, 0))),
        ];
        for (names, more, pair) in cases {
            let file = with_volumes(version, names, &[r"\V"], low.wrapping_add(more));
            finds(tally, &format!("{names:?} and {more}"), &file, (0, &start), pair);
        }
    }
}

/// Nothing or a backslash has to follow the path.
fn what_follows(tally: &mut Tally) {
    let start = r"\DEVICE\HARDDISKVOLUME2";
    let rests = [
        ("", true),
        (r"\", true),
        (r"\A", true),
        (r"\\A", true),
        ("0", false),
        ("/A", false),
        ("A", false),
        ("\u{15C}", false),
        ("\u{5C00}", false),
        ("\u{5C5C}A", false),
        ("\u{1}", false),
    ];
    for version in VERSIONS {
        for (rest, takes_part) in rests {
            let stored = hash(version, &format!("{start}{rest}"));
            let name = format!("{NAMED}{rest}");
            let file = with_volumes(version, &[&name], &[NAMED], stored);
            let case = format!("version {version}, {rest:?} behind the path");
            finds(tally, &case, &file, (0, &text(start)), takes_part.then_some((0, 0)));
        }
    }
}

fn volumes_one_and_ten(tally: &mut Tally) {
    let (one, ten) = (r"\DEVICE\HARDDISKVOLUME1", r"\DEVICE\HARDDISKVOLUME10");
    let name = format!(r"{ten}\A.EXE");
    for version in VERSIONS {
        // What the rest behind the shorter path would give.
        let of_one = with_volumes(version, &[&name], &[one, ten], hash(version, r"\D0\A.EXE"));
        finds(tally, "volume 1 and a name of 10", &of_one, (0, &text(r"\D")), None);
        let of_ten = with_volumes(version, &[&name], &[one, ten], hash(version, r"\D\A.EXE"));
        finds(tally, "volume 10", &of_ten, (1, &text(r"\D")), Some((0, 0)));
        finds(tally, "volume 1, the other's hash", &of_ten, (0, &text(r"\D")), None);
        let own = with_volumes(version, &[&name], &[one, ten], hash(version, &name));
        finds(tally, "volume 10 from its own path", &own, (1, &text(ten)), Some((0, 0)));
        finds(tally, "volume 1 from the path of 10", &own, (0, &text(ten)), None);
        // 1 with a 0 in the start makes the same path.
        finds(tally, "volume 1 from its own path", &own, (0, &text(one)), None);
        for i in [2, 3, 1 << 32, (1 << 32) + 1, u64::MAX] {
            finds(tally, "no such volume", &of_ten, (i, &text(r"\D")), None);
        }
    }
}

/// Every length of a start, odd ones and none, with bytes of every kind.
fn starts_of_any_length(tally: &mut Tally) {
    let long: Vec<u8> = (0..2_100u32).map(|i| (i * i + i / 3) as u8).collect();
    for version in VERSIONS {
        for length in (0..40).chain([1_023, 1_024, 1_025, 2_099]) {
            let start = &long[..length];
            for rest in ["", r"\A", r"\ABCDEFGHIJ"] {
                let joined = [start, &text(rest)].concat();
                let stored = hash_of(version, &bytes(&joined));
                let name = format!(r"\V{rest}");
                let file = with_volumes(version, &[&name], &[r"\V"], stored);
                let case = format!("version {version}, a start of {length}, {rest:?}");
                finds(tally, &case, &file, (0, start), Some((0, 0)));
            }
        }
    }
}

/// A path has at least one unit before its first zero.
fn paths(tally: &mut Tally) {
    let start = text(r"\D");
    for version in VERSIONS {
        let stored = hash(version, r"\D\A");
        let file = with_volumes(version, &[r"\V\A"], &[r"\V"], stored);
        let volumes = file.len() - volume_entry(version) as usize - 6;
        let path = file.len() - 6;
        let with = |change: &dyn Fn(&mut Vec<u8>)| {
            let mut changed = file.clone();
            change(&mut changed);
            changed
        };
        finds(tally, "a path of two", &file, (0, &start), Some((0, 0)));
        let ended = with(&|file| set_32(file, volumes + 4, 3));
        finds(tally, "with its zero counted", &ended, (0, &start), Some((0, 0)));
        let none = with(&|file| set_32(file, volumes + 4, 0));
        finds(tally, "a path of count 0", &none, (0, &start), None);
        let zero = with(&|file| set_16(file, path, 0));
        finds(tally, "a path that begins with a zero", &zero, (0, &start), None);
        let shorter = with(&|file| set_32(file, volumes + 4, 1));
        finds(tally, "a path of one, V behind it", &shorter, (0, &start), None);
        // A name of nothing has no path of at least one unit in front.
        let stored = hash(version, r"\D");
        let file = with_volumes(version, &[""], &[""], stored);
        finds(tally, "nothing in nothing", &file, (0, &start), None);
        // Of a path and a name of one backslash: nothing follows.
        let file = with_volumes(version, &[r"\"], &[r"\"], stored);
        finds(tally, "one backslash", &file, (0, &start), Some((0, 0)));
        let file = with_volumes(version, &[r"\\A"], &[r"\"], hash(version, r"\D\A"));
        finds(tally, "two backslashes", &file, (0, &start), Some((0, 0)));
        let file = with_volumes(version, &[r"\A"], &[r"\"], hash(version, r"\DA"));
        finds(tally, "a path that ends in a backslash", &file, (0, &start), None);
    }
}

/// A fault of that volume's references or directories, and of the head; the
/// other volume's faults play no part.
fn volumes_not_shown(tally: &mut Tally) {
    let start = text(r"\D");
    for version in VERSIONS {
        let stored = hash(version, r"\D\A");
        let file = with_volumes(version, &[r"\V\A"], &[r"\V", r"\V"], stored);
        let entry = volume_entry(version) as usize;
        let volumes = file.len() - 2 * entry - 12;
        let changed = |at: usize, number: u32| {
            let mut file = file.clone();
            set_32(&mut file, at, number);
            file
        };
        for (name, field) in [("references", 24), ("directories", 32), ("path", 4)] {
            let file = changed(volumes + field, u32::MAX);
            finds(tally, &format!("{name} outside"), &file, (0, &start), None);
            finds(tally, &format!("{name} of the other"), &file, (1, &start), Some((0, 0)));
        }
        let too_many = changed(112, 99);
        finds(tally, "check 8", &too_many, (0, &start), None);
        finds(tally, "check 3", &changed(12, 100), (0, &start), None);
        finds(tally, "check 1", &changed(0, 24), (0, &start), None);
    }
}

/// The whole volumes section has to be there, and the entry with its name.
fn prefixes(tally: &mut Tally) {
    let start = text(r"\D");
    for version in VERSIONS {
        let stored = hash(version, r"\D\A");
        let mut file = with_volumes(version, &[r"\V\A", r"\V\A"], &[r"\V"], stored);
        let end = file.len();
        finds(tally, "whole", &file, (0, &start), Some((0, 0)));
        finds(tally, "a byte short", &file[..end - 1], (0, &start), None);
        file.push(0);
        finds(tally, "a byte past S", &file, (0, &start), Some((0, 0)));
        // The first name unsound: the second counts, by its index in the file.
        let strings = u32::from_le_bytes(file[100..104].try_into().expect("four bytes")) as usize;
        set_16(&mut file, strings + 2, 0);
        finds(tally, "the first can't be shown", &file, (0, &start), Some((1, 0)));
        // The strings behind the volumes, so that the last name can be cut.
        let file = swapped(version, stored);
        let end = file.len();
        finds(tally, "swapped", &file, (0, &start), Some((0, 0)));
        finds(tally, "without the last name's end", &file[..end - 1], (0, &start), Some((1, 0)));
        finds(tally, "without either", &file[..end - 11], (0, &start), None);
    }
}

/// Entry 0 has the last name, and the strings stand behind the volumes.
fn swapped(version: u32, stored: u32) -> Vec<u8> {
    let mut file = with_volumes(version, &[r"\V\A", r"\V\A"], &[r"\V"], stored);
    let number = |file: &[u8], at: usize| {
        u32::from_le_bytes(file[at..at + 4].try_into().expect("four bytes")) as usize
    };
    let (metrics, strings, bytes) = (number(&file, 84), number(&file, 100), number(&file, 104));
    let text = file[strings..strings + bytes].to_vec();
    let end = file.len() as u32;
    file.extend(text);
    let size = file.len() as u32;
    set_32(&mut file, 12, size);
    set_32(&mut file, 100, end);
    let name = if version == 17 { 8 } else { 12 };
    let entry = if version == 17 { 20 } else { 32 };
    set_32(&mut file, metrics + name, 10);
    set_32(&mut file, metrics + entry + name, 0);
    file
}

fn null_pointers(tally: &mut Tally) {
    let given = unsafe { raw::hs_find_path_from(null(), 0, 0, null(), 0, null_mut(), 0) };
    tally.named("search from another start, null", &0, &given);
    let file = with_volumes(17, &[r"\V"], &[r"\V"], 0);
    let given =
        unsafe { raw::hs_find_path_from(file.as_ptr(), file.len(), 0, null(), 0, null_mut(), 0) };
    tally.named("no start and no out", &1, &given);
}
