//! Lists of a volume and references of entries, with answers by hand.

use super::volume_lists::{directory_pair, reference_pair};
use crate::generate::bare::{one_volume_of, volume_entry, with_names, HEADS};
use crate::generate::{set_16, set_32};
use crate::reference::queries;
use crate::reference::volume_lists;
use crate::tally::Tally;
use hivesaddle::{directories_into, entry_reference, raw, references_into, EntryReference};
use std::ptr::{null, null_mut};

pub fn run(tally: &mut Tally) {
    interface(tally);
    directories_by_hand(tally);
    directories_over_the_entry(tally);
    longest_directory(tally);
    references_by_hand(tally);
    volumes_not_shown(tally);
    entry_references(tally);
    null_pointers(tally);
}

fn interface(tally: &mut Tally) {
    tally.named("the interface's number", &1, &unsafe { raw::hs_interface() });
    tally.named("the header's", &1, &raw::HS_INTERFACE);
    tally.named("the safe call", &hivesaddle::INTERFACE, &hivesaddle::interface());
}

/// The library, into lists of every length, and the reference both have to list
/// these.
fn lists_directories(tally: &mut Tally, name: &str, file: &[u8], i: u64, pairs: &[[u32; 2]]) {
    let own: Vec<_> = volume_lists::directories(file, i).iter().map(directory_pair).collect();
    tally.named(name, pairs, &own[..]);
    for length in 0..=2 * pairs.len() + 3 {
        let mut list = vec![77; length];
        let count = directories_into(file, i, &mut list);
        let name = format!("{name}, {length} numbers");
        tally.named(&name, &(pairs.len() as u64, fitting(pairs, length)), &(count, list));
    }
}

fn lists_references(tally: &mut Tally, name: &str, file: &[u8], i: u64, pairs: &[[u64; 2]]) {
    let own: Vec<_> = volume_lists::references(file, i).iter().map(reference_pair).collect();
    tally.named(name, pairs, &own[..]);
    for length in 0..=2 * pairs.len() + 3 {
        let mut list = vec![77; length];
        let count = references_into(file, i, &mut list);
        let name = format!("{name}, {length} numbers");
        tally.named(&name, &(pairs.len() as u64, fitting(pairs, length)), &(count, list));
    }
}

/// As many whole pairs as fit, in a list that held 77 all over.
fn fitting<T: Copy + From<u8>>(pairs: &[[T; 2]], length: usize) -> Vec<T> {
    let mut list: Vec<T> = pairs.iter().take(length / 2).flatten().copied().collect();
    list.resize(length, T::from(77));
    list
}

/// "C", nothing, "D" with a zero unit inside, and nothing at the section's end.
fn directories_by_hand(tally: &mut Tally) {
    let data = b"\x01\0C\0\0\0\0\0\0\0\x03\0D\0\0\0E\0\0\0\0\0\0\0";
    for (version, head_end) in HEADS {
        let entry = volume_entry(version);
        let at = head_end + entry;
        let all = [[at + 2, 1], [at + 8, 0], [at + 12, 3], [at + 22, 0]];
        for count in 0..=4 {
            let file = one_volume_of(version, [0, 0, 0, 0, entry, count], data);
            let name = format!("version {version}, {count} directories");
            lists_directories(tally, &name, &file, 0, &all[..count as usize]);
            lists_references(tally, &name, &file, 0, &[]);
            if count > 0 {
                let cut = &file[..file.len() - 1];
                lists_directories(tally, "a byte short", cut, 0, &[]);
            }
        }
        let file = one_volume_of(version, [0, 0, 0, 0, entry, 5], data);
        lists_directories(tally, "one more than there are", &file, 0, &[]);
        // The high byte of "C" is the low one of a length.
        let file = one_volume_of(version, [0, 0, 0, 0, entry + 3, 1], data);
        lists_directories(tally, "an empty one at an odd place", &file, 0, &[[at + 5, 0]]);
        let file = one_volume_of(version, [0, 0, 0, 0, u32::MAX, 0], data);
        lists_directories(tally, "with count 0 the offset is ignored", &file, 0, &[]);
    }
}

/// A volume entry may be read as directories: those of zeros are empty ones. The
/// ninth has the count, 9, for its length, and so many units are not there.
fn directories_over_the_entry(tally: &mut Tally) {
    let pairs: Vec<[u32; 2]> = (0..8).map(|k| [148 + 4 * k + 2, 0]).collect();
    for count in [7, 8] {
        let file = one_volume_of(17, [0, 0, 0, 0, 0, count], &[]);
        lists_directories(tally, "over the entry", &file, 0, &pairs[..count as usize]);
    }
    let file = one_volume_of(17, [0, 0, 0, 0, 0, 9], &[]);
    lists_directories(tally, "over the count", &file, 0, &[]);
}

fn longest_directory(tally: &mut Tally) {
    let mut data = vec![0x41; 4 + 2 * 65_535];
    set_16(&mut data, 0, 65_535);
    let last = data.len() - 2;
    set_16(&mut data, last, 0);
    let file = one_volume_of(17, [0, 0, 0, 0, 40, 1], &data);
    lists_directories(tally, "65,535 units", &file, 0, &[[190, 65_535]]);
}

fn references_by_hand(tally: &mut Tally) {
    let mut data = b"????\x03\0\0\0".to_vec();
    data.extend([1, 2, 3, 4, 5, 6, 7, 8]);
    data.extend([255; 8]);
    data.extend([0; 8]);
    let all = [[0x0605_0403_0201, 0x0807], [0xFFFF_FFFF_FFFF, 0xFFFF], [0, 0]];
    for (version, _) in HEADS {
        let entry = volume_entry(version);
        for count in 0..=3u32 {
            data[4] = count as u8;
            let file = one_volume_of(version, [0, 0, entry, 32, 0, 0], &data);
            let name = format!("version {version}, {count} references");
            lists_references(tally, &name, &file, 0, &all[..count as usize]);
            lists_directories(tally, &name, &file, 0, &[]);
            lists_references(tally, "a byte short", &file[..file.len() - 1], 0, &[]);
        }
        data[4] = 4;
        let file = one_volume_of(version, [0, 0, entry, 32, 0, 0], &data);
        lists_references(tally, "one more than there are", &file, 0, &[]);
        data[4] = 3;
        let file = one_volume_of(version, [0, 0, entry, 31, 0, 0], &data);
        lists_references(tally, "a size too small", &file, 0, &[]);
        let file = one_volume_of(version, [0, 0, u32::MAX, 0, 0, 0], &data);
        lists_references(tally, "size 0", &file, 0, &[]);
    }
}

/// A fault of its own, in any part of it, of the section, or no such volume.
fn volumes_not_shown(tally: &mut Tally) {
    let data = b"????\x01\0\0\0\x01\x02\x03\x04\x05\x06\x07\x08\0\0\0\0";
    let sound = [40, 1, 40, 16, 56, 1];
    let file = one_volume_of(17, sound, data);
    lists_directories(tally, "sound", &file, 0, &[[206, 0]]);
    lists_references(tally, "sound", &file, 0, &[[0x0605_0403_0201, 0x0807]]);
    for i in [1, 2, 1 << 32, 1 << 61, u64::MAX] {
        lists_directories(tally, "no such volume", &file, i, &[]);
        lists_references(tally, "no such volume", &file, i, &[]);
    }
    for (name, place, number) in [
        ("a path past the section", 1, 11),
        ("references past the section", 2, 49),
        ("references of 7 bytes", 3, 7),
        ("directories past the section", 5, 2),
        ("a directory that does not end", 4, 52),
    ] {
        let mut fields = sound;
        fields[place] = number;
        let file = one_volume_of(17, fields, data);
        lists_directories(tally, name, &file, 0, &[]);
        lists_references(tally, name, &file, 0, &[]);
    }
    for (name, field, number) in
        [("check 1", 0, 24), ("check 3", 12, 147), ("check 5", 116, 62), ("check 8", 112, 2)]
    {
        let mut damaged = file.clone();
        set_32(&mut damaged, field, number);
        lists_directories(tally, name, &damaged, 0, &[]);
        lists_references(tally, name, &damaged, 0, &[]);
    }
    // Check 7 and the names play no part.
    let mut others = file.clone();
    others.extend([0; 12]);
    for (field, number) in [(12, 220), (92, 208), (96, 1)] {
        set_32(&mut others, field, number);
    }
    lists_directories(tally, "beside a trace entry", &others, 0, &[[206, 0]]);
}

/// Both have to give that answer: none, no field, or the two numbers.
fn refers(
    tally: &mut Tally,
    name: &str,
    file: &[u8],
    i: u64,
    expected: Option<Option<(u64, u64)>>,
) {
    let given = entry_reference(file, i).map(|EntryReference { reference }| {
        reference.map(|r| (r.entry_index, u64::from(r.sequence_number)))
    });
    tally.named(name, &expected, &given);
    let own = queries::entry_reference(file, i)
        .map(|reference| reference.map(|r| (r.entry_index, r.sequence_number)));
    tally.named(name, &expected, &own);
}

fn entry_references(tally: &mut Tally) {
    for version in [17, 23, 26, 30] {
        let names = [(0, 1), (0, 1), (99, 1), (0, 1)];
        let mut file = with_names(version, &names, b"A\0\0\0");
        let (start, entry) = match version {
            17 => (148, 20),
            23 => (156, 32),
            26 => (212, 32),
            _ => (304, 32),
        };
        // Where version 17 has the entry behind, whose name must stay.
        if version != 17 {
            file[start + 24..start + 32].copy_from_slice(&[1, 2, 3, 4, 5, 6, 7, 8]);
            file[start + entry + 24..start + entry + 32].fill(255);
        }
        let field = |numbers| Some((version != 17).then_some(numbers));
        let name = format!("version {version}, entry reference");
        refers(tally, &name, &file, 0, field((0x0605_0403_0201, 0x0807)));
        refers(tally, &name, &file, 1, field((0xFFFF_FFFF_FFFF, 0xFFFF)));
        refers(tally, "a name that is none", &file, 2, None);
        refers(tally, "not set", &file, 3, field((0, 0)));
        for i in [4, 1 << 32, u64::MAX / 32 + 1, u64::MAX] {
            refers(tally, "no such entry", &file, i, None);
        }
        refers(tally, "without the name's zero", &file[..file.len() - 1], 0, None);
        let mut damaged = file.clone();
        set_32(&mut damaged, 12, 147);
        refers(tally, "check 3", &damaged, 0, None);
        // Check 8 plays no part.
        set_32(&mut file, 112, 9);
        refers(tally, "beside 8", &file, 0, field((0x0605_0403_0201, 0x0807)));
    }
}

fn null_pointers(tally: &mut Tally) {
    unsafe {
        let (file, out) = (null(), null_mut());
        tally.named("directories, null", &0, &raw::hs_directories(file, 0, 0, null_mut(), 0));
        tally.named("references, null", &0, &raw::hs_references(file, 0, 0, null_mut(), 0));
        tally.named("entry reference, null", &0, &raw::hs_entry_reference(file, 0, 0, out, 0));
    }
}
