//! Queries on small files put together by hand, with answers by hand.

use crate::generate::bare::{bare, trace_entry, with_links, with_names, with_path, HEADS};
use crate::generate::{set_16, set_32};
use crate::reference::layout::END;
use crate::reference::{queries, search};
use crate::tally::Tally;
use hivesaddle::raw;
use hivesaddle::{
    entry_name, find_path, list_paths, list_paths_alloc, places, program_name, read_file_alloc,
    reference, volume, FileContents, Refusal,
};
use std::ptr::{null, null_mut};

pub fn run(tally: &mut Tally) {
    numbers_of_places(tally);
    most_places(tally);
    places_allocated(tally);
    program_names(tally);
    entry_names(tally);
    paths(tally);
    notepad(tally);
    high_bytes(tally);
    numbers_of_a_name(tally);
    numbers_of_names(tally);
    hashes_that_wrap(tally);
    path_on_a_prefix(tally);
    checks_that_play_no_part(tally);
    volumes(tally);
    null_pointers(tally);
}

/// The library and the reference both have to give the number.
fn needs(tally: &mut Tally, name: &str, file: &[u8], number: Option<u64>) {
    tally.named(name, &number, &places(file).map(|places| places as u64));
    tally.named(name, &number, &queries::places(file));
}

/// Three trace entries right behind the head, up to S.
fn with_three(version: u32) -> Vec<u8> {
    let bytes = 3 * trace_entry(version);
    let mut file = bare(version, bytes);
    let head_end = file.len() as u32 - bytes;
    set_32(&mut file, 92, head_end);
    set_32(&mut file, 96, 3);
    file
}

/// So many, or none in version 30, whose trace entries have no next index.
fn slots(version: u32, entries: u64) -> Option<u64> {
    Some(if version == 30 { 0 } else { entries })
}

fn numbers_of_places(tally: &mut Tally) {
    for (version, head_end) in HEADS {
        let file = with_three(version);
        let cut = head_end as usize;
        let (two, three) = (slots(version, 2), slots(version, 3));
        needs(tally, "a section that ends at S", &file, three);
        needs(tally, "H bytes", &file[..cut], three);
        needs(tally, "a byte short of H", &file[..cut - 1], None);
        needs(tally, "no bytes", &[], None);
        // Entries of 12 bytes: 8 past 2 to the 32; of 8: 8 past.
        let wrapping = if version == 30 { 536_870_913 } else { 357_913_942 };
        let trace_fields: [(&str, usize, u32, Option<u64>); 10] = [
            ("an entry past S", 96, 4, None),
            ("a section that ends at S + 1", 92, head_end + 1, None),
            ("a section that starts at H - 1", 92, head_end - 1, None),
            ("two entries, at H", 96, 2, two),
            ("a trace count of 0", 96, 0, Some(0)),
            ("a product past 32 bits", 96, wrapping, None),
            ("the greatest count", 96, u32::MAX, None),
            ("a size below H", 12, head_end - 1, None),
            ("a size past the limit", 12, 67_108_865, None),
            ("a size at the limit", 12, 67_108_864, three),
        ];
        for (name, field, number, expected) in trace_fields {
            let mut file = with_three(version);
            set_32(&mut file, field, number);
            needs(tally, name, &file, expected);
        }
        others_of_places(tally, version, head_end);
    }
}

/// The other checks: 1 to 6 of any field count, 7 and later do not.
fn others_of_places(tally: &mut Tally, version: u32, head_end: u32) {
    let three = slots(version, 3);
    let mut file = with_three(version);
    set_32(&mut file, 112, u32::MAX);
    needs(tally, "check 8 plays no part", &file, three);
    set_32(&mut file, 100, head_end + 3 * trace_entry(version) - 1);
    set_32(&mut file, 104, 1);
    needs(tally, "a byte shared with the strings", &file, None);
    set_32(&mut file, 96, 0);
    needs(tally, "and none shared with no entries", &file, Some(0));
    set_32(&mut file, 104, 2);
    needs(tally, "strings past S", &file, None);
    let mut file = with_three(version);
    file.push(0);
    needs(tally, "a byte past S", &file, three);
    file[4] = b's';
    needs(tally, "check 2", &file, None);
    let mut file = with_three(version);
    set_32(&mut file, 0, version + 1);
    needs(tally, "check 1", &file, None);
    let mut file = with_three(version);
    for place in 0..30 {
        set_16(&mut file, 16 + 2 * place, 65);
    }
    needs(tally, "check 4", &file, None);
}

/// The head of the largest file: 67,108,716 bytes behind 148, 12 for each.
fn most_places(tally: &mut Tally) {
    let mut file = bare(17, 0);
    set_32(&mut file, 12, 67_108_864);
    set_32(&mut file, 92, 148);
    set_32(&mut file, 96, 5_592_393);
    needs(tally, "the most that can be", &file, Some(5_592_393));
    let contents = read_file_alloc(&file);
    tally.named("the most, on a head alone", &refused(16, 0, 12), &contents);
    set_32(&mut file, 96, 5_592_394);
    needs(tally, "one more than can be", &file, None);
    tally.named("one more, read", &refused(5, 2, 92), &read_file_alloc(&file));
}

fn places_allocated(tally: &mut Tally) {
    let contents = |links: &[u32]| read_file_alloc(&with_links(links));
    let table = |contents: FileContents| contents.predecessors;
    let sound: [(&[u32], &[u32]); 3] =
        [(&[], &[]), (&[END], &[END]), (&[3, END, END, 1], &[END, 3, END, 0])];
    for (links, predecessors) in sound {
        let name = format!("links {links:?}, slots allocated");
        tally.named(&name, &Ok(predecessors.to_vec()), &contents(links).map(table));
        let count = contents(links).map(|contents| contents.record.trace_count as usize);
        tally.named(&name, &Ok(links.len()), &count);
    }
    tally.named("a cycle, slots allocated", &refused(13, 0, 148), &contents(&[1, 0]));
    let mut file = with_links(&[END, END]);
    file.push(0);
    tally.named("too long, slots allocated", &refused(17, 0, 12), &read_file_alloc(&file));
    let cut = read_file_alloc(&file[..171]);
    tally.named("too short, slots allocated", &refused(16, 0, 12), &cut);
    tally.named("nothing, slots allocated", &refused(16, 0, 12), &read_file_alloc(&[]));
}

fn refused(number: u32, index: u64, offset: u64) -> Result<FileContents, Refusal> {
    Err(Refusal { number, index, offset })
}

fn program_names(tally: &mut Tally) {
    let mut file = with_names(17, &[], b"");
    tally.named("an empty name", &Some(&b""[..]), &program_name(&file));
    for place in 0..29 {
        set_16(&mut file, 16 + 2 * place, 0xD800);
    }
    let name = [0x00, 0xD8].repeat(29);
    tally.named("29 lone surrogates", &Some(&name[..]), &program_name(&file));
    tally.named("76 bytes", &Some(&name[..]), &program_name(&file[..76]));
    tally.named("75 bytes", &None, &program_name(&file[..75]));
    // Checks past 4 play no part.
    set_32(&mut file, 104, 1);
    tally.named("a section outside", &Some(&name[..]), &program_name(&file));
    set_16(&mut file, 16 + 58, 1);
    tally.named("30 units", &None, &program_name(&file));
}

fn entry_names(tally: &mut Tally) {
    for version in [17, 23, 26, 30] {
        let file = with_names(version, &[(0, 1), (4, 2), (2, 0), (1, 0)], b"A\0\0\0B\0C\0\0\0");
        tally.named("entry 0", &Some(&b"A\0"[..]), &entry_name(&file, 0));
        tally.named("entry 1", &Some(&b"B\0C\0"[..]), &entry_name(&file, 1));
        tally.named("entry 2, empty", &Some(&b""[..]), &entry_name(&file, 2));
        tally.named("entry 3, empty", &Some(&b""[..]), &entry_name(&file, 3));
        tally.named("no entry 4", &None, &entry_name(&file, 4));
        tally.named("no entry 2 to the 32", &None, &entry_name(&file, 1 << 32));
        tally.named("no last entry", &None, &entry_name(&file, u64::MAX));
        let end = file.len();
        tally.named("without its zero", &None, &entry_name(&file[..end - 1], 1));
        tally.named("the other", &Some(&b"A\0"[..]), &entry_name(&file[..end - 6], 0));
        tally.named("the other, cut", &None, &entry_name(&file[..end - 7], 0));
    }
}

/// The library and the reference both have to find that entry with number 0,
/// or none.
fn finds(tally: &mut Tally, name: &str, file: &[u8], entry: Option<u64>) {
    finds_first(tally, name, file, entry.map(|entry| (entry as u32, 0)));
}

/// The same with that number.
fn finds_first(tally: &mut Tally, name: &str, file: &[u8], pair: Option<(u32, u32)>) {
    let given = find_path(file).map(|found| (found.entry as u32, found.number));
    tally.named(name, &pair, &given);
    let own = search::find_path(file).map(|found| (found.entry as u32, found.number as u32));
    tally.named(name, &pair, &own);
}

/// The library and the reference both have to find the first of these pairs
/// and to list all of them, the library into lists of every length.
fn finds_all(tally: &mut Tally, name: &str, file: &[u8], pairs: &[(u32, u32)]) {
    finds_first(tally, name, file, pairs.first().copied());
    let own = search::list_paths(file);
    let own: Vec<(u32, u32)> = own.iter().map(|f| (f.entry as u32, f.number as u32)).collect();
    tally.named(name, pairs, &own[..]);
    let given = list_paths_alloc(file);
    let given: Vec<(u32, u32)> = given.iter().map(|f| (f.entry as u32, f.number)).collect();
    tally.named(name, pairs, &given[..]);
    let numbers: Vec<u32> = pairs.iter().flat_map(|&(entry, number)| [entry, number]).collect();
    for length in 0..=numbers.len() + 3 {
        let mut list = vec![77; length];
        let count = list_paths(file, &mut list);
        let mut expected = vec![77; length];
        let fitting = numbers.len().min(length / 2 * 2);
        expected[..fitting].copy_from_slice(&numbers[..fitting]);
        let name = format!("{name}, {length} numbers");
        tally.named(&name, &(pairs.len() as u64, expected), &(count, list));
    }
}

const XP_A: u32 = 361202151;
const VISTA_A: u32 = 430086076;
const VISTA_AB: u32 = 377320934;

/// The same taken over units.
const UNITS_XP_A: u32 = 54483988;
const UNITS_VISTA_A: u32 = 11623948;
const UNITS_VISTA_AB: u32 = 430086142;

fn paths(tally: &mut Tally) {
    let strings = b"A\0\0\0A\0B\0\0\0";
    let names = [(4, 2), (0, 1), (0, 1)];
    let cases = [
        (17, XP_A, Some(1)),
        (17, VISTA_A, None),
        (17, UNITS_XP_A, None),
        (23, VISTA_A, Some(1)),
        (23, VISTA_AB, Some(0)),
        (23, XP_A, None),
        (23, UNITS_VISTA_A, None),
        (23, UNITS_VISTA_AB, None),
        (26, VISTA_A, Some(1)),
        (26, VISTA_AB, Some(0)),
        (26, XP_A, None),
        (26, UNITS_VISTA_A, None),
        (26, UNITS_VISTA_AB, None),
        (30, VISTA_A, Some(1)),
        (30, VISTA_AB, Some(0)),
        (30, XP_A, None),
        (30, UNITS_VISTA_A, None),
        (30, UNITS_VISTA_AB, None),
    ];
    for (version, stored_hash, entry) in cases {
        let mut file = with_names(version, &names, strings);
        set_32(&mut file, 76, stored_hash);
        finds(tally, &format!("version {version}, stored hash {stored_hash}"), &file, entry);
    }
    // Of no bytes: XP gives 0, the others their start.
    for (version, stored_hash) in [(17, 0), (23, 314159), (26, 314159), (30, 314159)] {
        finds(tally, "an empty name", &with_path(version, "", stored_hash), Some(0));
    }
}

/// The example of source document 000 for XP. For the other versions it has
/// none: theirs are from its functions, run over the bytes of the path.
fn notepad(tally: &mut Tally) {
    let first = r"\DEVICE\HARDDISKVOLUME1\WINDOWS\NOTEPAD.EXE";
    let second = r"\DEVICE\HARDDISKVOLUME2\WINDOWS\NOTEPAD.EXE";
    let cases = [
        (17, first, 0x189578DA, Some(0)),
        (17, second, 0x189578DA, None),
        (23, first, 0x3D2AFDB4, Some(0)),
        (23, second, 0x86E0E9B9, Some(0)),
        (26, first, 0x3D2AFDB4, Some(0)),
        (26, second, 0x86E0E9B9, Some(0)),
        (30, first, 0x3D2AFDB4, Some(0)),
        (30, second, 0x86E0E9B9, Some(0)),
        (30, first, 0x189578DA, None),
        // Over its units.
        (17, first, 0x39B1CF75, None),
        (23, first, 0xCDEC1644, None),
        (26, first, 0xCDEC1644, None),
        (30, first, 0xCDEC1644, None),
    ];
    for (version, path, stored_hash, entry) in cases {
        let name = format!("version {version}, {path}, {stored_hash:08X}");
        finds(tally, &name, &with_path(version, path, stored_hash), entry);
    }
}

/// A byte of 128 and above counts as it stands. As a signed one it would give
/// the second hash, which must not be found.
fn high_bytes(tally: &mut Tally) {
    let cases = [
        (17, 757305720, 61565560),
        (23, 430092292, 430082820),
        (26, 430092292, 430082820),
        (30, 430092292, 430082820),
    ];
    for (version, unsigned, signed) in cases {
        let name = format!("version {version}, E9 00");
        finds(tally, &name, &with_path(version, "\u{E9}", unsigned), Some(0));
        finds(tally, &name, &with_path(version, "\u{E9}", signed), None);
    }
}

/// From 0 to 8 above the hash, and not 9 or one below.
fn numbers_of_a_name(tally: &mut Tally) {
    for (version, hash) in [(17, XP_A), (23, VISTA_A), (26, VISTA_A), (30, VISTA_A)] {
        let file = |stored_hash| with_path(version, "A", stored_hash);
        for number in 0..=8 {
            let name = format!("version {version}, number {number}");
            finds_all(tally, &name, &file(hash + number), &[(0, number)]);
        }
        for stored_hash in [hash - 1, hash + 9, hash + 256, hash ^ 1 << 31] {
            let name = format!("version {version}, no number for {stored_hash}");
            finds_all(tally, &name, &file(stored_hash), &[]);
        }
    }
}

/// The last byte of a name counts once in Vista and 2008, so the unit 0x0n41
/// has the hash of "A" plus n. Names of one unit each, by n.
fn with_steps(version: u32, steps: &[u8], stored_hash: u32) -> Vec<u8> {
    let strings: Vec<u8> = steps.iter().flat_map(|&n| [0x41, n, 0, 0]).collect();
    let names: Vec<(u32, u32)> = (0..steps.len() as u32).map(|i| (4 * i, 1)).collect();
    let mut file = with_names(version, &names, &strings);
    set_32(&mut file, 76, stored_hash);
    file
}

fn numbers_of_names(tally: &mut Tally) {
    for (version, head_end) in [HEADS[1], HEADS[2], HEADS[3]] {
        // Equal names, the least number at neither end, and one past the hash.
        let file = with_steps(version, &[3, 0, 5, 3, 9, 5], VISTA_A + 8);
        let pairs = [(2, 3), (5, 3), (0, 5), (3, 5), (1, 8)];
        finds_all(tally, "several numbers", &file, &pairs);
        // Each entry one less than the one before, from 9 on.
        let file = with_steps(version, &[0, 1, 2, 3, 4, 5, 6, 7, 8, 9], VISTA_A + 9);
        let pairs = [(9, 0), (8, 1), (7, 2), (6, 3), (5, 4), (4, 5), (3, 6), (2, 7), (1, 8)];
        finds_all(tally, "every number, falling", &file, &pairs);
        let file = with_steps(version, &[4, 4, 4], VISTA_A + 5);
        finds_all(tally, "three equal names", &file, &[(0, 1), (1, 1), (2, 1)]);
        // What can't be shown is passed over in the list too.
        let file = with_steps(version, &[2, 1, 2], VISTA_A + 2);
        finds_all(tally, "all three", &file, &[(0, 0), (2, 0), (1, 1)]);
        let end = file.len();
        finds_all(tally, "without the last", &file[..end - 1], &[(0, 0), (1, 1)]);
        finds_all(tally, "the first alone", &file[..end - 5], &[(0, 0)]);
        finds_all(tally, "no name", &file[..end - 9], &[]);
        finds_all(tally, "a byte short of H", &file[..head_end as usize - 1], &[]);
    }
    numbers_of_names_in_xp(tally);
}

/// XP's number comes behind its end step. Both texts of eight bytes have a
/// hash of one less than "A", the second by a number that the end step makes
/// positive.
fn numbers_of_names_in_xp(tally: &mut Tally) {
    let eights = [
        [0x57, 0x01, 0x06, 0x0B, 0x0D, 0x1D, 0x1F, 0x18],
        [0xE9, 0x02, 0x08, 0x01, 0x22, 0x16, 0x0A, 0x20],
    ];
    for eight in eights {
        let mut strings = eight.to_vec();
        strings.extend(b"\0\0A\0\0\0");
        let mut file = with_names(17, &[(0, 4), (10, 1)], &strings);
        set_32(&mut file, 76, XP_A - 1);
        finds_all(tally, "XP, one less", &file, &[(0, 0)]);
        set_32(&mut file, 76, XP_A);
        finds_all(tally, "XP, 0 and 1", &file, &[(1, 0), (0, 1)]);
        set_32(&mut file, 76, XP_A + 8);
        finds_all(tally, "XP, 8 and 9", &file, &[(1, 8)]);
    }
    // An empty name is 0 in XP.
    finds_all(tally, "XP, 8 over nothing", &with_path(17, "", 8), &[(0, 8)]);
    finds_all(tally, "XP, one below nothing", &with_path(17, "", u32::MAX), &[]);
}

/// The hash of these eight bytes is 4294967293, so that a number of 3 and more
/// goes past 32 bits.
fn hashes_that_wrap(tally: &mut Tally) {
    let strings = [0x57, 0x02, 0x02, 0x1B, 0x01, 0x23, 0x1F, 0x19, 0, 0];
    let cases = [
        (u32::MAX - 3, None),
        (u32::MAX - 2, Some(0)),
        (u32::MAX, Some(2)),
        (0, Some(3)),
        (1, Some(4)),
        (5, Some(8)),
        (6, None),
    ];
    for version in [23, 26, 30] {
        for (stored_hash, number) in cases {
            let mut file = with_names(version, &[(0, 4)], &strings);
            set_32(&mut file, 76, stored_hash);
            let pairs: Vec<(u32, u32)> = number.map(|number| (0, number)).into_iter().collect();
            finds_all(tally, &format!("wrapping to {stored_hash}"), &file, &pairs);
        }
    }
}

/// Entries that can't be shown on the bytes there are are passed over.
fn path_on_a_prefix(tally: &mut Tally) {
    let mut file = with_names(17, &[(4, 1), (0, 1), (9, 1)], b"A\0\0\0A\0\0\0?");
    set_32(&mut file, 76, XP_A);
    let end = file.len();
    finds(tally, "whole", &file, Some(0));
    finds(tally, "the last byte is no name's", &file[..end - 1], Some(0));
    finds(tally, "the first can't be shown", &file[..end - 2], Some(1));
    finds(tally, "just the second", &file[..end - 5], Some(1));
    finds(tally, "neither", &file[..end - 6], None);
    // An unsound name is passed over too.
    let zero = end - 3;
    set_16(&mut file, zero, 1);
    finds(tally, "the first is unsound", &file, Some(1));
    set_32(&mut file, 12, 1);
    finds_all(tally, "check 3", &file, &[]);
}

/// Check 8, damaged trace entries and other entries' names.
fn checks_that_play_no_part(tally: &mut Tally) {
    let mut file = with_names(17, &[(99, 1), (0, 1)], b"A\0\0\0");
    set_32(&mut file, 76, XP_A);
    set_32(&mut file, 112, 5);
    tally.named("beside 8 and 9", &Some(&b"A\0"[..]), &entry_name(&file, 1));
    tally.named("entry 0 itself", &None, &entry_name(&file, 0));
    finds(tally, "search beside 8 and 9", &file, Some(1));
}

/// Three volumes: a path with a zero unit inside and two references; one with
/// a fault; an empty one.
fn with_volumes() -> Vec<u8> {
    let mut file = with_names(17, &[], b"");
    let start = file.len();
    file.resize(start + 120, 0);
    file.extend(b"C\0\0\0D\0");
    file.extend(b"????\x02\0\0\0");
    file.extend([1, 2, 3, 4, 5, 6, 7, 8, 255, 255, 255, 255, 255, 255, 255, 255]);
    let size = (file.len() - start) as u32;
    set_32(&mut file, 108, start as u32);
    set_32(&mut file, 112, 3);
    set_32(&mut file, 116, size);
    for (field, number) in [(0, 120), (4, 3), (8, 9), (12, 1), (16, u32::MAX), (20, 126), (24, 24)]
    {
        set_32(&mut file, start + field, number);
    }
    set_32(&mut file, start + 40 + 4, size);
    set_32(&mut file, start + 80 + 16, 7);
    let length = file.len() as u32;
    set_32(&mut file, 12, length);
    file
}

fn volumes(tally: &mut Tally) {
    let mut file = with_volumes();
    let shown = volume(&file, 0).map(|volume| {
        (volume.creation_time, volume.serial_number, volume.references, volume.directories)
    });
    tally.named("volume 0", &Some((1 << 32 | 9, u32::MAX, 2, 0)), &shown);
    let path = volume(&file, 0).map(|volume| volume.path);
    tally.named("its path up to the zero", &Some(&b"C\0"[..]), &path);
    tally.named("volume 1 has a fault", &None, &volume(&file, 1));
    let path = volume(&file, 2).map(|volume| (volume.serial_number, volume.path));
    tally.named("volume 2, no path", &Some((7, &b""[..])), &path);
    tally.named("no volume 3", &None, &volume(&file, 3));
    tally.named("no volume 2 to the 32", &None, &volume(&file, 1 << 32));
    references(tally, &file);
    let end = file.len();
    tally.named("a byte short", &None, &volume(&file[..end - 1], 0));
    tally.named("a byte short, 2", &None, &volume(&file[..end - 1], 2));
    // 150 bytes hold three entries of 40 and not four.
    set_32(&mut file, 112, 4);
    tally.named("check 8", &None, &volume(&file, 0));
}

fn references(tally: &mut Tally, file: &[u8]) {
    let shown = |i, k| {
        reference(file, i, k).map(|reference| (reference.entry_index, reference.sequence_number))
    };
    tally.named("reference 0", &Some((0x0605_0403_0201, 0x0807)), &shown(0, 0));
    tally.named("reference 1", &Some((0xFFFF_FFFF_FFFF, 0xFFFF)), &shown(0, 1));
    tally.named("no reference 2", &None, &shown(0, 2));
    tally.named("no reference 2 to the 32", &None, &shown(0, 1 << 32));
    tally.named("no reference 2 to the 61", &None, &shown(0, 1 << 61));
    tally.named("none in a faulty volume", &None, &shown(1, 0));
    tally.named("none in an empty volume", &None, &shown(2, 0));
}

fn null_pointers(tally: &mut Tally) {
    unsafe {
        let (file, out) = (null(), null_mut());
        tally.named("places, null", &0, &raw::hs_places(file, 0, out, 0));
        tally.named("program name, null", &0, &raw::hs_program_name(file, 0, out, 0));
        tally.named("entry name, null", &0, &raw::hs_entry_name(file, 0, 0, out, 0));
        tally.named("volume, null", &0, &raw::hs_volume(file, 0, 0, out, 0));
        tally.named("reference, null", &0, &raw::hs_reference(file, 0, 0, 0, out, 0));
        tally.named("path search, null", &0, &raw::hs_find_path(file, 0, out, 0));
        tally.named("list of paths, null", &0, &raw::hs_list_paths(file, 0, null_mut(), 0));
    }
}
