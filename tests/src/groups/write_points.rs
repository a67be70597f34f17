//! Named points of the writer: files whose bytes are written down from the
//! papers, each refusal that can be made, the order of the checks, and the
//! sizes around the limit.

use super::reader_points::refused;
use super::writes::of_crate;
use crate::boundary::WriteOutputs;
use crate::generate::writes::{nothing, Parts};
use crate::random::Random;
use crate::reference::layout::END;
use crate::reference::readers::{read_file, Answer, Verdict};
use crate::reference::writer::{laid_out_size, write, Written};
use crate::tally::{hex, Tally};
use hivesaddle::raw::{
    hs_write_file, HS_ACCEPTED, HS_NUMBER, HS_OFFSET, HS_READER_OUT, HS_REFUSED,
};
use std::ptr::{null, null_mut};

pub fn run(random: &mut Random, tally: &mut Tally) {
    by_hand(random, tally);
    names(random, tally);
    empty_sections(random, tally);
    odd_numbers(random, tally);
    refusals(random, tally);
    order_of_checks(random, tally);
    slots_and_output(random, tally);
    out_lengths(random, tally);
    largest_files(random, tally);
    most_entries(random, tally);
    sizes_past_64_bits(tally);
    null_pointers(tally);
}

/// The library and the reference both have to give that answer.
fn check(
    random: &mut Random,
    tally: &mut Tally,
    name: &str,
    parts: &Parts,
    output_length: usize,
    written: &Written,
) {
    let outputs = WriteOutputs::new(random, HS_READER_OUT, parts.places, output_length);
    let expected = outputs.expected(written);
    tally.holds(name, expected == outputs.call(&parts.description()), || name.to_string());
    let own = write(&parts.description(), parts.places, output_length);
    tally.holds(&format!("{name}, reference"), *written == own, || name.to_string());
}

/// Every slot is filled, and nothing is written.
fn no_file(number: u64, index: u64, offset: u64, places: usize) -> Written {
    let verdict = refused(number, index, offset);
    Written { answer: Answer { verdict, predecessors: vec![END; places] }, file: None }
}

/// The file that the reference writes; what is known of it is checked apart.
fn as_reference(parts: &Parts) -> Written {
    write(&parts.description(), parts.places, usize::MAX)
}

/// Bytes from rows of hex digits.
fn bytes(rows: &str) -> Vec<u8> {
    let digits: Vec<u8> = rows.bytes().filter(u8::is_ascii_hexdigit).collect();
    let byte = |pair: &[u8]| u8::from_str_radix(std::str::from_utf8(pair).unwrap(), 16).unwrap();
    digits.chunks_exact(2).map(byte).collect()
}

/// Sixteen bytes a row.
const OF_VERSION_17: &str = "
    11000000 53434341 00000000 F0000000  41004200 00000000 00000000 00000000
    00000000 00000000 00000000 00000000  00000000 00000000 00000000 00000000
    00000000 00000000 00000000 44332211  00000000 98000000 01000000 AC000000
    02000000 C4000000 04000000 C8000000  01000000 28000000 08070605 04030201
    00000000 00000000 00000000 00000000  09000000 00000000 00000000 00000000
    00000000 01000000 00000000 01000000  05000000 00000000 FFFFFFFF 06000000
    00000000 43000000 00000000 00000000  00000000 00000000 EFBEADDE 00000000
    00000000 00000000 00000000 00000000";
const OF_VERSION_23: &str = "
    17000000 53434341 00000000 16010000  00000000 00000000 00000000 00000000
    00000000 00000000 00000000 00000000  00000000 00000000 00000000 00000000
    00000000 00000000 00000000 01000000  00000000 F0000000 01000000 10010000
    00000000 10010000 06000000 16010000  00000000 00000000 00000000 00000000
    02000000 00000000 00000000 00000000  00000000 00000000 03000000 00000000
    00000000 00000000 00000000 00000000  00000000 00000000 00000000 00000000
    00000000 00000000 00000000 00000000  00000000 00000000 00000000 00000000
    00000000 00000000 00000000 00000000  00000000 00000000 00000000 02000000
    01000000 00000000 00000000 00000000  0000 4400 0000";

/// Every section, name, and field of version 17 once.
fn of_version_17() -> Parts {
    let mut volumes = vec![0; 40];
    volumes[16..20].copy_from_slice(&0xDEAD_BEEFu32.to_le_bytes());
    Parts {
        name: vec![65, 66, 0, 67],
        stored_hash: 0x1122_3344,
        run_time: 0x0102_0304_0506_0708,
        run_count: 9,
        metrics: vec![0, 1],
        trace: vec![1, 5, END, 6],
        strings: vec![67, 0, 0, 0],
        volumes,
        volume_count: 1,
        places: 3,
        ..nothing(17)
    }
}

/// No name, no trace and no volumes, and the odd last numbers ignored.
fn of_version_23() -> Parts {
    Parts {
        stored_hash: 1,
        run_time: 2,
        run_count: 3,
        metrics: vec![2, 1, 77],
        trace: vec![78],
        strings: vec![0, 0, 68, 0, 0, 0],
        ..nothing(23)
    }
}

fn by_hand(random: &mut Random, tally: &mut Tally) {
    let cases = [
        (of_version_17(), OF_VERSION_17, vec![END, 0, END]),
        (of_version_23(), OF_VERSION_23, vec![]),
    ];
    for (parts, rows, predecessors) in cases {
        let file = bytes(rows);
        let Answer { verdict, .. } = read_file(&file, parts.places);
        tally.holds("accepted", matches!(verdict, Verdict::Accepted(_)), || hex(&file));
        let written = Written { answer: Answer { verdict, predecessors }, file: Some(file) };
        let size = written.file.as_ref().map_or(0, Vec::len);
        for length in [size, size + 1, size + 100] {
            let name = format!("version {} by hand, {length} bytes", parts.version);
            check(random, tally, &name, &parts, length, &written);
        }
        let made = hivesaddle::write_file_alloc(&of_crate(&parts.description()));
        tally.named("by hand, allocated", &Ok(written.file.unwrap()), &made);
    }
}

/// Up to its first zero: 29 units are good, and 30 or more are refused.
fn names(random: &mut Random, tally: &mut Tally) {
    for version in [17, 23] {
        for units in [0, 1, 28, 29, 30, 31, 60] {
            for behind in [&[][..], &[0], &[0, 65], &[0; 40]] {
                let mut parts = nothing(version);
                parts.name = [&vec![0xD841; units][..], behind].concat();
                let name = format!("version {version}, {units} units, {} behind", behind.len());
                let written = match units {
                    30.. => no_file(4, 0, 16, 0),
                    _ => as_reference(&parts),
                };
                check(random, tally, &name, &parts, 400, &written);
                let Some(file) = written.file else { continue };
                let mut field = [0x41, 0xD8].repeat(units);
                field.resize(60, 0);
                tally.named(&name, &field[..], &file[16..76]);
            }
        }
    }
}

/// With each choice of empty sections; an empty one's offset is where it would
/// stand.
fn empty_sections(random: &mut Random, tally: &mut Tally) {
    for (version, first, entry) in [(17, 152, 20), (23, 240, 32)] {
        for choice in 0..16u32 {
            let has = |section: u32| (choice >> section & 1) as usize;
            let mut parts = nothing(version);
            // A name needs strings to lie in.
            parts.metrics = vec![0; 2 * has(0) * has(2)];
            parts.trace = [END, 7].repeat(has(1));
            parts.strings = vec![0; 5 * has(2)];
            parts.volumes = vec![0; 3 * has(3)];
            parts.places = has(1);
            let lengths = [entry * has(0) * has(2), 12 * has(1), 5 * has(2), 3 * has(3)];
            let written = as_reference(&parts);
            let name = format!("version {version}, sections {choice:04b}");
            check(random, tally, &name, &parts, 400, &written);
            let file = written.file.unwrap_or_default();
            let mut start = first;
            for (field, length) in [84, 92, 100, 108].into_iter().zip(lengths) {
                let given = &file[field..field + 4];
                tally.named(
                    &format!("{name}, offset at {field}"),
                    &u32::to_le_bytes(start as u32)[..],
                    given,
                );
                start += length;
            }
            tally.named(&format!("{name}, size"), &start, &file.len());
        }
    }
}

/// One number more than pairs changes nothing.
fn odd_numbers(random: &mut Random, tally: &mut Tally) {
    for parts in [of_version_17(), of_version_23()] {
        let written = as_reference(&parts);
        for (metrics, trace) in [(true, false), (false, true), (true, true)] {
            let mut more = parts.clone();
            more.metrics.truncate(2);
            more.trace.truncate(more.trace.len() / 2 * 2);
            more.metrics.extend(metrics.then_some(0xFFFF_FFF0));
            more.trace.extend(trace.then_some(0xFFFF_FFF0));
            check(random, tally, "an odd last number", &more, 400, &written);
        }
    }
}

/// Changes the file of version 17 above, whose trace is at 172 and whose
/// volumes are at 200. Every refusal but 3, which takes a large file.
const FAULTS: [(&str, fn(&mut Parts), (u64, u64, u64)); 18] = [
    ("version 26", |parts| parts.version = 26, (1, 0, 0)),
    ("version 30", |parts| parts.version = 30, (1, 0, 0)),
    ("a name of thirty units", |parts| parts.name = vec![65; 30], (4, 0, 16)),
    ("a slot short", |parts| parts.places = 1, (7, 0, 96)),
    ("two volumes", |parts| parts.volume_count = 2, (8, 0, 112)),
    ("as many volumes as can be", |parts| parts.volume_count = u32::MAX, (8, 0, 112)),
    ("a name past the strings", |parts| parts.metrics = vec![0, 2], (9, 0, 160)),
    ("one that wraps", |parts| parts.metrics = vec![END, 1], (9, 0, 160)),
    ("a second past the strings", |parts| parts.metrics = vec![0, 1, 3, 0], (9, 1, 180)),
    ("a zero in a name", |parts| parts.strings = vec![0, 0, 0, 0], (10, 0, 160)),
    ("no zero behind a name", |parts| parts.strings = vec![67, 0, 68, 0], (10, 0, 160)),
    ("a wild next index", |parts| parts.trace = vec![1, 5, 2, 6], (11, 1, 184)),
    ("two with one next", |parts| parts.trace = vec![2, 0, 2, 0, END, 0], (12, 2, 196)),
    ("its own next", |parts| parts.trace = vec![END, 0, 1, 0], (13, 1, 184)),
    ("a path past the volumes", |parts| parts.volumes[4] = 21, (14, 0, 200)),
    ("references of one byte", |parts| parts.volumes[24] = 1, (14, 0, 200)),
    (
        "directories past the volumes",
        |parts| (parts.volumes[28], parts.volumes[32]) = (40, 1),
        (14, 0, 200),
    ),
    // Offset 14: no units, and then the serial number's first two bytes.
    (
        "a directory without its zero",
        |parts| (parts.volumes[28], parts.volumes[32]) = (14, 1),
        (15, 0, 200),
    ),
];

fn refusals(random: &mut Random, tally: &mut Tally) {
    for (name, change, (number, index, offset)) in FAULTS {
        let mut parts = of_version_17();
        change(&mut parts);
        let written = no_file(number, index, offset, parts.places);
        for length in [0, 239, 240, 400] {
            check(random, tally, &format!("{name}, {length} bytes"), &parts, length, &written);
        }
    }
}

/// Of two faults the earlier check's answers; the faults above stand in the
/// order of their checks. Two that touch the same list are left out.
fn order_of_checks(random: &mut Random, tally: &mut Tally) {
    let places = [0, 2, 3, 4, 6, 9, 11, 13, 14, 17];
    for (at, &first) in places.iter().enumerate() {
        for &second in &places[at + 1..] {
            let ((one, change, (number, index, offset)), (other, also, _)) =
                (FAULTS[first], FAULTS[second]);
            let mut parts = of_version_17();
            also(&mut parts);
            change(&mut parts);
            let written = no_file(number, index, offset, parts.places);
            check(random, tally, &format!("{one} and {other}"), &parts, 400, &written);
        }
    }
}

/// Slots and bytes: too few by one, just enough, and more.
fn slots_and_output(random: &mut Random, tally: &mut Tally) {
    for version in [17, 23] {
        let mut parts = nothing(version);
        parts.trace = vec![END, 8, 0, 9, 1, 10];
        let size = if version == 17 { 152 + 36 } else { 240 + 36 };
        for places in [0, 1, 2, 3, 4, 9] {
            parts.places = places;
            for length in [0, size - 1, size, size + 1, size + 50] {
                let written = match (places, length < size) {
                    (0..=2, _) => no_file(7, 0, 96, places),
                    (_, true) => no_file(20, 0, 0, places),
                    (_, false) => as_reference(&parts),
                };
                let name = format!("version {version}, {places} slots, {length} bytes");
                check(random, tally, &name, &parts, length, &written);
                if written.file.is_some() {
                    let table = [&[1, 2, END][..], &vec![END; places - 3]].concat();
                    tally.named(&name, &table, &written.answer.predecessors);
                }
            }
        }
    }
}

fn out_lengths(random: &mut Random, tally: &mut Tally) {
    for length in 0..=HS_READER_OUT + 2 {
        for output_length in [239, 240] {
            let parts = of_version_17();
            let outputs = WriteOutputs::new(random, length, parts.places, output_length);
            let written = write(&parts.description(), parts.places, output_length);
            let expected = outputs.expected(&written);
            let name = format!("out of {length}, {output_length} bytes");
            tally.named(&name, &expected, &outputs.call(&parts.description()));
        }
    }
}

const LIMIT: usize = 67_108_864;

/// The limit and one past it, by the strings and by the volumes. The size comes
/// before the name and before the output.
fn largest_files(random: &mut Random, tally: &mut Tally) {
    for (version, first) in [(17, 152), (23, 240)] {
        let mut parts = nothing(version);
        parts.trace = vec![END, 1];
        parts.places = 1;
        let rest = LIMIT - first - 12;
        for (strings, volumes) in [(rest, 0), (rest + 1, 0), (0, rest + 1), (rest - 5, 6)] {
            parts.strings.resize(strings, 0);
            parts.volumes.resize(volumes, 0);
            let name = format!("version {version}, strings {strings}, volumes {volumes}");
            if strings + volumes == rest {
                let written = as_reference(&parts);
                check(random, tally, &name, &parts, LIMIT, &written);
                check(random, tally, &name, &parts, LIMIT - 1, &no_file(20, 0, 0, 1));
                continue;
            }
            let too_large = no_file(3, 0, 12, 1);
            check(random, tally, &name, &parts, 10, &too_large);
            let endless = Parts { name: vec![65; 30], ..parts.clone() };
            check(random, tally, &format!("{name}, no end of name"), &endless, 10, &too_large);
            let unsound = Parts { places: 0, volume_count: u32::MAX, ..parts.clone() };
            let name_of_both = format!("{name}, 7 and 8");
            check(random, tally, &name_of_both, &unsound, 10, &no_file(3, 0, 12, 0));
            let unknown = Parts { version: 26, ..parts.clone() };
            check(random, tally, &format!("{name}, 26"), &unknown, 10, &no_file(1, 0, 0, 1));
        }
    }
}

/// As many trace entries, in chains of eight, and as many metrics entries, with
/// one name, as a file can have; one more is too many.
fn most_entries(random: &mut Random, tally: &mut Tally) {
    let mut parts = nothing(17);
    let next = |entry: u32| if entry % 8 == 7 { END } else { entry + 1 };
    parts.trace = (0..5_592_392).flat_map(|entry| [next(entry), entry]).collect();
    parts.places = 5_592_392;
    let written = as_reference(&parts);
    check(random, tally, "most trace entries", &parts, LIMIT, &written);
    match written.answer.verdict {
        Verdict::Accepted(record) => tally.named("its chains", &699_049, &record.chain_count),
        other => tally.named("most trace entries", "an acceptance", &format!("{other:?}")[..]),
    }
    parts.trace.extend([END, 0]);
    parts.places = 0;
    let too_large = no_file(3, 0, 12, 0);
    check(random, tally, "one trace entry more", &parts, 10, &too_large);
    let mut parts = nothing(23);
    parts.strings = vec![0, 0];
    parts.metrics = vec![0; 2 * 2_097_144];
    let written = as_reference(&parts);
    tally.named("most metrics entries", &true, &written.file.is_some());
    check(random, tally, "most metrics entries", &parts, LIMIT, &written);
    parts.metrics.extend([0, 0]);
    check(random, tally, "one metrics entry more", &parts, 10, &too_large);
}

/// Lists as long as an address space could hold, at an address where nothing
/// can be read: with wrapping sums their file would be small. Such lists cannot
/// be, so this asks for more than the header promises.
fn sizes_past_64_bits(tally: &mut Tally) {
    let most = isize::MAX as usize;
    let half = 1 << 60;
    // 20 bytes for each of these pairs are 4 past 64 bits.
    let wraps = 2 * 922_337_203_685_477_581;
    let lists: [[usize; 4]; 11] = [
        [half, 0, 0, 0],
        [wraps, 0, 0, 0],
        [most / 4, most / 4, most, most],
        [0, most / 4, 0, 0],
        [most / 4, 0, 0, 0],
        [0, 0, most, most],
        [0, 0, most, 0],
        [0, 0, 1 << 32, 0],
        [0, 0, 0, (1 << 32) - 152],
        [(1 << 33) / 20 * 2, 0, 0, 0],
        [0, (1 << 32) / 12 * 2 + 2, 0, 0],
    ];
    for lengths in lists {
        for version in [17, 23] {
            let name = format!("version {version}, lists of {lengths:?}");
            let size = laid_out_size(version, &lengths);
            tally.holds(&format!("{name}, size"), size > LIMIT as u128, || name.clone());
            tally.named(&name, &(HS_REFUSED, 3, 12), &unreadable(version, &lengths));
        }
        tally.named("version 26", &(HS_REFUSED, 1, 0), &unreadable(26, &lengths));
    }
}

/// The answer, refusal number and file offset for lists that cannot be read.
fn unreadable(version: u32, [metrics, trace, strings, volumes]: &[usize; 4]) -> (u32, u64, u64) {
    let (numbers, bytes) =
        (std::ptr::without_provenance::<u32>(8), std::ptr::without_provenance::<u8>(8));
    let (name, mut out) = ([65; 30], [0; HS_READER_OUT]);
    let code = unsafe {
        hs_write_file(
            version,
            name.as_ptr(),
            name.len(),
            1,
            2,
            3,
            numbers,
            *metrics,
            numbers,
            *trace,
            bytes,
            *strings,
            bytes,
            *volumes,
            0,
            null_mut(),
            0,
            null_mut(),
            0,
            out.as_mut_ptr(),
            out.len(),
        )
    };
    (code, out[HS_NUMBER], out[HS_OFFSET])
}

fn null_pointers(tally: &mut Tally) {
    let call = |version, output: &mut [u8]| unsafe {
        hs_write_file(
            version,
            null(),
            0,
            0,
            0,
            0,
            null(),
            0,
            null(),
            0,
            null(),
            0,
            null(),
            0,
            0,
            null_mut(),
            0,
            output.as_mut_ptr(),
            output.len(),
            null_mut(),
            0,
        )
    };
    for (version, size) in [(17, 152), (23, 240)] {
        let mut output = vec![7; size];
        tally.named("no lists", &HS_ACCEPTED, &call(version, &mut output));
        tally.named("no lists, the file", &as_reference(&nothing(version)).file, &Some(output));
        tally.named("no lists, a byte short", &HS_REFUSED, &call(version, &mut vec![7; size - 1]));
    }
    tally.named("nothing at all", &HS_REFUSED, &call(0, &mut []));
}
