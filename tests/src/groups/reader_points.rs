//! Points on either edge, with answers taken from the papers by hand. The
//! library and the reference both have to give them.

use crate::boundary::{numbers_of, Outputs, Reader, PREFIX_READER, WHOLE_READER};
use crate::generate::bare::{bare, bare_record, one_volume, with_links, HEADS};
use crate::generate::{set_16, set_32, set_64};
use crate::random::Random;
use crate::reference::checks::Refusal;
use crate::reference::layout::END;
use crate::reference::readers::{Answer, Record, Verdict};
use crate::tally::Tally;
use hivesaddle::raw::{hs_read_prefix, HS_ACCEPTED, HS_READER_OUT, HS_REFUSED, HS_WANTED};
use std::ptr::{null, null_mut};

pub fn run(tally: &mut Tally) {
    first_bytes(tally);
    sizes(tally);
    program_names(tally);
    run_times(tally);
    section_ends(tally);
    sections_side_by_side(tally);
    huge_sums(tally);
    strings_edges(tally);
    trace_links(tally);
    order_of_answers(tally);
    volumes(tally);
    offsets_behind_the_head(tally);
    complete_files(tally);
    largest_files(tally);
    null_pointers(tally);
}

/// The offset is that of the field at fault, worked out by hand.
pub fn refused(number: u64, index: u64, offset: u64) -> Verdict {
    Verdict::Refused(Refusal { number, index, offset })
}

/// A verdict on a file without links: every slot is filled.
fn check(tally: &mut Tally, name: &str, reader: Reader, bytes: &[u8], verdict: Verdict) {
    let answer = Answer { verdict, predecessors: vec![END; 8] };
    check_answer(tally, name, reader, bytes, &answer);
}

pub fn check_answer(tally: &mut Tally, name: &str, reader: Reader, bytes: &[u8], answer: &Answer) {
    let places = answer.predecessors.len();
    let outputs = Outputs::new(&mut Random::new(1), HS_READER_OUT, places);
    let expected = outputs.expected(answer);
    tally.named(name, &expected, &outputs.call(reader.library, bytes));
    tally.named(name, answer, &(reader.reference)(bytes, places));
}

pub fn part(tally: &mut Tally, name: &str, bytes: &[u8], verdict: Verdict) {
    check(tally, name, PREFIX_READER, bytes, verdict);
}

pub fn whole(tally: &mut Tally, name: &str, bytes: &[u8], verdict: Verdict) {
    check(tally, name, WHOLE_READER, bytes, verdict);
}

fn first_bytes(tally: &mut Tally) {
    let file = bare(17, 0);
    let wanted = [
        (0, 4),
        (3, 4),
        (4, 8),
        (7, 8),
        (8, 16),
        (15, 16),
        (16, 76),
        (75, 76),
        (76, 148),
        (147, 148),
    ];
    for (length, required) in wanted {
        let name = format!("{length} bytes want {required}");
        part(tally, &name, &file[..length], Verdict::Wanted(required));
        whole(tally, &name, &file[..length], refused(16, 0, 12));
    }
    part(tally, "version 24 in four bytes", &[24, 0, 0, 0], refused(1, 0, 0));
    part(tally, "version 29", &[29, 0, 0, 0], refused(1, 0, 0));
    part(tally, "version 31", &[31, 0, 0, 0], refused(1, 0, 0));
    part(tally, "version 17 and 256", &[17, 1, 0, 0], refused(1, 0, 0));
    part(tally, "wrong signature", b"\x11\0\0\0SCCB", refused(2, 0, 4));
    part(tally, "both wrong", b"\x18\0\0\0SCCB", refused(1, 0, 0));
}

fn sizes(tally: &mut Tally) {
    for (version, head_end) in HEADS {
        let edges = [
            (0, refused(3, 0, 12)),
            (head_end - 1, refused(3, 0, 12)),
            (head_end, Verdict::Wanted(76)),
            (16_777_215, Verdict::Wanted(76)),
            (16_777_216, Verdict::Wanted(76)),
            (67_108_863, Verdict::Wanted(76)),
            (67_108_864, Verdict::Wanted(76)),
            (67_108_865, refused(3, 0, 12)),
            (134_217_728, refused(3, 0, 12)),
            (u32::MAX, refused(3, 0, 12)),
        ];
        for (size, verdict) in edges {
            let mut file = bare(version, 0);
            set_32(&mut file, 12, size);
            part(tally, &format!("version {version}, S = {size}"), &file[..16], verdict);
        }
        let file = bare(version, 0);
        let record = Verdict::Accepted(bare_record(&file));
        part(tally, &format!("version {version}, S = H, whole"), &file, record);
    }
}

fn program_names(tally: &mut Tally) {
    for units in [0, 1, 28, 29] {
        let mut file = bare(17, 0);
        for place in 0..units {
            set_16(&mut file, 16 + 2 * place, 65);
        }
        let record = Record { name_units: units as u64, ..bare_record(&file) };
        part(tally, &format!("a name of {units} units"), &file, Verdict::Accepted(record));
        // The search stops at the first zero: neither units nor zeros behind it count.
        for place in units + 1..30 {
            set_16(&mut file, 16 + 2 * place, if place % 2 == 0 { 0 } else { 0xFF00 });
        }
        part(
            tally,
            &format!("a name of {units} units, more behind"),
            &file,
            Verdict::Accepted(record),
        );
    }
    let mut file = bare(17, 0);
    for place in 0..30 {
        set_16(&mut file, 16 + 2 * place, 0x0100);
    }
    part(tally, "a name of 30 units", &file[..76], refused(4, 0, 16));
    part(tally, "30 units, one byte short", &file[..75], Verdict::Wanted(76));
}

/// Not sorted, one twice, and the ends of 64 bits.
const TIMES: [u64; 8] = [5, u64::MAX, 0, 1 << 63, 7, 7, 0xFFFF_FFFF, 1];

/// The same numbers from the latest run time on in every version. Up to the
/// run count 17 and 23 have room for three of them, and only the first is a
/// time; 26 and 30 have all eight from 128 to 192, and other things up to 208.
fn run_times(tally: &mut Tally) {
    let first_alone = [5, 0, 0, 0, 0, 0, 0, 0];
    let cases = [
        (17, 120, 3, 144, 1, first_alone),
        (23, 128, 3, 152, 1, first_alone),
        (26, 128, 8, 208, 8, TIMES),
        (30, 128, 8, 208, 8, TIMES),
    ];
    for (version, start, numbers, run_count, time_count, run_times) in cases {
        let mut file = bare(version, 0);
        for (i, time) in TIMES[..numbers].iter().enumerate() {
            set_64(&mut file, start + 8 * i, *time);
        }
        file[start + 8 * numbers..run_count].fill(0xAA);
        set_32(&mut file, run_count, 77);
        let record = Record { run_times, time_count, run_count: 77, ..bare_record(&file) };
        let name = format!("version {version}, run times");
        part(tally, &name, &file, Verdict::Accepted(record));
        whole(tally, &name, &file, Verdict::Accepted(record));
        // No time is left in an answer that is no acceptance.
        let short = file.len() - 1;
        part(tally, &name, &file[..short], Verdict::Wanted(short as u64 + 1));
        whole(tally, &name, &file[..short], refused(16, 0, 12));
        set_32(&mut file, 112, 1);
        part(tally, &name, &file, refused(8, 0, 112));
    }
}

/// A section alone in a version 17 file of 188 bytes.
struct Alone {
    which: u64,
    offset_field: usize,
    /// Where its count or its size stands, and that number.
    count_field: usize,
    count: u32,
    bytes: u32,
    /// The check that finds something else to refuse once it lies inside, and
    /// the field in the section: one entry has no strings for its name, and
    /// one link of 0 is a cycle.
    otherwise: Option<(u64, u64)>,
}

const ALONE: [Alone; 4] = [
    Alone {
        which: 1,
        offset_field: 84,
        count_field: 88,
        count: 1,
        bytes: 20,
        otherwise: Some((9, 8)),
    },
    Alone {
        which: 2,
        offset_field: 92,
        count_field: 96,
        count: 1,
        bytes: 12,
        otherwise: Some((13, 0)),
    },
    Alone { which: 3, offset_field: 100, count_field: 104, count: 5, bytes: 5, otherwise: None },
    Alone { which: 4, offset_field: 108, count_field: 116, count: 7, bytes: 7, otherwise: None },
];

fn section_ends(tally: &mut Tally) {
    for Alone { which, offset_field, count_field, count, bytes, otherwise } in ALONE {
        let mut file = bare(17, 40);
        set_32(&mut file, count_field, count);
        let accepted = Verdict::Accepted(bare_record(&file));
        let inside = |start: u32| match otherwise {
            Some((number, field)) => refused(number, 0, start as u64 + field),
            None => accepted,
        };
        let cases = [
            ("starting at H", 148, inside(148)),
            ("starting at H - 1", 147, refused(5, which, offset_field as u64)),
            ("ending at S", 188 - bytes, inside(188 - bytes)),
            ("ending at S + 1", 189 - bytes, refused(5, which, offset_field as u64)),
            ("starting at 0", 0, refused(5, which, offset_field as u64)),
            ("starting at S", 188, refused(5, which, offset_field as u64)),
            ("ending at 2 to the 32", bytes.wrapping_neg(), refused(5, which, offset_field as u64)),
            ("wrapping to H", 148u32.wrapping_sub(bytes), refused(5, which, offset_field as u64)),
            ("starting at the last number", u32::MAX, refused(5, which, offset_field as u64)),
        ];
        for (name, offset, verdict) in cases {
            set_32(&mut file, offset_field, offset);
            part(tally, &format!("section {which} {name}"), &file, verdict);
        }
        set_32(&mut file, count_field, 0);
        part(tally, &format!("section {which}, empty and far away"), &file, accepted);
    }
}

/// Strings of 8 bytes at 160, and volumes data of 4 bytes around them.
fn sections_side_by_side(tally: &mut Tally) {
    let mut file = bare(17, 40);
    set_32(&mut file, 100, 160);
    set_32(&mut file, 104, 8);
    set_32(&mut file, 116, 4);
    let apart = Verdict::Accepted(bare_record(&file));
    let cases = [
        (156, apart),
        (157, refused(6, 4, 108)),
        (160, refused(6, 4, 108)),
        (162, refused(6, 4, 108)),
        (167, refused(6, 4, 108)),
        (168, apart),
    ];
    for (offset, verdict) in cases {
        set_32(&mut file, 108, offset);
        part(tally, &format!("volumes at {offset} beside strings"), &file, verdict);
    }
    // All four on one spot: the second section is the smallest with a lower.
    for field in [84, 92, 100, 108] {
        set_32(&mut file, field, 150);
    }
    set_32(&mut file, 88, 1);
    set_32(&mut file, 96, 1);
    part(tally, "four sections on one spot", &file, refused(6, 2, 92));
    set_32(&mut file, 92, 170);
    part(tally, "the second apart", &file, refused(6, 3, 100));
}

/// Products and sums past 32 bits.
fn huge_sums(tally: &mut Tally) {
    let cases = [
        // Entries of 20 bytes: 24 past 2 to the 32; of 12: 8 past; of 32: none.
        (17, 88, 214_748_366, refused(5, 1, 84)),
        (17, 96, 357_913_942, refused(5, 2, 92)),
        (23, 88, 1 << 27, refused(5, 1, 84)),
        (26, 88, 1 << 27, refused(5, 1, 84)),
        (17, 104, u32::MAX, refused(5, 3, 100)),
        (17, 116, u32::MAX - 147, refused(5, 4, 108)),
        // Volumes of 40 bytes: 24 past 2 to the 32; of 104: 64 past.
        (17, 112, 107_374_183, refused(8, 0, 112)),
        (23, 112, 41_297_763, refused(8, 0, 112)),
        (17, 112, 1, refused(8, 0, 112)),
    ];
    for (version, field, number, verdict) in cases {
        let mut file = bare(version, 40);
        for offset in [84, 92, 100, 108] {
            let head_end = file.len() as u32 - 40;
            set_32(&mut file, offset, head_end);
        }
        set_32(&mut file, field, number);
        part(tally, &format!("version {version}, {number} at {field}"), &file, verdict);
    }
}

/// One metrics entry at 148 and strings at 168, for version 17.
fn one_name(offset: u32, units: u32, strings: &[u8]) -> Vec<u8> {
    let mut file = bare(17, 20 + strings.len() as u32);
    set_32(&mut file, 84, 148);
    set_32(&mut file, 88, 1);
    set_32(&mut file, 100, 168);
    set_32(&mut file, 104, strings.len() as u32);
    set_32(&mut file, 148 + 8, offset);
    set_32(&mut file, 148 + 12, units);
    file[168..].copy_from_slice(strings);
    file
}

fn strings_edges(tally: &mut Tally) {
    let accepted =
        |file: &[u8]| Verdict::Accepted(Record { metrics_count: 1, ..bare_record(file) });
    let sound: [(&str, u32, u32, &[u8]); 5] = [
        ("zero as the last unit", 0, 1, b"A\0\0\0"),
        ("at an odd offset", 1, 1, b"?A\0\0\0"),
        ("an odd section", 0, 1, b"A\0\0\0?"),
        ("an empty name", 2, 0, b"A\0\0\0"),
        ("zero bytes that are no unit", 0, 2, b"A\0\0A\0\0"),
    ];
    for (name, offset, units, strings) in sound {
        let file = one_name(offset, units, strings);
        part(tally, name, &file, accepted(&file));
        let required = file.len();
        part(tally, name, &file[..required - 1], Verdict::Wanted(required as u64));
        part(tally, name, &file[..167], Verdict::Wanted(168));
    }
    let unsound: [(&str, u32, u32, &[u8], u64); 9] = [
        ("no room for the zero", 0, 1, b"A\0\0", 9),
        ("no strings", 0, 0, b"", 9),
        ("one byte past", 1, 1, b"A\0\0\0", 9),
        ("a length that doubles to nothing", 0, 1 << 31, b"A\0\0\0", 9),
        ("an offset that wraps", u32::MAX - 3, 1, b"A\0\0\0", 9),
        ("a sum that wraps", u32::MAX - 1, 0, b"A\0\0\0", 9),
        ("a zero unit inside", 0, 2, b"A\0\0\0\0\0", 10),
        ("no zero unit behind", 0, 1, b"A\0B\0\0\0", 10),
        ("a unit behind with a low zero byte", 0, 1, b"A\0\0B", 10),
    ];
    for (name, offset, units, strings, number) in unsound {
        part(tally, name, &one_name(offset, units, strings), refused(number, 0, 156));
    }
    // 9 is decided as soon as the entries are there.
    part(tally, "9 before the strings", &one_name(1, 1, b"A\0\0\0")[..168], refused(9, 0, 156));
    two_names(tally);
}

/// Check 9 runs over all entries before check 10 looks at any.
fn two_names(tally: &mut Tally) {
    let mut file = bare(17, 44);
    set_32(&mut file, 84, 148);
    set_32(&mut file, 88, 2);
    set_32(&mut file, 100, 188);
    set_32(&mut file, 104, 4);
    file[188..192].copy_from_slice(b"A\0B\0");
    set_32(&mut file, 148 + 12, 1);
    set_32(&mut file, 168 + 8, 3);
    part(tally, "10 at entry 0, 9 at entry 1", &file, refused(9, 1, 176));
    set_32(&mut file, 168 + 8, 0);
    part(tally, "10 at both entries", &file, refused(10, 0, 156));
}

fn trace_links(tally: &mut Tally) {
    let faults: [(&[u32], u64, u64); 10] = [
        (&[0], 13, 0),
        (&[2, 2, END], 12, 2),
        (&[END, 1], 13, 1),
        (&[END, 2, 3, 1], 13, 1),
        (&[1, 2, 0], 13, 0),
        (&[END, 3, END, 1, 2], 13, 1),
        (&[1], 11, 0),
        (&[END, 2], 11, 1),
        (&[END - 1, 0, 0], 11, 0),
        (&[1, 1, 2], 12, 1),
    ];
    for (links, number, index) in faults {
        let name = format!("links {links:?}");
        let verdict = refused(number, index, 148 + 12 * index);
        part(tally, &name, &with_links(links), verdict);
        whole(tally, &name, &with_links(links), verdict);
    }
    sound_links(tally, &[1, END], 1, &[END, 0]);
    sound_links(tally, &[END, END], 2, &[END, END]);
    sound_links(tally, &[END, 0, 1], 1, &[1, 2, END]);
    sound_links(tally, &[3, END, END, 1], 2, &[END, 3, END, 0]);
}

fn sound_links(tally: &mut Tally, links: &[u32], chains: u64, predecessors: &[u32]) {
    let file = with_links(links);
    let record =
        Record { trace_count: links.len() as u64, chain_count: chains, ..bare_record(&file) };
    for more in [0, 1, 5] {
        let mut predecessors = predecessors.to_vec();
        predecessors.extend(vec![END; more]);
        let answer = Answer { verdict: Verdict::Accepted(record), predecessors };
        let name = format!("links {links:?}, {more} slots more");
        check_answer(tally, &name, PREFIX_READER, &file, &answer);
        check_answer(tally, &name, WHOLE_READER, &file, &answer);
    }
    let answer = Answer { verdict: refused(7, 0, 96), predecessors: vec![END; links.len() - 1] };
    let name = format!("links {links:?}, one slot short");
    check_answer(tally, &name, PREFIX_READER, &file, &answer);
    check_answer(tally, &name, WHOLE_READER, &file[..148], &answer);
}

/// Trace damage that has arrived does not answer before the names are decided.
fn order_of_answers(tally: &mut Tally) {
    let mut file = bare(17, 12 + 20 + 4);
    set_32(&mut file, 92, 148);
    set_32(&mut file, 96, 1);
    set_32(&mut file, 84, 160);
    set_32(&mut file, 88, 1);
    set_32(&mut file, 100, 180);
    set_32(&mut file, 104, 4);
    file[160 + 12] = 1;
    file[180..184].copy_from_slice(b"A\0\0\0");
    part(tally, "a cycle, and no metrics yet", &file[..160], Verdict::Wanted(180));
    part(tally, "a cycle, and no strings yet", &file[..180], Verdict::Wanted(184));
    part(tally, "a cycle, and all there", &file, refused(13, 0, 148));
    whole(tally, "a cycle, and no strings", &file[..180], refused(16, 0, 12));
}

/// The section is 40 bytes and the data.
fn volumes(tally: &mut Tally) {
    const FAR: u32 = u32::MAX;
    let sound: [([u32; 6], &[u8]); 8] = [
        ([FAR, 0, FAR, 0, FAR, 0], b""),
        ([40, 1, 0, 0, 0, 0], b"A\0"),
        ([0, 21, 0, 0, 0, 0], b"A\0"),
        ([0, 0, 40, 8, 0, 0], b"????\0\0\0\0"),
        ([0, 0, 40, 16, 0, 0], b"????\x01\0\0\0abcdefgh"),
        ([0, 0, 0, 0, 40, 1], b"\0\0\0\0"),
        ([0, 0, 0, 0, 40, 2], b"\x01\0\0\0\0\0\0\0\0\0"),
        ([40, 3, 40, 0, 40, 1], b"\x01\0A\0\0\0"),
    ];
    for (fields, data) in sound {
        let file = one_volume(fields, data);
        let record = Record { volume_count: 1, ..bare_record(&file) };
        part(tally, &format!("volume {fields:?}"), &file, Verdict::Accepted(record));
    }
    let faults: [([u32; 6], &[u8], u64); 17] = [
        ([41, 1, 0, 0, 0, 0], b"A\0", 14),
        ([0, 22, 0, 0, 0, 0], b"A\0", 14),
        ([FAR - 1, 1, 0, 0, 0, 0], b"A\0", 14),
        ([0, 1 << 31, 0, 0, 0, 0], b"A\0", 14),
        ([0, 0, 40, 7, 0, 0], b"????\0\0\0\0", 14),
        ([0, 0, FAR, 7, 0, 0], b"", 14),
        ([0, 0, 41, 8, 0, 0], b"????\0\0\0\0", 14),
        ([0, 0, FAR - 7, 8, 0, 0], b"????\0\0\0\0", 14),
        ([0, 0, 40, 8, 0, 0], b"????\x01\0\0\0", 14),
        ([0, 0, 40, 15, 0, 0], b"????\x01\0\0\0abcdefg", 14),
        ([0, 0, 40, 8, 0, 0], b"????\xFF\xFF\xFF\x1F", 14),
        ([0, 0, 40, 8, 0, 0], b"????\0\0\0\x20", 14),
        ([0, 0, 0, 0, 40, 1], b"\0\0\0", 14),
        ([0, 0, 0, 0, 40, 2], b"\0\0\0\0\0", 14),
        ([0, 0, 0, 0, FAR, 1], b"\0\0\0\0", 14),
        ([0, 0, 0, 0, 40, 1], b"\0\0\0\x01", 15),
        ([0, 0, 0, 0, 40, 2], b"\0\0\x01\0\x09\0", 15),
    ];
    for (fields, data, number) in faults {
        let name = format!("volume {fields:?}, fault {number}");
        let file = one_volume(fields, data);
        part(tally, &name, &file, refused(number, 0, 148));
        let required = file.len() as u64;
        part(tally, &name, &file[..file.len() - 1], Verdict::Wanted(required));
    }
    volumes_in_turn(tally);
    not_waited_for(tally);
}

/// The first fault met answers: a volume's 15 before the next one's 14.
fn volumes_in_turn(tally: &mut Tally) {
    let mut file = bare(17, 84);
    set_32(&mut file, 108, 148);
    set_32(&mut file, 112, 2);
    set_32(&mut file, 116, 84);
    set_32(&mut file, 148 + 28, 80);
    set_32(&mut file, 148 + 32, 1);
    set_32(&mut file, 188 + 4, 100);
    file[148 + 83] = 1;
    part(tally, "15 in volume 0, 14 in volume 1", &file, refused(15, 0, 148));
    set_32(&mut file, 148 + 4, 100);
    part(tally, "14 and 15 in volume 0", &file, refused(14, 0, 148));
    set_32(&mut file, 148 + 4, 0);
    set_32(&mut file, 148 + 32, 0);
    part(tally, "14 in volume 1", &file, refused(14, 1, 188));
    set_32(&mut file, 188 + 4, 0);
    set_32(&mut file, 188 + 28, 80);
    set_32(&mut file, 188 + 32, 1);
    part(tally, "15 in volume 1", &file, refused(15, 1, 188));
}

/// Strings without metrics and a volumes section without volumes.
fn not_waited_for(tally: &mut Tally) {
    let mut file = bare(17, 40);
    set_32(&mut file, 100, 148);
    set_32(&mut file, 104, 20);
    set_32(&mut file, 108, 168);
    set_32(&mut file, 116, 20);
    let record = Verdict::Accepted(bare_record(&file));
    part(tally, "sections nothing needs", &file[..148], record);
    whole(tally, "sections nothing needs, cut", &file[..148], refused(16, 0, 12));
    whole(tally, "sections nothing needs, whole", &file, record);
}

/// Sizes of a version's entries, and where a name's offset stands in one.
struct Entries {
    version: u32,
    head_end: usize,
    metrics: usize,
    name_offset: usize,
    volume: usize,
}

const ENTRIES: [Entries; 3] = [
    Entries { version: 17, head_end: 148, metrics: 20, name_offset: 8, volume: 40 },
    Entries { version: 23, head_end: 156, metrics: 32, name_offset: 12, volume: 104 },
    Entries { version: 26, head_end: 212, metrics: 32, name_offset: 12, volume: 104 },
];

/// Three of everything, four bytes apart, and then one fault in the last: the
/// offset is that of the entry or of its field, in each version.
fn offsets_behind_the_head(tally: &mut Tally) {
    for Entries { version, head_end, metrics, name_offset, volume } in ENTRIES {
        let metrics_start = head_end + 4;
        let trace_start = metrics_start + 3 * metrics + 4;
        let strings_start = trace_start + 36 + 4;
        let volumes_start = strings_start + 4 + 4;
        let mut sound = bare(version, (volumes_start + 3 * volume - head_end) as u32);
        let fields = [
            (84, metrics_start),
            (88, 3),
            (92, trace_start),
            (96, 3),
            (100, strings_start),
            (104, 4),
            (108, volumes_start),
            (112, 3),
            (116, 3 * volume),
        ];
        for (field, number) in fields {
            set_32(&mut sound, field, number as u32);
        }
        for i in 0..3 {
            set_32(&mut sound, metrics_start + i * metrics + name_offset + 4, 1);
            set_32(&mut sound, trace_start + 12 * i, END);
        }
        sound[strings_start] = b'A';
        let record = Record {
            metrics_count: 3,
            trace_count: 3,
            volume_count: 3,
            chain_count: 3,
            ..bare_record(&sound)
        };
        whole(tally, "three of everything", &sound, Verdict::Accepted(record));
        let name = metrics_start + 2 * metrics + name_offset;
        let link = trace_start + 24;
        let entry = volumes_start + 2 * volume;
        let cases: [(&str, &[(usize, u32)], u64, u64, usize); 9] = [
            ("a name offset", &[(name, 1)], 9, 2, name),
            ("a name length", &[(name + 4, 2)], 9, 2, name),
            ("a name without its zero", &[(name + 4, 0)], 10, 2, name),
            ("a wild link", &[(link, 3)], 11, 2, link),
            ("an entry named twice", &[(link - 24, 2), (link - 12, 2)], 12, 2, link),
            ("a cycle", &[(link, 2)], 13, 2, link),
            ("a path", &[(entry + 4, u32::MAX)], 14, 2, entry),
            ("references", &[(entry + 24, 7)], 14, 2, entry),
            // Directories at the first volume's creation time: no units, then 1.
            (
                "a directory",
                &[(volumes_start + 8, 1 << 16), (entry + 28, 8), (entry + 32, 1)],
                15,
                2,
                entry,
            ),
        ];
        for (what, damage, number, index, offset) in cases {
            let mut file = sound.clone();
            for &(at, value) in damage {
                set_32(&mut file, at, value);
            }
            let verdict = refused(number, index, offset as u64);
            part(tally, &format!("version {version}, offset of {what}"), &file, verdict);
            whole(tally, &format!("version {version}, offset of {what}"), &file, verdict);
        }
    }
}

fn complete_files(tally: &mut Tally) {
    for (version, _) in HEADS {
        let mut file = bare(version, 3);
        let record = Verdict::Accepted(bare_record(&file));
        whole(tally, "complete", &file, record);
        let short = file.len() - 1;
        whole(tally, "one byte short", &file[..short], refused(16, 0, 12));
        part(tally, "one byte short", &file[..short], record);
        file.push(1);
        whole(tally, "one byte more", &file, refused(17, 0, 12));
        part(tally, "one byte more", &file, record);
        // A refusal stays, whatever the length.
        set_32(&mut file, 112, 1);
        whole(tally, "refused and too long", &file, refused(8, 0, 112));
        whole(tally, "refused and too short", &file[..short], refused(8, 0, 112));
    }
}

/// A file of the greatest size, full of trace entries in chains of eight; and
/// one past the limit that there was before.
fn largest_files(tally: &mut Tally) {
    let entries = 5_592_393;
    let next = |entry: u32| match entry % 8 == 7 || entry + 1 == entries {
        true => END,
        false => entry + 1,
    };
    let links: Vec<u32> = (0..entries).map(next).collect();
    let mut file = with_links(&links);
    assert_eq!(file.len(), 67_108_864);
    let record = Record {
        trace_count: entries as u64,
        chain_count: entries.div_ceil(8) as u64,
        ..bare_record(&file)
    };
    let predecessor = |entry: u32| if entry % 8 == 0 { END } else { entry - 1 };
    let predecessors = (0..entries).map(predecessor).collect();
    let answer = Answer { verdict: Verdict::Accepted(record), predecessors };
    check_answer(tally, "the largest file", WHOLE_READER, &file, &answer);
    set_32(&mut file, 12, 67_108_865);
    file.push(0);
    check(tally, "one too large", WHOLE_READER, &file, refused(3, 0, 12));
    for (version, head_end) in HEADS {
        let file = bare(version, 16_777_216 - head_end);
        let record = Verdict::Accepted(bare_record(&file));
        whole(tally, "past the limit of old", &file, record);
    }
}

fn null_pointers(tally: &mut Tally) {
    for (reader, code) in [(PREFIX_READER, HS_WANTED), (WHOLE_READER, HS_REFUSED)] {
        let given = unsafe { (reader.library)(null(), 0, null_mut(), 0, null_mut(), 0) };
        tally.named(&format!("{}, null pointers", reader.name), &code, &given);
    }
    let file = bare(17, 0);
    let given = unsafe { hs_read_prefix(file.as_ptr(), file.len(), null_mut(), 0, null_mut(), 0) };
    tally.named("no slots, no out", &HS_ACCEPTED, &given);
    let expected = numbers_of(&Verdict::Wanted(4));
    let mut out = [9; HS_READER_OUT];
    let code = unsafe { hs_read_prefix(null(), 0, null_mut(), 0, out.as_mut_ptr(), out.len()) };
    tally.named("no bytes", &expected, &(code, out));
}
