//! Version 30: the head form that its metrics offset tells, trace entries
//! without links, and volume entries of its own size. Points on either edge
//! with answers by hand, and then seeded files beside the reference.

use super::reader_points::{check_answer, part, refused, whole};
use super::Run;
use crate::boundary::{compare_both, PREFIX_READER, WHOLE_READER};
use crate::generate::bare::{bare, bare_record, with_names, START_30};
use crate::generate::cuts::cuts;
use crate::generate::damage::{aims_of, damage};
use crate::generate::shapes::mixed;
use crate::generate::{set_16, set_32, sound_of, Counts, Sample};
use crate::random::Random;
use crate::reference::head::{section, METRICS, TRACE};
use crate::reference::layout::{forms_of, Layout, END};
use crate::reference::queries;
use crate::reference::readers::{read_file, read_prefix, Answer, Record, Verdict};
use crate::tally::{hex, Tally};

pub fn run(run: &Run, tally: &mut Tally) {
    prefix_lengths(tally);
    starts(tally);
    starts_of_other_versions(tally);
    sizes(tally);
    order_of_checks(tally);
    trace_sections(tally);
    trace_edges(tally);
    trace_beside_others(tally);
    volume_entries(tally);
    offsets_behind_the_head(tally);
    largest_file(tally);
    let mut random = run.random("version_30");
    let mut seeded = Seeded { random: &mut random, tally };
    seeded.prefixes(60 * run.scale);
    seeded.trace_noise(2_000 * run.scale);
    seeded.starts_in_sound_files(500 * run.scale);
    seeded.faults(60 * run.scale);
}

fn accepted(file: &[u8]) -> Verdict {
    Verdict::Accepted(bare_record(file))
}

/// What the library and the reference show of a file: whether its head form is
/// known, by the slots that it needs, and whether its program name is there.
fn shows(tally: &mut Tally, name: &str, file: &[u8], places: Option<u64>, program_name: bool) {
    let given = hivesaddle::places(file).map(|places| places as u64);
    tally.named(&format!("{name}, slots"), &places, &given);
    tally.named(&format!("{name}, slots"), &places, &queries::places(file));
    let given = hivesaddle::program_name(file).is_some();
    tally.named(&format!("{name}, program name"), &program_name, &given);
    let given = queries::program_name(file).is_some();
    tally.named(&format!("{name}, program name"), &program_name, &given);
}

/// Every length of a good file up to its end at 220.
fn prefix_lengths(tally: &mut Tally) {
    let file = bare(30, 8);
    for length in 0..=220usize {
        let name = format!("the first {length} bytes");
        let verdict = match length {
            0..=3 => Verdict::Wanted(4),
            4..=7 => Verdict::Wanted(8),
            8..=15 => Verdict::Wanted(16),
            16..=75 => Verdict::Wanted(76),
            76..=87 => Verdict::Wanted(88),
            88..=211 => Verdict::Wanted(212),
            _ => accepted(&file),
        };
        part(tally, &name, &file[..length], verdict);
        let verdict = if length < 220 { refused(16, 0, 12) } else { verdict };
        whole(tally, &name, &file[..length], verdict);
        shows(tally, &name, &file[..length], (length >= 212).then_some(0), length >= 76);
    }
}

/// Metrics offsets that are no start of a known form.
const OTHER_STARTS: [u32; 18] = [
    0,
    1,
    84,
    148,
    152,
    212,
    240,
    295,
    296,
    297,
    303,
    305,
    312,
    304 + 256,
    304 << 8,
    304 | 1 << 16,
    304 | 1 << 31,
    u32::MAX,
];

/// By the offset as it stands, with an empty array and with one entry.
fn starts(tally: &mut Tally) {
    let empty = bare(30, 200);
    let filled = with_names(30, &[(0, 1)], b"A\0\0\0");
    for (what, sound, metrics_count) in [("empty", empty, 0), ("filled", filled, 1)] {
        let record = Record { metrics_count, ..bare_record(&sound) };
        whole(tally, &format!("start 304, {what}"), &sound, Verdict::Accepted(record));
        for start in OTHER_STARTS {
            let mut file = sound.clone();
            set_32(&mut file, 84, start);
            let name = format!("start {start}, {what}");
            part(tally, &name, &file[..87], Verdict::Wanted(88));
            whole(tally, &name, &file[..87], refused(16, 0, 12));
            for length in [88, 89, 211, 212, file.len()] {
                part(tally, &name, &file[..length], refused(21, 0, 84));
                whole(tally, &name, &file[..length], refused(21, 0, 84));
                shows(tally, &name, &file[..length], None, true);
            }
            nothing_shown(tally, &name, &file);
        }
    }
}

/// Of a file whose form is not known only the program name can be had.
fn nothing_shown(tally: &mut Tally, name: &str, file: &[u8]) {
    tally.named(name, &None, &hivesaddle::entry_name(file, 0));
    tally.named(name, &None, &hivesaddle::volume(file, 0));
    tally.named(name, &None, &hivesaddle::reference(file, 0, 0));
    tally.named(name, &None, &hivesaddle::find_path(file));
    tally.named(name, &0, &hivesaddle::list_paths(file, &mut []));
}

/// Other versions pass 21 at once and ask for nothing.
fn starts_of_other_versions(tally: &mut Tally) {
    for (version, head_end) in [(17, 148), (23, 156), (26, 212)] {
        let mut file = bare(version, 0);
        for start in OTHER_STARTS.into_iter().chain([START_30]) {
            set_32(&mut file, 84, start);
            let name = format!("version {version}, start {start}");
            part(tally, &name, &file[..76], Verdict::Wanted(head_end));
            part(tally, &name, &file[..87], Verdict::Wanted(head_end));
            whole(tally, &name, &file, accepted(&file));
        }
    }
}

/// The array may be empty and S below its start.
fn sizes(tally: &mut Tally) {
    let mut file = bare(30, 100);
    for size in [212u32, 213, 303, 304, 305] {
        set_32(&mut file, 12, size);
        let name = format!("S = {size}");
        whole(tally, &name, &file[..size as usize], accepted(&file[..size as usize]));
    }
    for size in [0, 84, 211] {
        set_32(&mut file, 12, size);
        let name = format!("S = {size}");
        part(tally, &name, &file[..16], refused(3, 0, 12));
        part(tally, &name, &file, refused(3, 0, 12));
        shows(tally, &name, &file, None, false);
    }
    // One entry of 32 bytes at 304, and no strings for its name.
    set_32(&mut file, 88, 1);
    for (size, verdict) in [
        (303, refused(5, 1, 84)),
        (304, refused(5, 1, 84)),
        (335, refused(5, 1, 84)),
        (336, Verdict::Wanted(336)),
    ] {
        set_32(&mut file, 12, size);
        part(tally, &format!("S = {size}, one entry"), &file[..212], verdict);
    }
    file.resize(336, 0);
    whole(tally, "one entry without strings", &file, refused(9, 0, 304 + 12));
}

/// 21 stands behind 4 and before 5.
fn order_of_checks(tally: &mut Tally) {
    let mut file = bare(30, 40);
    set_32(&mut file, 84, 296);
    // A strings section past S, one on it, and volumes without room: 5, 6, 8.
    let later: [&[(usize, u32)]; 3] =
        [&[(104, 1)], &[(100, 212), (104, 8), (108, 212), (116, 8)], &[(112, 1)]];
    for fields in later {
        let mut file = file.clone();
        for &(field, number) in fields {
            set_32(&mut file, field, number);
        }
        let name = format!("21 and {fields:?}");
        part(tally, &name, &file[..88], refused(21, 0, 84));
        part(tally, &name, &file, refused(21, 0, 84));
    }
    for place in 0..30 {
        set_16(&mut file, 16 + 2 * place, 65);
    }
    part(tally, "4 and 21", &file[..76], refused(4, 0, 16));
    part(tally, "4 and 21", &file, refused(4, 0, 16));
    set_32(&mut file, 12, 211);
    part(tally, "3, 4 and 21", &file, refused(3, 0, 12));
    file[4] = 0;
    part(tally, "2, 3, 4 and 21", &file, refused(2, 0, 4));
    set_32(&mut file, 0, 29);
    part(tally, "1 before all", &file, refused(1, 0, 0));
}

/// Three entries right behind the head, up to S: 24 bytes.
fn with_trace(bytes: &[u8]) -> Vec<u8> {
    let mut file = bare(30, bytes.len() as u32);
    set_32(&mut file, 92, 212);
    set_32(&mut file, 96, bytes.len() as u32 / 8);
    file[212..].copy_from_slice(bytes);
    file
}

/// No link is looked at, no slot is needed, and the section is not waited for.
fn trace_sections(tally: &mut Tally) {
    let mut own_next = Vec::new();
    for entry in 0..3u32 {
        own_next.extend(entry.to_le_bytes());
        own_next.extend([0; 4]);
    }
    let contents = [vec![0; 24], vec![0xFF; 24], own_next, b"????????????????????????".to_vec()];
    for bytes in &contents {
        let file = with_trace(bytes);
        let record = Record { trace_count: 3, ..bare_record(&file) };
        for places in [0, 1, 2, 3, 4, 50] {
            let answer =
                Answer { verdict: Verdict::Accepted(record), predecessors: vec![END; places] };
            let name = format!("trace bytes {bytes:?}, {places} slots");
            check_answer(tally, &name, WHOLE_READER, &file, &answer);
            for length in [212, 213, 235, 236] {
                check_answer(tally, &name, PREFIX_READER, &file[..length], &answer);
            }
            let refusal = Answer { verdict: refused(16, 0, 12), ..answer };
            check_answer(tally, &name, WHOLE_READER, &file[..235], &refusal);
        }
        shows(tally, "a trace section", &file, Some(0), true);
        let table = hivesaddle::read_file_alloc(&file).map(|contents| contents.predecessors);
        tally.named("a trace section, slots allocated", &Ok(vec![]), &table);
    }
}

/// Entries of 8 bytes count in 5.
fn trace_edges(tally: &mut Tally) {
    let mut file = with_trace(&[0; 24]);
    let record = |trace_count| Verdict::Accepted(Record { trace_count, ..bare_record(&file) });
    let outside = refused(5, 2, 92);
    // Count, offset and verdict, in a file of 236 bytes.
    let cases = [
        (3, 212, record(3)),
        (3, 211, outside),
        (3, 213, outside),
        (2, 220, record(2)),
        (2, 221, outside),
        (4, 212, outside),
        (1, 228, record(1)),
        (1, 229, outside),
        (1, 0, outside),
        (1, u32::MAX - 7, outside),
        // 8 past 2 to the 32, and nothing past it.
        (536_870_913, 212, outside),
        (536_870_912, 212, outside),
        (u32::MAX, 212, outside),
        (0, 0, record(0)),
        (0, u32::MAX, record(0)),
    ];
    for (count, offset, verdict) in cases {
        set_32(&mut file, 96, count);
        set_32(&mut file, 92, offset);
        let name = format!("{count} entries at {offset}");
        part(tally, &name, &file[..212], verdict);
        whole(tally, &name, &file, verdict);
    }
}

/// And in 6: two entries, 16 bytes, with a byte less or more between them and
/// the other sections.
fn trace_beside_others(tally: &mut Tally) {
    let mut sound = with_names(30, &[(0, 1)], b"A\0\0\0");
    let end = sound.len() as u32;
    sound.resize(end as usize + 40, 0);
    set_32(&mut sound, 12, end + 40);
    set_32(&mut sound, 96, 2);
    set_32(&mut sound, 108, end + 20);
    set_32(&mut sound, 116, 4);
    let record = Record { metrics_count: 1, trace_count: 2, ..bare_record(&sound) };
    let apart = Verdict::Accepted(record);
    // Metrics from 304 to 336, strings to 340, volumes data from 360 to 364.
    let cases = [
        (288, apart),
        (289, refused(6, 2, 92)),
        (304, refused(6, 2, 92)),
        (335, refused(6, 2, 92)),
        (336, refused(6, 3, 100)),
        (339, refused(6, 3, 100)),
        (340, apart),
        (344, apart),
        (345, refused(6, 4, 108)),
        (363, refused(6, 4, 108)),
        (364, apart),
    ];
    for (offset, verdict) in cases {
        let mut file = sound.clone();
        set_32(&mut file, 92, offset);
        whole(tally, &format!("two trace entries at {offset}"), &file, verdict);
    }
}

/// Entries of 96 bytes, on the edge of 8, and where the second begins.
fn volume_entries(tally: &mut Tally) {
    for (size, count, fits) in [
        (0, 1, false),
        (95, 1, false),
        (96, 1, true),
        (191, 2, false),
        (192, 2, true),
        (192, 3, false),
        // Times 96, 64 past 2 to the 32.
        (192, 44_739_243, false),
    ] {
        let mut file = bare(30, size);
        set_32(&mut file, 108, 212);
        set_32(&mut file, 112, count);
        set_32(&mut file, 116, size);
        let record = Record { volume_count: count as u64, ..bare_record(&file) };
        let verdict = if fits { Verdict::Accepted(record) } else { refused(8, 0, 112) };
        whole(tally, &format!("{count} volumes in {size} bytes"), &file, verdict);
        let shown = hivesaddle::volume(&file, count as u64 - 1).is_some();
        tally.named(&format!("the last of {count} in {size} bytes"), &fits, &shown);
    }
    let mut file = bare(30, 192);
    set_32(&mut file, 108, 212);
    set_32(&mut file, 112, 2);
    set_32(&mut file, 116, 192);
    set_32(&mut file, 212 + 96 + 16, 0xABCD_EF01);
    let serial_number = hivesaddle::volume(&file, 1).map(|volume| volume.serial_number);
    tally.named("the second volume", &Some(0xABCD_EF01), &serial_number);
    set_32(&mut file, 212 + 96 + 24, 7);
    whole(tally, "a fault in the second", &file, refused(14, 1, 212 + 96));
}

/// Three of everything, and then one fault in the last: the offset is that of
/// the entry or of its field.
fn offsets_behind_the_head(tally: &mut Tally) {
    // The trace section before the metrics array, the others behind it.
    let (trace, strings, volumes) = (216, 304 + 96 + 4, 304 + 96 + 12);
    let mut sound = bare(30, volumes + 3 * 96 - 212);
    let fields = [
        (88, 3),
        (92, trace),
        (96, 3),
        (100, strings),
        (104, 4),
        (108, volumes),
        (112, 3),
        (116, 288),
    ];
    for (field, number) in fields {
        set_32(&mut sound, field, number);
    }
    for i in 0..3 {
        set_32(&mut sound, 304 + i * 32 + 16, 1);
    }
    sound[strings as usize] = b'A';
    let record =
        Record { metrics_count: 3, trace_count: 3, volume_count: 3, ..bare_record(&sound) };
    whole(tally, "three of everything", &sound, Verdict::Accepted(record));
    let name = 304 + 2 * 32 + 12;
    let entry = volumes as usize + 2 * 96;
    let cases: [(&str, &[(usize, u32)], u64, usize); 5] = [
        ("a name offset", &[(name, 1)], 9, name),
        ("a name without its zero", &[(name + 4, 0)], 10, name),
        ("a path", &[(entry + 4, u32::MAX)], 14, entry),
        ("references", &[(entry + 24, 7)], 14, entry),
        // Directories at the first volume's creation time: no units, then 1.
        (
            "a directory",
            &[(volumes as usize + 8, 1 << 16), (entry + 28, 8), (entry + 32, 1)],
            15,
            entry,
        ),
    ];
    for (what, faults, number, offset) in cases {
        let mut file = sound.clone();
        for &(at, value) in faults {
            set_32(&mut file, at, value);
        }
        whole(tally, &format!("offset of {what}"), &file, refused(number, 2, offset as u64));
    }
}

/// As many trace entries as the largest file can have, more than any version
/// with links, and no slot.
fn largest_file(tally: &mut Tally) {
    let entries = 8_388_581;
    let mut file = bare(30, 67_108_864 - 212);
    set_32(&mut file, 92, 212);
    set_32(&mut file, 96, entries);
    let record = Record { trace_count: entries as u64, ..bare_record(&file) };
    let answer = Answer { verdict: Verdict::Accepted(record), predecessors: vec![] };
    check_answer(tally, "the largest file", WHOLE_READER, &file, &answer);
    check_answer(tally, "the largest file", PREFIX_READER, &file[..212], &answer);
    shows(tally, "the largest file", &file[..212], Some(0), true);
    set_32(&mut file, 96, entries + 1);
    part(tally, "one entry more", &file[..212], refused(5, 2, 92));
}

struct Seeded<'a> {
    random: &'a mut Random,
    tally: &'a mut Tally,
}

fn layout() -> &'static Layout {
    forms_of(30).next().expect("version 30 has a form")
}

impl Seeded<'_> {
    fn sound(&mut self) -> Sample {
        let random = &mut self.random;
        let counts = Counts {
            metrics: *random.pick(&[0, 1, 3, 6]),
            trace: *random.pick(&[0, 1, 2, 5, 12]),
            volumes: *random.pick(&[0, 1, 3]),
        };
        sound_of(random, layout(), counts)
    }

    fn both(&mut self, file: &[u8], places: usize) {
        compare_both(self.random, self.tally, file, places);
    }

    /// Every length, with some number of slots or none.
    fn prefixes(&mut self, rounds: usize) {
        for _ in 0..rounds {
            let sample = self.sound();
            for length in 0..=sample.bytes.len() {
                let places = *self.random.pick(&[0, 0, 1, sample.places, 20]);
                self.both(&sample.bytes[..length], places);
            }
        }
    }

    /// Other bytes in the trace section, among them links that other versions
    /// would refuse, change nothing.
    fn trace_noise(&mut self, rounds: usize) {
        for _ in 0..rounds {
            let mut sample = self.sound();
            let section = section(&sample.bytes, TRACE);
            if section.is_empty() {
                continue;
            }
            let places = self.random.below(15);
            let before = (read_prefix(&sample.bytes, places), read_file(&sample.bytes, places));
            let range = section.start as usize..section.end() as usize;
            let stride = *self.random.pick(&[4, 8, 12]);
            let links = mixed(self.random, 40);
            for (place, link) in range.clone().step_by(stride).zip(links) {
                let bytes = link.to_le_bytes();
                let fitting = (range.end - place).min(4);
                sample.bytes[place..place + fitting].copy_from_slice(&bytes[..fitting]);
            }
            let after = compare_both(self.random, self.tally, &sample.bytes, places);
            let input = || hex(&sample.bytes);
            self.tally.same("trace noise", &before, &(after.prefix, after.whole), input);
        }
    }

    /// Each start in a file that is sound but for it.
    fn starts_in_sound_files(&mut self, rounds: usize) {
        for _ in 0..rounds {
            let Sample { bytes: mut file, places } = self.sound();
            let empty = section(&file, METRICS).is_empty();
            let start = match self.random.one_in(3) {
                true => START_30,
                false => *self.random.pick(&OTHER_STARTS),
            };
            set_32(&mut file, 84, start);
            let answer = read_file(&file, places).verdict;
            let sound = matches!(answer, Verdict::Accepted(_));
            let input = || format!("start {start}, empty {empty}, {}", hex(&file));
            self.tally.same("a start", &(start == START_30), &sound, input);
            let sample = Sample { bytes: file, places };
            for length in cuts(&sample) {
                self.both(&sample.bytes[..length], places);
            }
        }
    }

    /// One fault that the version can have, at every cut and with no slots too.
    fn faults(&mut self, rounds: usize) {
        for number in aims_of(layout()) {
            let mut hits = 0;
            for _ in 0..rounds {
                let counts = Counts { metrics: 3, trace: 5, volumes: 2 };
                let mut sample = sound_of(self.random, layout(), counts);
                damage(self.random, &mut sample, number);
                let answer = read_prefix(&sample.bytes, 0).verdict;
                hits += matches!(answer, Verdict::Refused(refusal) if refusal.number == number)
                    as usize;
                for length in cuts(&sample) {
                    self.both(&sample.bytes[..length], 0);
                    self.both(&sample.bytes[..length], sample.places);
                }
            }
            self.tally.named(&format!("aim {number} has hit"), &true, &(hits > 0));
        }
    }
}
