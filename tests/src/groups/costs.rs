//! What a file costs to look at, beside the reference and with answers by hand.

use super::Run;
use crate::boundary::{compare_query, Asked};
use crate::generate::bare::{bare, one_volume_of, volume_entry, with_names, HEADS};
use crate::generate::cuts::{cuts, query_cuts};
use crate::generate::damage::{damage, edits, volume_start, AIMS, AIMS_BEHIND_HEAD};
use crate::generate::{any, rich, set_32, sound_of, Counts, Sample};
use crate::random::Random;
use crate::reference::checks::{entry_start, name_of_entry};
use crate::reference::cost::{cost, Cost};
use crate::reference::head::*;
use crate::reference::layout::LAYOUTS;
use crate::reference::queries::head_and_sections_pass;
use crate::reference::readers::{read_file, Verdict};
use crate::reference::volume_lists::directories;
use crate::tally::{hex, Kinds, Tally};
use hivesaddle::raw;
use std::ops::Range;
use std::ptr::{null, null_mut};

pub fn run(run: &Run, tally: &mut Tally) {
    points(tally);
    let mut costs = Costs { random: run.random("costs"), tally, seen: Seen::new() };
    costs.sound_files(1_500 * run.scale);
    costs.damaged_files(4_000 * run.scale);
    costs.edited_files(10_000 * run.scale);
    costs.directory_counts(300 * run.scale);
    costs.largest_sums();
    costs.seen.kinds.report(costs.tally, 100);
}

struct Costs<'a> {
    random: Random,
    tally: &'a mut Tally,
    seen: Seen,
}

impl Costs<'_> {
    fn sound_files(&mut self, rounds: usize) {
        for _ in 0..rounds {
            let sample = any(&mut self.random);
            let mut lengths = cuts(&sample);
            lengths.extend(query_cuts(&sample));
            lengths.extend(volume_cuts(&sample.bytes));
            for length in lengths {
                self.file(&sample.bytes[..length]);
            }
            self.accepted(&sample);
        }
    }

    fn damaged_files(&mut self, rounds: usize) {
        for round in 0..rounds {
            let mut sample = rich(&mut self.random);
            let aims = if round % 2 == 0 { &AIMS[..] } else { AIMS_BEHIND_HEAD };
            let number = *self.random.pick(aims);
            damage(&mut self.random, &mut sample, number);
            self.file(&sample.bytes);
            let length = *self.random.pick(&cuts(&sample));
            self.file(&sample.bytes[..length]);
        }
    }

    fn edited_files(&mut self, rounds: usize) {
        for _ in 0..rounds {
            let mut sample = any(&mut self.random);
            edits(&mut self.random, &mut sample);
            self.file(&sample.bytes);
        }
    }

    /// Around a quarter of the section's size, and near the ends of 30 and of 32
    /// bits, where four times as many wrap.
    fn directory_counts(&mut self, rounds: usize) {
        for _ in 0..rounds {
            let layout = self.random.pick(&LAYOUTS);
            let counts = Counts { metrics: 1, trace: 0, volumes: self.random.between(1, 3) };
            let mut file = sound_of(&mut self.random, layout, counts).bytes;
            let quarter = section(&file, VOLUMES).length as u32 / 4;
            let last = u32::MAX;
            for i in 0..counts.volumes as u64 {
                let near = [0, 1, quarter - 1, quarter, quarter + 1];
                let huge = [1 << 30, (1 << 30) + 1, (1 << 30) - 1, 1 << 31, last, last - 1];
                let count = *self.random.pick(&[&near[..], &huge[..]].concat());
                let at = volume_start(&file, i) + 32;
                set_32(&mut file, at, count);
            }
            self.file(&file);
        }
    }

    fn file(&mut self, file: &[u8]) {
        let cost = cost(file);
        self.seen.answer(file, &cost);
        let numbers = cost.map(|cost| [cost.names, cost.directories]);
        let asked = Asked { what: "cost", input: || hex(file) };
        compare_query(&mut self.random, self.tally, asked, numbers, |out| unsafe {
            raw::hs_cost(file.as_ptr(), file.len(), out.as_mut_ptr(), out.len())
        });
        let given = hivesaddle::cost(file).map(|cost| [cost.names, cost.directories]);
        self.tally.same("safe cost", &numbers, &given, || hex(file));
    }

    /// Where nothing is shared in an accepted file, the library's sums are no
    /// more than the sizes of the sections.
    fn accepted(&mut self, sample: &Sample) {
        let file = &sample.bytes[..];
        let verdict = read_file(file, sample.places).verdict;
        let (Verdict::Accepted(_), Some(cost)) = (verdict, hivesaddle::cost(file)) else {
            return;
        };
        let names = (0..metrics_count(file)).map(|i| {
            let name = name_of_entry(file, i);
            name.offset..name.end()
        });
        if share_nothing(names.collect()) {
            let holds = cost.names <= section(file, STRINGS).length;
            self.seen.kinds.note("no names share a byte", metrics_count(file) > 1);
            self.tally.holds("names that share no byte", holds, || hex(file));
        }
        let texts = (0..volume_count(file)).flat_map(|i| directories(file, i));
        let texts = texts.map(|text| text.offset - 2..text.offset + 2 * text.units + 2).collect();
        if share_nothing(texts) {
            let holds = cost.directories <= section(file, VOLUMES).length;
            self.seen.kinds.note("no directories share a byte", cost.directories > 4);
            self.tally.holds("directories that share no byte", holds, || hex(file));
        }
    }

    /// Sums past 32 bits: as many entries as a few megabytes hold, each with all
    /// of the strings for its name, or with more directories than there can be.
    fn largest_sums(&mut self) {
        const ENTRIES: usize = 40_000;
        let units = 100_000;
        let mut strings = vec![0x41; 2 * units + 2];
        strings[2 * units..].fill(0);
        for (version, _) in HEADS {
            let file = with_names(version, &vec![(0, units as u32); ENTRIES], &strings);
            self.file(&file);
            let names = ENTRIES as u64 * 200_002;
            let expected = Some(Cost { names, directories: 0 });
            self.tally.named("names past 32 bits", &expected, &cost(&file));
            let entry = volume_entry(version);
            let size = entry * ENTRIES as u32;
            let mut file = bare(version, size);
            let start = file.len() as u32 - size;
            set_32(&mut file, 108, start);
            set_32(&mut file, 112, ENTRIES as u32);
            set_32(&mut file, 116, size);
            for i in 0..ENTRIES {
                set_32(&mut file, start as usize + i * entry as usize + 32, u32::MAX);
            }
            self.file(&file);
            let directories = ENTRIES as u64 * u64::from(size);
            let expected = Some(Cost { names: 0, directories });
            self.tally.named("directories past 32 bits", &expected, &cost(&file));
        }
    }
}

/// Around the end of every volume entry of a sound file.
fn volume_cuts(file: &[u8]) -> Vec<usize> {
    let entry = known_layout(file).volume_entry as usize;
    let end = |i| volume_start(file, i) + entry;
    (0..volume_count(file)).flat_map(|i| [end(i) - 1, end(i)]).collect()
}

fn share_nothing(mut parts: Vec<Range<u64>>) -> bool {
    parts.sort_by_key(|part| part.start);
    parts.windows(2).all(|two| two[0].end <= two[1].start)
}

/// The library and the reference both have to give these two numbers, or none.
fn costs(tally: &mut Tally, name: &str, file: &[u8], numbers: Option<(u64, u64)>) {
    let given = hivesaddle::cost(file).map(|cost| (cost.names, cost.directories));
    tally.named(name, &numbers, &given);
    tally.named(name, &numbers, &cost(file).map(|cost| (cost.names, cost.directories)));
}

fn points(tally: &mut Tally) {
    for (version, head_end) in HEADS {
        costs(tally, "nothing", &bare(version, 0), Some((0, 0)));
        costs(tally, "a byte short of H", &bare(version, 0)[..head_end as usize - 1], None);
        names(tally, version);
        volumes(tally, version, head_end);
    }
    let given = unsafe { raw::hs_cost(null(), 0, null_mut(), 0) };
    tally.named("cost, null", &0, &given);
}

/// "AB" once, twice over itself, and beside names that fit just so and not.
fn names(tally: &mut Tally, version: u32) {
    let strings = b"A\0B\0\0\0";
    let cases: [(&[(u32, u32)], u64); 10] = [
        (&[(0, 2)], 6),
        (&[(0, 2), (0, 2), (2, 1), (4, 0)], 18),
        // rule 9 alone counts, not the text
        (&[(0, 1), (1, 1)], 8),
        (&[(0, 3)], 0),
        (&[(1, 2), (0, 2)], 6),
        (&[(4, 0), (5, 0), (6, 0)], 2),
        (&[(u32::MAX, 0), (u32::MAX - 1, 0), (0, 0)], 2),
        (&[(0, u32::MAX), (0, 1 << 31), (0, (1 << 31) - 1)], 0),
        (&[(0, (1 << 31) + 2), (1 << 31, 1 << 30)], 0),
        (&[(u32::MAX - 3, 1), (2, 1)], 4),
    ];
    for (names, sum) in cases {
        let file = with_names(version, names, strings);
        let name = format!("version {version}, names {names:?}");
        costs(tally, &name, &file, Some((sum, 0)));
        // The strings need not be there.
        costs(tally, &name, &file[..file.len() - 6], Some((sum, 0)));
    }
    let mut file = with_names(version, &[(0, 2), (0, 1), (0, 0)], strings);
    let entry = if version == 17 { 20 } else { 32 };
    let end = file.len() - 6;
    costs(tally, "three entries", &file[..end], Some((12, 0)));
    costs(tally, "a byte of the third missing", &file[..end - 1], Some((10, 0)));
    costs(tally, "two entries", &file[..end - entry], Some((10, 0)));
    costs(tally, "a byte of the second missing", &file[..end - entry - 1], Some((6, 0)));
    costs(tally, "no entry", &file[..end - 3 * entry], Some((0, 0)));
    costs(tally, "the first without a byte", &file[..end - 2 * entry - 1], Some((0, 0)));
    // Without strings no name fits.
    let size = file.len() as u32;
    set_32(&mut file, 104, 0);
    costs(tally, "no strings", &file, Some((0, 0)));
    set_32(&mut file, 104, 7);
    costs(tally, "check 5", &file, None);
    set_32(&mut file, 12, size + 1);
    costs(tally, "a byte more of strings", &file[..size as usize], Some((12, 0)));
}

/// Four for each directory, at most the section's size.
fn volumes(tally: &mut Tally, version: u32, head_end: u32) {
    let entry = volume_entry(version);
    let data = vec![0xFF; 24];
    let size = entry + 24;
    let limit = size.into();
    for (count, sum) in [
        (0, 0),
        (1, 4),
        (2, 8),
        (size / 4 - 1, limit - 4),
        (size / 4, limit),
        (size / 4 + 1, limit),
        (1 << 30, limit),
        ((1 << 30) + 1, limit),
        (u32::MAX, limit),
    ] {
        let file = one_volume_of(version, [u32::MAX, 9, 1, 1, u32::MAX, count], &data);
        let name = format!("version {version}, {count} directories");
        costs(tally, &name, &file, Some((0, sum)));
        let cut = (head_end + entry) as usize;
        costs(tally, &name, &file[..cut], Some((0, sum)));
        costs(tally, "the entry without a byte", &file[..cut - 1], Some((0, 0)));
        for (volumes, sum) in [(0, 0), (2, sum), (u32::MAX, sum)] {
            let mut file = file.clone();
            set_32(&mut file, 112, volumes);
            let name = format!("version {version}, {volumes} volumes where one fits");
            costs(tally, &name, &file, Some((0, sum)));
        }
    }
    // Not a multiple of four.
    let file = one_volume_of(version, [0, 0, 0, 0, 0, size / 4 + 1], &data[..23]);
    costs(tally, "a size that four does not divide", &file, Some((0, limit - 1)));
    // Two entries, of which the section has one and a part.
    let mut file = one_volume_of(version, [0, 0, 0, 0, 0, 3], &vec![1; entry as usize - 1]);
    set_32(&mut file, 112, 2);
    costs(tally, "an entry and most of another", &file, Some((0, 12)));
    // The same bytes in a file with one more, behind the section.
    file.push(1);
    let length = file.len() as u32;
    set_32(&mut file, 12, length);
    costs(tally, "its last byte behind the section", &file, Some((0, 12)));
    set_32(&mut file, 116, 2 * entry);
    let all = 12 + u64::from(2 * entry);
    costs(tally, "and inside", &file, Some((0, all)));
    // An empty section has no entries, wherever it is said to be.
    set_32(&mut file, 116, 0);
    for offset in [0, head_end, u32::MAX] {
        set_32(&mut file, 108, offset);
        costs(tally, "no section", &file, Some((0, 0)));
    }
}

/// How often each kind has come up.
struct Seen {
    kinds: Kinds,
}

impl Seen {
    fn new() -> Seen {
        let kinds = [
            "no",
            "names beyond the strings' size",
            "a name that doesn't fit",
            "an entry cut off",
            "a name cut off and counted",
            "a volume cut off behind one that counts",
            "more volumes than the section holds",
            "directories as the count says",
            "as many as the section's size",
            "four times the count wraps",
            "no names share a byte",
            "no directories share a byte",
        ];
        let versions = LAYOUTS.iter().map(|layout| layout.version.into());
        Seen { kinds: Kinds::new("costs", &kinds).with_each("both in version", versions) }
    }

    fn answer(&mut self, file: &[u8], cost: &Option<Cost>) {
        let kinds = &mut self.kinds;
        let Some(cost) = cost else {
            return kinds.note("no", true);
        };
        assert!(head_and_sections_pass(file));
        if cost.names > 0 && cost.directories > 0 {
            kinds.note_each("both in version", version(file).into());
        }
        self.names(file, cost);
        self.volumes(file);
    }

    fn names(&mut self, file: &[u8], cost: &Cost) {
        let kinds = &mut self.kinds;
        let length = file.len() as u64;
        let strings = section(file, STRINGS);
        kinds.note("names beyond the strings' size", cost.names > strings.length);
        let end = |i| entry_start(file, i) + known_layout(file).metrics_entry;
        let there: Vec<u64> =
            (0..metrics_count(file)).take(10).filter(|&i| end(i) <= length).collect();
        let cut = (there.len() as u64) < metrics_count(file).min(10);
        kinds.note("an entry cut off", cut && cost.names > 0);
        let fits = |i: &u64| name_of_entry(file, *i).end() <= strings.length;
        kinds.note("a name that doesn't fit", there.iter().any(|i| !fits(i)));
        let behind = |i: &u64| strings.start + name_of_entry(file, *i).end() > length;
        kinds.note("a name cut off and counted", there.iter().any(|i| fits(i) && behind(i)));
    }

    fn volumes(&mut self, file: &[u8]) {
        let kinds = &mut self.kinds;
        let (volumes, entry) = (section(file, VOLUMES), known_layout(file).volume_entry);
        let held = volumes.length / entry;
        let count = volume_count(file);
        let end = |i| volumes.start + (i + 1) * entry;
        let there: Vec<u64> =
            (0..count.min(held).min(10)).filter(|&i| end(i) <= file.len() as u64).collect();
        let more = count > held && !there.is_empty();
        kinds.note("more volumes than the section holds", more);
        let cut = !there.is_empty() && (there.len() as u64) < count.min(held).min(10);
        kinds.note("a volume cut off behind one that counts", cut);
        for i in there {
            let at = (volumes.start + i * entry + 32) as usize;
            let directories = number_32(file, at);
            let as_said = directories > 0 && 4 * directories < volumes.length;
            kinds.note("directories as the count says", as_said);
            kinds.note("as many as the section's size", 4 * directories >= volumes.length);
            kinds.note("four times the count wraps", directories >= 1 << 30);
        }
    }
}
