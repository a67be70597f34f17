//! All directories and all references of a volume, and the file reference of a
//! metrics entry, beside the reference.

use super::queries::{count, indexes};
use super::{volume_list_points, Run};
use crate::boundary::{compare_pairs, compare_query, Asked};
use crate::generate::bare::{one_volume_of, volume_entry, HEADS};
use crate::generate::cuts::{cuts, query_cuts};
use crate::generate::damage::{damage, edits, AIMS, AIMS_BEHIND_HEAD};
use crate::generate::{any, rich, set_32, set_64, Sample};
use crate::random::Random;
use crate::reference::checks::entry_start;
use crate::reference::head::{metrics_count, section, version, volume_count, METRICS, VOLUMES};
use crate::reference::layout::LAYOUTS;
use crate::reference::queries::{self as reference, Reference};
use crate::reference::volume_lists::{directories, references, Directory};
use crate::reference::volumes;
use crate::tally::{hex, Kinds, Tally};
use hivesaddle::raw;

pub fn run(run: &Run, tally: &mut Tally) {
    volume_list_points::run(tally);
    let mut lists = Lists { random: run.random("volume_lists"), tally, seen: Seen::new() };
    lists.sound_files(1_500 * run.scale);
    lists.damaged_files(3_000 * run.scale);
    lists.edited_files(6_000 * run.scale);
    lists.long_lists();
    lists.seen.kinds.report(lists.tally, 100);
}

struct Lists<'a> {
    random: Random,
    tally: &'a mut Tally,
    seen: Seen,
}

impl Lists<'_> {
    fn sound_files(&mut self, rounds: usize) {
        for _ in 0..rounds {
            let mut sample = any(&mut self.random);
            self.set_references(&mut sample.bytes);
            let mut lengths = cuts(&sample);
            lengths.extend(query_cuts(&sample));
            for length in lengths {
                self.prefix(&sample.bytes[..length]);
            }
            self.safe_calls(&sample);
        }
    }

    /// Faults that a list minds, and those that it doesn't.
    fn damaged_files(&mut self, rounds: usize) {
        for round in 0..rounds {
            let mut sample = rich(&mut self.random);
            let aims = if round % 2 == 0 { &AIMS[..] } else { AIMS_BEHIND_HEAD };
            let number = *self.random.pick(aims);
            damage(&mut self.random, &mut sample, number);
            self.prefix(&sample.bytes);
            let length = *self.random.pick(&cuts(&sample));
            self.prefix(&sample.bytes[..length]);
            self.safe_calls(&sample);
        }
    }

    fn edited_files(&mut self, rounds: usize) {
        for _ in 0..rounds {
            let mut sample = any(&mut self.random);
            edits(&mut self.random, &mut sample);
            self.prefix(&sample.bytes);
        }
    }

    /// Some references of entries not set, and some at the ends of their bits.
    fn set_references(&mut self, file: &mut [u8]) {
        if version(file) == 17 {
            return;
        }
        for i in 0..metrics_count(file) {
            let at = entry_start(file, i) as usize + 24;
            let odd = [0, 1, u64::MAX, 1 << 48, (1 << 48) - 1, 1 << 63, self.random.next()];
            set_64(file, at, *self.random.pick(&odd));
        }
    }

    fn prefix(&mut self, file: &[u8]) {
        for i in indexes(count(file, volume_count)) {
            self.seen.volume(file, i);
            self.directories(file, i);
            self.references(file, i);
        }
        for i in indexes(count(file, metrics_count)) {
            self.entry_reference(file, i);
        }
    }

    /// No room, for half of a pair, for some, for all and for more.
    fn rooms(&mut self, pairs: usize) -> [usize; 2] {
        let all = 2 * pairs;
        let any = self.random.below(all + 4);
        let one = *self.random.pick(&[0, 1, all.saturating_sub(1), all, all + 1, all + 3]);
        self.seen.kinds.note("room for none", pairs > 0 && any.min(one) == 0);
        self.seen.kinds.note("room for half a pair", pairs > 0 && any % 2 == 1 && any < all);
        self.seen.kinds.note("room for some", any > 1 && any < all);
        self.seen.kinds.note("room for all", pairs > 0 && one == all);
        self.seen.kinds.note("room for more", one > all);
        [any, one]
    }

    fn directories(&mut self, file: &[u8], i: u64) {
        let expected = directories(file, i);
        self.seen.directories(&expected);
        let pairs: Vec<[u32; 2]> = expected.iter().map(directory_pair).collect();
        for length in self.rooms(pairs.len()) {
            let input = || format!("directories of {i} of {}", hex(file));
            let asked = Asked { what: "directories", input };
            compare_pairs(&mut self.random, self.tally, asked, &pairs, length, |list| unsafe {
                raw::hs_directories(file.as_ptr(), file.len(), i, list.as_mut_ptr(), list.len())
            });
        }
    }

    fn references(&mut self, file: &[u8], i: u64) {
        let expected = references(file, i);
        self.seen.kinds.note("several references", expected.len() > 1);
        let pairs: Vec<[u64; 2]> = expected.iter().map(reference_pair).collect();
        for length in self.rooms(pairs.len()) {
            let input = || format!("references of {i} of {}", hex(file));
            let asked = Asked { what: "references", input };
            compare_pairs(&mut self.random, self.tally, asked, &pairs, length, |list| unsafe {
                raw::hs_references(file.as_ptr(), file.len(), i, list.as_mut_ptr(), list.len())
            });
        }
    }

    fn entry_reference(&mut self, file: &[u8], i: u64) {
        let reference = reference::entry_reference(file, i);
        self.seen.entry_reference(file, i, &reference);
        let numbers = reference.map(|reference| match reference {
            Some(Reference { entry_index, sequence_number }) => [1, entry_index, sequence_number],
            None => [0; 3],
        });
        let input = || format!("{i} of {}", hex(file));
        let asked = Asked { what: "entry reference", input };
        compare_query(&mut self.random, self.tally, asked, numbers, |out| unsafe {
            raw::hs_entry_reference(file.as_ptr(), file.len(), i, out.as_mut_ptr(), out.len())
        });
    }

    /// A directory is handed back as the very bytes of the file.
    fn safe_calls(&mut self, sample: &Sample) {
        let file = &sample.bytes[..];
        let input = || hex(file);
        for i in 0..count(file, volume_count).min(4) {
            let place = |text: &&[u8]| {
                let offset = (text.as_ptr() as usize).wrapping_sub(file.as_ptr() as usize);
                [offset as u32, text.len() as u32 / 2]
            };
            let given: Vec<_> = hivesaddle::directories(file, i).iter().map(place).collect();
            let expected: Vec<_> = directories(file, i).iter().map(directory_pair).collect();
            self.tally.same("safe directories", &expected, &given, input);
            let given: Vec<_> = hivesaddle::references(file, i)
                .iter()
                .map(|reference| [reference.entry_index, reference.sequence_number.into()])
                .collect();
            let expected: Vec<_> = references(file, i).iter().map(reference_pair).collect();
            self.tally.same("safe references", &expected, &given, input);
            let counts = hivesaddle::volume(file, i).map_or((0, 0), |volume| {
                (u64::from(volume.directories), u64::from(volume.references))
            });
            let full = (
                hivesaddle::directories_into(file, i, &mut []),
                hivesaddle::references_into(file, i, &mut []),
            );
            self.tally.same("the counts of the volume", &counts, &full, input);
        }
        for i in 0..count(file, metrics_count).min(8) {
            let given = hivesaddle::entry_reference(file, i).map(|entry| {
                entry.reference.map(|r| Reference {
                    entry_index: r.entry_index,
                    sequence_number: r.sequence_number.into(),
                })
            });
            let expected = reference::entry_reference(file, i);
            self.tally.same("safe entry reference", &expected, &given, input);
        }
    }

    /// Many of each: directories of 0 to 2 units, and references of noise.
    fn long_lists(&mut self) {
        const MANY: usize = 3_000;
        for (version, _) in HEADS {
            let entry = volume_entry(version);
            let mut data = self.random.bytes(8 + 8 * MANY);
            set_32(&mut data, 4, MANY as u32);
            let offset = entry + data.len() as u32;
            for k in 0..MANY {
                data.extend([(k % 3) as u8, 0]);
                data.extend(vec![0x41; 2 * (k % 3)]);
                data.extend([0, 0]);
            }
            let size = 8 + 8 * MANY as u32;
            let fields = [0, 0, entry, size, offset, MANY as u32];
            let file = one_volume_of(version, fields, &data);
            for _ in 0..4 {
                self.directories(&file, 0);
                self.references(&file, 0);
            }
            self.directories(&file[..file.len() - 1], 0);
            self.references(&file[..file.len() - 1], 0);
        }
    }
}

pub fn directory_pair(directory: &Directory) -> [u32; 2] {
    [directory.offset as u32, directory.units as u32]
}

pub fn reference_pair(reference: &Reference) -> [u64; 2] {
    [reference.entry_index, reference.sequence_number]
}

/// How often each kind has come up.
struct Seen {
    kinds: Kinds,
}

impl Seen {
    fn new() -> Seen {
        let kinds = [
            "room for none",
            "room for half a pair",
            "room for some",
            "room for all",
            "room for more",
            "no directory",
            "several directories",
            "an empty directory",
            "several references",
            "no such volume",
            "checks 1 to 6 fail",
            "more volumes than fit",
            "the section is cut",
            "a fault of 14",
            "a fault of 15",
            "another volume at fault",
            "a reference",
            "a reference that is not set",
            "no such field",
            "no such entry",
            "an entry that can't be shown",
        ];
        let versions = || LAYOUTS.iter().map(|layout| layout.version.into());
        let kinds = Kinds::new("volume_lists", &kinds);
        let kinds = kinds.with_each("volume of version", versions());
        Seen { kinds: kinds.with_each("entry of version", versions()) }
    }

    /// Why it can't be shown, if it can't.
    fn volume(&mut self, file: &[u8], i: u64) {
        let kinds = &mut self.kinds;
        if reference::volume(file, i).is_some() {
            kinds.note_each("volume of version", version(file).into());
            let fault = |other| volumes::fault(file, other).is_some();
            let faulty = (0..volume_count(file)).take(8).any(fault);
            return kinds.note("another volume at fault", faulty);
        }
        if !reference::head_and_sections_pass(file) {
            return kinds.note("checks 1 to 6 fail", true);
        }
        let entry = LAYOUTS.iter().find(|layout| layout.version == version(file));
        let entry = entry.expect("a known version").volume_entry;
        let volumes = section(file, VOLUMES);
        if volume_count(file) * entry > volumes.length {
            return kinds.note("more volumes than fit", true);
        }
        if i >= volume_count(file) {
            return kinds.note("no such volume", true);
        }
        if volumes.end() > file.len() as u64 {
            return kinds.note("the section is cut", true);
        }
        let number = volumes::fault(file, i).expect("nothing else is left");
        kinds.note(&format!("a fault of {number}"), true);
    }

    fn directories(&mut self, list: &[Directory]) {
        self.kinds.note("no directory", list.is_empty());
        self.kinds.note("several directories", list.len() > 1);
        let empty = list.iter().any(|directory| directory.units == 0);
        self.kinds.note("an empty directory", empty);
    }

    fn entry_reference(&mut self, file: &[u8], i: u64, reference: &Option<Option<Reference>>) {
        let kinds = &mut self.kinds;
        match reference {
            Some(found) => {
                kinds.note_each("entry of version", version(file).into());
                let unset = Reference { entry_index: 0, sequence_number: 0 };
                kinds.note("a reference", found.is_some_and(|found| found != unset));
                kinds.note("a reference that is not set", *found == Some(unset));
                kinds.note("no such field", found.is_none());
            }
            None if reference::head_and_sections_pass(file) => {
                let is_entry = i < metrics_count(file) && !section(file, METRICS).is_empty();
                kinds.note("no such entry", !is_entry);
                kinds.note("an entry that can't be shown", is_entry);
            }
            None => {}
        }
    }
}
