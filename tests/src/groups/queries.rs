//! Queries about one entry, the number of slots and the path search
//! beside the reference.

use super::Run;
use crate::boundary::{compare_pairs, compare_query, Asked};
use crate::generate::cuts::{cuts, query_cuts};
use crate::generate::damage::{damage, edits, AIMS};
use crate::generate::{any, rich, Sample};
use crate::random::Random;
use crate::reference::head::{metrics_count, volume_count};
use crate::reference::queries as reference;
use crate::reference::queries::Part;
use crate::reference::search::{find_path, list_paths, Found};
use crate::tally::{hex, Tally};
use hivesaddle::raw;

pub fn run(run: &Run, tally: &mut Tally) {
    let mut queries = Queries { random: run.random("queries"), tally, seen: Seen::default() };
    super::query_points::run(queries.tally);
    queries.sound_files(1_500 * run.scale);
    queries.damaged_files(3_000 * run.scale);
    queries.edited_files(10_000 * run.scale);
    queries.seen.report(queries.tally);
}

struct Queries<'a> {
    random: Random,
    tally: &'a mut Tally,
    seen: Seen,
}

impl Queries<'_> {
    fn sound_files(&mut self, rounds: usize) {
        for _ in 0..rounds {
            let sample = any(&mut self.random);
            let mut lengths = cuts(&sample);
            lengths.extend(query_cuts(&sample));
            for length in lengths {
                self.prefix(&sample, length);
            }
            self.safe_calls(&sample);
        }
    }

    /// One fault or two, among them those that a query does not mind.
    fn damaged_files(&mut self, rounds: usize) {
        for _ in 0..rounds {
            let mut sample = rich(&mut self.random);
            let last = AIMS.len() - 1;
            let mut places = [self.random.between(0, last), self.random.between(4, last)];
            places.sort();
            for &place in places[self.random.below(2)..].iter().rev() {
                damage(&mut self.random, &mut sample, AIMS[place]);
            }
            self.prefix(&sample, sample.bytes.len());
            for _ in 0..3 {
                let length = *self.random.pick(&cuts(&sample));
                self.prefix(&sample, length);
            }
            self.safe_calls(&sample);
        }
    }

    fn edited_files(&mut self, rounds: usize) {
        for _ in 0..rounds {
            let mut sample = any(&mut self.random);
            edits(&mut self.random, &mut sample);
            self.prefix(&sample, sample.bytes.len());
        }
    }

    /// All queries on the first bytes of the sample.
    fn prefix(&mut self, sample: &Sample, length: usize) {
        let file = &sample.bytes[..length];
        self.places(file);
        self.program_name(file);
        for i in indexes(count(file, metrics_count)) {
            self.entry_name(file, i);
        }
        for i in indexes(count(file, volume_count)) {
            self.volume(file, i);
        }
        self.find_path(file);
        self.list_paths(file);
    }

    fn places(&mut self, file: &[u8]) {
        let places = reference::places(file);
        self.seen.places.answer(places.is_some());
        self.ask("places", file, "", places.map(|places| [places]), |out| unsafe {
            raw::hs_places(file.as_ptr(), file.len(), out.as_mut_ptr(), out.len())
        });
    }

    fn program_name(&mut self, file: &[u8]) {
        let name = reference::program_name(file);
        self.seen.program_name.answer(name.is_some());
        self.ask("program name", file, "", name.map(part_numbers), |out| unsafe {
            raw::hs_program_name(file.as_ptr(), file.len(), out.as_mut_ptr(), out.len())
        });
    }

    fn entry_name(&mut self, file: &[u8], i: u64) {
        let name = reference::entry_name(file, i);
        self.seen.entry_name.answer(name.is_some());
        self.ask("entry name", file, &format!("{i}"), name.map(part_numbers), |out| unsafe {
            raw::hs_entry_name(file.as_ptr(), file.len(), i, out.as_mut_ptr(), out.len())
        });
    }

    fn volume(&mut self, file: &[u8], i: u64) {
        let volume = reference::volume(file, i);
        self.seen.volume.answer(volume.is_some());
        let numbers = volume.map(|volume| placed(file, i, volume)).map(volume_numbers);
        self.ask("volume", file, &format!("{i}"), numbers, |out| unsafe {
            raw::hs_volume(file.as_ptr(), file.len(), i, out.as_mut_ptr(), out.len())
        });
        match volume {
            Some(volume) => {
                for k in indexes(volume.references) {
                    self.reference(file, i, k);
                }
            }
            None => self.reference(file, i, 0),
        }
    }

    fn reference(&mut self, file: &[u8], i: u64, k: u64) {
        let reference = reference::reference(file, i, k);
        self.seen.reference.answer(reference.is_some());
        let numbers = reference.map(|reference| [reference.entry_index, reference.sequence_number]);
        self.ask("reference", file, &format!("{i}, {k}"), numbers, |out| unsafe {
            raw::hs_reference(file.as_ptr(), file.len(), i, k, out.as_mut_ptr(), out.len())
        });
    }

    fn find_path(&mut self, file: &[u8]) {
        let found = find_path(file);
        self.seen.path.answer(found.is_some());
        let numbers = found.map(|found| [found.entry, found.number]);
        self.ask("path search", file, "", numbers, |out| unsafe {
            raw::hs_find_path(file.as_ptr(), file.len(), out.as_mut_ptr(), out.len())
        });
    }

    /// Into a list of any length.
    fn list_paths(&mut self, file: &[u8]) {
        let found = list_paths(file);
        self.seen.list(&found);
        let pairs: Vec<[u32; 2]> =
            found.iter().map(|found| [found.entry as u32, found.number as u32]).collect();
        let length = self.random.below(2 * pairs.len() + 4);
        let asked = Asked { what: "list of paths", input: || hex(file) };
        compare_pairs(&mut self.random, self.tally, asked, &pairs, length, |list| unsafe {
            raw::hs_list_paths(file.as_ptr(), file.len(), list.as_mut_ptr(), list.len())
        });
    }

    /// One query: 1 and the numbers, or 0 and as many zeros.
    fn ask<const N: usize>(
        &mut self,
        what: &str,
        file: &[u8],
        which: &str,
        numbers: Option<[u64; N]>,
        call: impl FnOnce(&mut [u64]) -> u32,
    ) {
        let asked = Asked { what, input: || format!("{which} of {}", hex(file)) };
        compare_query(&mut self.random, self.tally, asked, numbers, call);
    }

    /// The safe calls hand back the very bytes of the file.
    fn safe_calls(&mut self, sample: &Sample) {
        let file = &sample.bytes[..];
        let input = || hex(file);
        let place = |part: &[u8]| part_numbers(place_of(file, part));
        let places = hivesaddle::places(file).map(|places| places as u64);
        self.tally.same("places", &reference::places(file), &places, input);
        let name = hivesaddle::program_name(file).map(place);
        self.tally.same(
            "program_name",
            &reference::program_name(file).map(part_numbers),
            &name,
            input,
        );
        for i in 0..count(file, metrics_count).min(8) {
            let name = hivesaddle::entry_name(file, i).map(place);
            let expected = reference::entry_name(file, i).map(part_numbers);
            self.tally.same("entry_name", &expected, &name, input);
        }
        for i in 0..count(file, volume_count).min(4) {
            self.safe_volume(file, i);
        }
        let found = hivesaddle::find_path(file).map(safe_found);
        self.tally.same("find_path", &find_path(file), &found, input);
        let found: Vec<Found> =
            hivesaddle::list_paths_alloc(file).into_iter().map(safe_found).collect();
        self.tally.same("list_paths_alloc", &list_paths(file), &found, input);
    }

    fn safe_volume(&mut self, file: &[u8], i: u64) {
        let input = || format!("{i} of {}", hex(file));
        let expected = reference::volume(file, i).map(|volume| placed(file, i, volume));
        let given = hivesaddle::volume(file, i).map(|volume| {
            let path = place_of(file, volume.path);
            [
                volume.creation_time,
                volume.serial_number as u64,
                volume.references as u64,
                volume.directories as u64,
                path.offset,
                path.length,
            ]
        });
        self.tally.same("volume", &expected.map(volume_numbers), &given, input);
        for k in 0..expected.map_or(0, |volume| volume.references) {
            let expected = reference::reference(file, i, k)
                .map(|reference| (reference.entry_index, reference.sequence_number));
            let given = hivesaddle::reference(file, i, k)
                .map(|reference| (reference.entry_index, reference.sequence_number as u64));
            self.tally.same("reference", &expected, &given, input);
        }
    }
}

/// A count from the head, where the bytes have got that far.
pub fn count(file: &[u8], field: fn(&[u8]) -> u64) -> u64 {
    if file.len() < 120 {
        return 1;
    }
    field(file)
}

/// The first few, those around the count, and some that would come back to
/// the first ones in 32 bits or in a product of 64.
pub fn indexes(count: u64) -> Vec<u64> {
    let mut list: Vec<u64> = (0..count.min(6)).collect();
    list.extend([count.saturating_sub(1), count, count + 1, 1 << 32, u64::MAX]);
    list.extend([20, 32, 40, 96, 104, 8].map(|entry| u64::MAX / entry + 1));
    list
}

fn part_numbers(part: Part) -> [u64; 2] {
    [part.offset, part.length]
}

fn volume_numbers(volume: reference::Volume) -> [u64; 6] {
    [
        volume.creation_time,
        volume.serial_number,
        volume.references,
        volume.directories,
        volume.path.offset,
        volume.path.length,
    ]
}

/// The papers leave open where an empty path of no units stands: any place in
/// the file will do.
fn placed(file: &[u8], i: u64, mut volume: reference::Volume) -> reference::Volume {
    if volume.path_has_a_place {
        return volume;
    }
    let mut out = [0; 6];
    unsafe { raw::hs_volume(file.as_ptr(), file.len(), i, out.as_mut_ptr(), out.len()) };
    if out[4] <= file.len() as u64 {
        volume.path.offset = out[4];
    }
    volume
}

fn place_of(file: &[u8], part: &[u8]) -> Part {
    let offset = (part.as_ptr() as usize).wrapping_sub(file.as_ptr() as usize);
    Part { offset: offset as u64, length: part.len() as u64 }
}

/// The safe call's answer, as the reference would say it.
fn safe_found(found: hivesaddle::FoundPath) -> Found {
    Found { entry: found.entry, number: found.number.into() }
}

#[derive(Default)]
struct Count {
    yes: u64,
    no: u64,
}

impl Count {
    fn answer(&mut self, yes: bool) {
        if yes {
            self.yes += 1;
        } else {
            self.no += 1;
        }
    }
}

/// How often each query had a yes and a no for its answer.
#[derive(Default)]
struct Seen {
    places: Count,
    program_name: Count,
    entry_name: Count,
    volume: Count,
    reference: Count,
    path: Count,
    /// Lists that begin with each number.
    numbers: [u64; 9],
    /// Lists with one number twice, with several numbers, and those whose
    /// least number is not at the least of their entries.
    one_number: u64,
    numbers_differ: u64,
    least_is_later: u64,
}

impl Seen {
    fn list(&mut self, found: &[Found]) {
        let Some(first) = found.first() else {
            return;
        };
        self.numbers[first.number as usize] += 1;
        self.one_number += found.windows(2).any(|two| two[0].number == two[1].number) as u64;
        self.numbers_differ += found.iter().any(|other| other.number != first.number) as u64;
        self.least_is_later += found.iter().any(|other| other.entry < first.entry) as u64;
    }

    fn report(&self, tally: &mut Tally) {
        let counts = [
            ("places", &self.places),
            ("program name", &self.program_name),
            ("entry name", &self.entry_name),
            ("volume", &self.volume),
            ("reference", &self.reference),
            ("path", &self.path),
        ];
        let shown: Vec<String> = counts
            .iter()
            .map(|(name, count)| format!("{name} {}/{}", count.yes, count.no))
            .collect();
        println!("queries: yes/no by query: {}", shown.join(", "));
        self.report_lists(tally);
        for (name, count) in counts {
            let both = count.yes > 1_000 && count.no > 1_000;
            tally.named(&format!("{name}: both answers have come up"), &true, &both);
        }
    }

    fn report_lists(&self, tally: &mut Tally) {
        let numbers =
            (0..).zip(self.numbers).map(|(number, count)| (format!("number {number}"), count));
        let kinds = [
            ("one number twice".to_string(), self.one_number),
            ("several numbers".to_string(), self.numbers_differ),
            ("the least number at a later entry".to_string(), self.least_is_later),
        ];
        let counts: Vec<(String, u64)> = numbers.chain(kinds).collect();
        let shown: Vec<String> =
            counts.iter().map(|(name, count)| format!("{name}: {count}")).collect();
        println!("paths: {}", shown.join(", "));
        for (name, count) in counts {
            tally.named(&format!("paths: {name} has come up often"), &true, &(count >= 100));
        }
    }
}
