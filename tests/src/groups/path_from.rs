//! The path search from another start beside the reference.

use super::queries::{count, indexes};
use super::{path_from_points, Run};
use crate::boundary::{compare_query, Asked};
use crate::generate::cuts::{cuts, query_cuts};
use crate::generate::damage::{damage, edits, AIMS, AIMS_BEHIND_HEAD};
use crate::generate::rooted::{any, Rooted};
use crate::generate::Sample;
use crate::random::Random;
use crate::reference::hashes::{bytes, hash_joined};
use crate::reference::head::{
    known_layout, metrics_count, stored_hash, version, volume_count, Section,
};
use crate::reference::head::{section, VOLUMES};
use crate::reference::layout::LAYOUTS;
use crate::reference::path_from::{find_path_from, rests};
use crate::reference::queries::{entry_name, head_and_sections_pass, volume, Part};
use crate::reference::search::{find_path, list_paths, Found};
use crate::tally::{hex, Kinds, Tally};
use hivesaddle::raw;

pub fn run(run: &Run, tally: &mut Tally) {
    path_from_points::run(tally);
    let mut paths = Paths { random: run.random("path_from"), tally, seen: Seen::new() };
    paths.sound_files(4_000 * run.scale);
    paths.damaged_files(4_000 * run.scale);
    paths.edited_files(6_000 * run.scale);
    paths.seen.kinds.report(paths.tally, 100);
}

struct Paths<'a> {
    random: Random,
    tally: &'a mut Tally,
    seen: Seen,
}

impl Paths<'_> {
    fn sound_files(&mut self, rounds: usize) {
        for _ in 0..rounds {
            let rooted = any(&mut self.random);
            self.every_volume(&rooted);
            let sample = Sample { bytes: rooted.bytes.clone(), places: 0 };
            let mut lengths = cuts(&sample);
            lengths.extend(query_cuts(&sample));
            for _ in 0..8 {
                let length = *self.random.pick(&lengths);
                self.ask(&rooted.bytes[..length], rooted.volume, &rooted.start);
            }
        }
    }

    /// One fault, among them those that the search does not mind.
    fn damaged_files(&mut self, rounds: usize) {
        for round in 0..rounds {
            let Rooted { bytes, volume, start } = any(&mut self.random);
            let mut sample = Sample { bytes, places: 3 };
            let aims = if round % 2 == 0 { &AIMS[..] } else { AIMS_BEHIND_HEAD };
            let number = *self.random.pick(aims);
            damage(&mut self.random, &mut sample, number);
            self.every_volume(&Rooted { bytes: sample.bytes, volume, start });
        }
    }

    fn edited_files(&mut self, rounds: usize) {
        for _ in 0..rounds {
            let Rooted { bytes, volume, start } = any(&mut self.random);
            let mut sample = Sample { bytes, places: 3 };
            edits(&mut self.random, &mut sample);
            self.ask(&sample.bytes, volume, &start);
        }
    }

    /// From the start for the volume that it is meant for, for the others and
    /// for some that there are not; and from other starts.
    fn every_volume(&mut self, rooted: &Rooted) {
        let (file, start) = (&rooted.bytes[..], &rooted.start[..]);
        self.ask(file, rooted.volume, start);
        for i in indexes(count(file, volume_count).min(3)) {
            self.ask(file, i, start);
            self.own_path(file, i);
        }
        let longer = [start, &[self.random.byte()]].concat();
        self.ask(file, rooted.volume, &longer);
        self.ask(file, rooted.volume, &start[..start.len() / 2]);
    }

    fn ask(&mut self, file: &[u8], i: u64, start: &[u8]) {
        let found = find_path_from(file, i, start);
        self.seen.answer(file, i, start, &found);
        let numbers = found.map(|found| [found.entry, found.number]);
        let input = || format!("from {} for {i} of {}", hex(start), hex(file));
        let asked = Asked { what: "path search from another start", input };
        compare_query(&mut self.random, self.tally, asked, numbers, |out| unsafe {
            raw::hs_find_path_from(
                file.as_ptr(),
                file.len(),
                i,
                start.as_ptr(),
                start.len(),
                out.as_mut_ptr(),
                out.len(),
            )
        });
        let given = hivesaddle::find_path_from(file, i, start)
            .map(|found| Found { entry: found.entry, number: found.number.into() });
        self.tally.same("safe path search from another start", &found, &given, input);
    }

    /// With the volume's own path the answer is that of the path search, over
    /// the entries that take part: the library's own, by its two calls.
    fn own_path(&mut self, file: &[u8], i: u64) {
        let Some(path) = hivesaddle::volume(file, i).map(|volume| volume.path) else {
            return;
        };
        self.ask(file, i, path);
        let taking_part: Vec<u64> = rests(file, i).iter().map(|(entry, _)| *entry).collect();
        let first = hivesaddle::list_paths_alloc(file)
            .into_iter()
            .find(|found| taking_part.contains(&found.entry));
        self.seen.kinds.note("found from its own path", first.is_some());
        let given = hivesaddle::find_path_from(file, i, path);
        self.tally.same("from its own path", &first, &given, || format!("{i} of {}", hex(file)));
    }
}

/// How often each kind has come up.
struct Seen {
    kinds: Kinds,
}

impl Seen {
    fn new() -> Seen {
        let kinds = [
            "none of those that take part",
            "none takes part",
            "nothing behind the path",
            "the first of two",
            "the least number at a later entry",
            "found, and not by the path search",
            "found by the path search, and not from the start",
            "found from its own path",
            "another unit behind the path would match",
            "another path of that length would match",
            "9 or one below would match",
            "an odd start, found",
            "an empty start, found",
            "a path cut by a zero, found",
            "on a part of the file, found",
            "an entry before it can't be shown",
            "an empty path",
            "no such volume",
            "a volume that can't be shown",
            "checks 1 to 6 fail",
        ];
        let versions = LAYOUTS.iter().map(|layout| layout.version.into());
        let kinds = Kinds::new("path_from", &kinds).with_each("found in version", versions);
        Seen { kinds: kinds.with_each("number", 0..=8) }
    }

    fn answer(&mut self, file: &[u8], i: u64, start: &[u8], found: &Option<Found>) {
        let kinds = &mut self.kinds;
        if !head_and_sections_pass(file) {
            return kinds.note("checks 1 to 6 fail", true);
        }
        let Some(shown) = volume(file, i) else {
            let is_volume = i < volume_count(file);
            kinds.note("no such volume", !is_volume);
            return kinds.note("a volume that can't be shown", is_volume);
        };
        kinds.note("an empty path", shown.path.length == 0);
        let short = shortfalls(file, i, start);
        kinds.note("none takes part", short.is_empty());
        let past = |(_, short): &(u64, u32)| *short == 9 || *short == u32::MAX;
        kinds.note("9 or one below would match", found.is_none() && short.iter().any(past));
        kinds.note("none of those that take part", !short.is_empty() && found.is_none());
        self.refused_names(file, start, &shown.path);
        if let Some(found) = found {
            self.found(file, i, start, found, &short);
        } else if let Some(other) = find_path(file) {
            let takes_part = short.iter().any(|(entry, _)| *entry == other.entry);
            let kind = "found by the path search, and not from the start";
            self.kinds.note(kind, takes_part);
        }
    }

    fn found(&mut self, file: &[u8], i: u64, start: &[u8], found: &Found, short: &[(u64, u32)]) {
        let kinds = &mut self.kinds;
        kinds.note_each("found in version", version(file).into());
        kinds.note_each("number", found.number);
        let rests = rests(file, i);
        let empty = rests.iter().any(|(entry, rest)| *entry == found.entry && rest.is_empty());
        kinds.note("nothing behind the path", empty);
        let equal = short.iter().filter(|(_, short)| u64::from(*short) == found.number);
        kinds.note("the first of two", equal.count() > 1);
        let earlier = |(entry, short): &(u64, u32)| *entry < found.entry && *short <= 8;
        kinds.note("the least number at a later entry", short.iter().any(earlier));
        let by_name = list_paths(file).iter().any(|other| other.entry == found.entry);
        kinds.note("found, and not by the path search", !by_name);
        kinds.note("an odd start, found", start.len() % 2 == 1);
        kinds.note("an empty start, found", start.is_empty());
        let Section { start: volumes, .. } = section(file, VOLUMES);
        let entry = (volumes + i * known_layout(file).volume_entry) as usize;
        let units = u32::from_le_bytes(file[entry + 4..entry + 8].try_into().expect("four bytes"));
        let path = volume(file, i).expect("an entry was found").path;
        kinds.note("a path cut by a zero, found", u64::from(2 * units) > path.length);
        let size = u32::from_le_bytes(file[12..16].try_into().expect("four bytes"));
        kinds.note("on a part of the file, found", file.len() < size as usize);
        let hidden = (0..found.entry).any(|entry| entry_name(file, entry).is_none());
        kinds.note("an entry before it can't be shown", hidden);
    }

    /// Names that would be found if they took part.
    fn refused_names(&mut self, file: &[u8], start: &[u8], path: &Part) {
        let text = |part: Part| &file[part.offset as usize..][..part.length as usize];
        let path = text(*path);
        for entry in 0..metrics_count(file).min(10) {
            let Some(name) = entry_name(file, entry).map(text) else { continue };
            if path.is_empty() || name.len() < path.len() {
                continue;
            }
            let (front, rest) = name.split_at(path.len());
            if shortfall(file, start, rest) > 8 {
                continue;
            }
            let follows = rest.is_empty() || rest[..2] == [0x5C, 0];
            self.kinds.note("another unit behind the path would match", front == path && !follows);
            self.kinds.note("another path of that length would match", front != path && follows);
        }
    }
}

/// How much each entry that takes part is short of the stored hash.
fn shortfalls(file: &[u8], i: u64, start: &[u8]) -> Vec<(u64, u32)> {
    let short = |(entry, rest)| (entry, shortfall(file, start, rest));
    rests(file, i).into_iter().map(short).collect()
}

fn shortfall(file: &[u8], start: &[u8], rest: &[u8]) -> u32 {
    let hash = hash_joined(version(file), &bytes(start), &bytes(rest));
    (stored_hash(file) as u32).wrapping_sub(hash)
}
