//! The path search, as quick as one would write it by hand: one pass over a
//! name for its zero units and its hash.

use super::*;
use hivesaddle::FoundPath;

/// The greatest number that is added to a hash.
const MOST: u32 = 8;

pub fn find_path(file: &[u8]) -> Option<FoundPath> {
    let search = Search::of(file).ok()?;
    let (mut least, mut found) = (MOST + 1, None);
    for (entry, number) in search.numbers() {
        if number < least {
            (least, found) = (number, Some(FoundPath { entry: entry as u64, number }));
        }
        if least == 0 {
            break;
        }
    }
    found
}

/// The names are hashed once to count and, where any is found, once more to
/// put each pair where the counts say.
pub fn list_paths(file: &[u8], pairs: &mut [u32]) -> u64 {
    let Ok(search) = Search::of(file) else {
        return 0;
    };
    let mut counts = [0; MOST as usize + 1];
    search.numbers().for_each(|(_, number)| counts[number as usize] += 1);
    let (mut next, mut total) = ([0; MOST as usize + 1], 0);
    for (place, count) in next.iter_mut().zip(counts) {
        *place = total;
        total += count;
    }
    if total > 0 && pairs.len() >= 2 {
        for (entry, number) in search.numbers() {
            let place = &mut next[number as usize];
            if let Some(pair) = pairs.get_mut(2 * *place..2 * *place + 2) {
                pair.copy_from_slice(&[entry as u32, number]);
            }
            *place += 1;
        }
    }
    total as u64
}

/// What is the same for all names of a file.
struct Search<'a> {
    layout: &'static Layout,
    entries: &'a [u8],
    strings: &'a [u8],
    version: usize,
    stored: u32,
}

impl<'a> Search<'a> {
    fn of(file: &'a [u8]) -> Result<Search<'a>, Refusal> {
        let (layout, [metrics, _, strings, _]) = opening(file)?;
        Ok(Search {
            layout,
            entries: there(file, &metrics),
            strings: there(file, &strings),
            version: number(file, 0),
            stored: number(file, 76) as u32,
        })
    }

    /// The entries that match, each with its number.
    fn numbers(&self) -> impl Iterator<Item = (usize, u32)> + '_ {
        let entries = self.entries.chunks_exact(self.layout.metrics_entry);
        entries.enumerate().filter_map(|(entry, bytes)| {
            let name = name(self.strings, bytes, self.layout)?;
            let number = self.stored.wrapping_sub(hash(self.version, name)?);
            (number <= MOST).then_some((entry, number))
        })
    }
}

/// Checks 1 to 6, with 21 among them.
fn opening(file: &[u8]) -> Result<(&'static Layout, [Section; 4]), Refusal> {
    let layout = layout(file)?;
    let size = declared_size(file, layout)?;
    program_name(file)?;
    form(file)?;
    need(file, layout.head_end)?;
    Ok((layout, sections(file, layout, size)?))
}

/// As much of a section as there is.
fn there<'a>(file: &'a [u8], section: &Section) -> &'a [u8] {
    match section.length {
        0 => &[],
        _ => &file[section.start.min(file.len())..section.end().min(file.len())],
    }
}

/// The units of a name that has its zero unit; a zero among them is found
/// with the hash.
fn name<'a>(strings: &'a [u8], entry: &[u8], layout: &Layout) -> Option<&'a [u8]> {
    let start = number(entry, layout.name_offset);
    let length = 2 * number(entry, layout.name_offset + 4);
    let (units, last) = strings.get(start..start + length + 2)?.split_at(length);
    is_zero(last).then_some(units)
}

const SEED: u32 = 314_159;

fn step(h: u32, c: u32) -> u32 {
    h.wrapping_mul(37).wrapping_add(c)
}

/// 37 to the eighth, wrapped at 32 bits: negated, it is 2008's 803794207.
const POWER_OF_EIGHT: u32 = 3_491_173_089;

/// Eight plain steps from 0. They do not wait for the hash so far.
fn sum_of_eight(eight: [u8; 8]) -> u32 {
    eight.into_iter().fold(0, |sum, byte| step(sum, byte.into()))
}

/// Whether one of four units is zero: taking 1 from it sets its top bit.
fn zero_in_four(units: [u8; 8]) -> bool {
    const ONES: u64 = 0x0001_0001_0001_0001;
    let units = u64::from_le_bytes(units);
    units.wrapping_sub(ONES) & !units & ONES << 15 != 0
}

/// The plain step over all bytes, eight at a time; none where a unit is zero.
fn steps(name: &[u8], from: u32) -> Option<u32> {
    let (mut h, mut zero) = (from, false);
    let eights = name.chunks_exact(8);
    let rest = eights.remainder();
    for eight in eights {
        let eight = array(eight, 0);
        zero |= zero_in_four(eight);
        h = h.wrapping_mul(POWER_OF_EIGHT).wrapping_add(sum_of_eight(eight));
    }
    for unit in rest.chunks_exact(2) {
        zero |= is_zero(unit);
        h = step(step(h, unit[0].into()), unit[1].into());
    }
    (!zero).then_some(h)
}

fn hash_xp(name: &[u8]) -> Option<u32> {
    let h = steps(name, 0)?.wrapping_mul(314_159_269);
    Some((h as i32).unsigned_abs() % 1_000_000_007)
}

/// Vista and 2008 are equal, so versions 23, 26 and 30 have the same.
fn hash(version: usize, name: &[u8]) -> Option<u32> {
    match version {
        17 => hash_xp(name),
        _ => steps(name, SEED),
    }
}

#[cfg(test)]
mod beside_the_reference {
    use super::*;
    use crate::generate::any;
    use crate::generate::damage::edits;
    use crate::random::Random;
    use crate::reference::search;

    fn same(random: &mut Random, file: &[u8]) -> bool {
        let expected = search::find_path(file).map(|found| (found.entry, found.number));
        let given = find_path(file).map(|found| (found.entry, found.number.into()));
        assert_eq!(expected, given);
        let all = search::list_paths(file);
        let numbers: Vec<u32> =
            all.iter().flat_map(|found| [found.entry as u32, found.number as u32]).collect();
        let mut pairs = vec![77; random.below(numbers.len() + 4)];
        let fitting = numbers.len().min(pairs.len() / 2 * 2);
        assert_eq!(list_paths(file, &mut pairs), all.len() as u64);
        assert_eq!(pairs[..fitting], numbers[..fitting]);
        assert!(pairs[fitting..].iter().all(|&number| number == 77));
        given.is_some()
    }

    #[test]
    fn sound_edited_and_cut_files() {
        let mut random = Random::new(4);
        let mut found = 0;
        for _ in 0..20_000 {
            let mut sample = any(&mut random);
            found += same(&mut random, &sample.bytes) as u32;
            edits(&mut random, &mut sample);
            found += same(&mut random, &sample.bytes) as u32;
            sample.bytes.truncate(random.below(sample.bytes.len()));
            found += same(&mut random, &sample.bytes) as u32;
        }
        assert!(found > 5_000, "{found}");
    }
}
