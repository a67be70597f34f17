//! Files whose names begin with the path of a volume, or nearly, and a start to
//! put in its place.

use super::aimed::tail_with_hash;
use super::strings::{unit, Name, Strings};
use super::{aimed_at, few, lay_out, links, metrics_section, trace_section, volumes, Contents};
use crate::random::Random;
use crate::reference::hashes;
use crate::reference::layout::{Layout, LAYOUTS};
use crate::reference::search::hash_of;

const BACKSLASH: u16 = 0x5C;
/// Units that are no backslash, but nearly.
const NO_BACKSLASH: [u16; 6] = [0x30, 0x2F, 0x015C, 0x5C00, 0x5C5C, 0xD800];

/// A file, the volume whose path most names are made from, and a start.
#[derive(Clone, Debug)]
pub struct Rooted {
    pub bytes: Vec<u8>,
    pub volume: u64,
    pub start: Vec<u8>,
}

pub fn any(random: &mut Random) -> Rooted {
    let layout = random.pick(&LAYOUTS);
    any_of(random, layout)
}

pub fn any_of(random: &mut Random, layout: &Layout) -> Rooted {
    let paths = paths(random);
    let volume = random.below(paths.len());
    let start = start(random, &paths, volume);
    let stored_hash = stored_hash(random, layout, &start);
    let aim = Aim { version: layout.version, stored: stored_hash, start: &start };
    let names = random.between(1, 8);
    let strings = strings(random, &paths, volume, &aim, names);
    let trace = few(random, 3);
    let links = links(random, trace);
    let noisy: Vec<Vec<u16>> = paths.iter().map(|path| cut_by_zero(random, path)).collect();
    let contents = Contents {
        metrics: metrics_section(random, layout, &strings),
        trace: trace_section(random, layout, &links),
        volumes: volumes::with_paths(random, layout, &noisy),
        volume_count: paths.len() as u32,
        stored_hash,
        strings: strings.bytes,
    };
    Rooted { bytes: lay_out(random, layout, &contents), volume: volume as u64, start }
}

/// Paths that begin alike, so that one volume could be taken for another.
fn paths(random: &mut Random) -> Vec<Vec<u16>> {
    let text = |text: &str| text.encode_utf16().collect::<Vec<u16>>();
    let mut paths = match random.below(4) {
        0 => ["1", "10", "2"].map(|n| text(&format!(r"\DEVICE\HARDDISKVOLUME{n}"))).to_vec(),
        1 => [r"\VOLUME{01}", r"\VOLUME{01}\", r"\VOLUME{0"].map(text).to_vec(),
        2 => {
            let first = unit(random);
            vec![vec![first], vec![first, BACKSLASH], vec![first, BACKSLASH, unit(random)]]
        }
        _ => (0..3).map(|_| (0..random.between(1, 5)).map(|_| unit(random)).collect()).collect(),
    };
    random.shuffle(&mut paths);
    paths.truncate(random.between(1, 3));
    if random.one_in(6) {
        let at = random.below(paths.len());
        paths[at].clear();
    }
    paths
}

/// As it is, or with a zero unit behind it and noise behind that.
fn cut_by_zero(random: &mut Random, path: &[u16]) -> Vec<u16> {
    let mut units = path.to_vec();
    if random.one_in(3) {
        units.push(0);
        units.extend((0..random.below(3)).map(|_| random.u32() as u16));
    }
    units
}

fn bytes_of(units: &[u16]) -> Vec<u8> {
    units.iter().flat_map(|unit| unit.to_le_bytes()).collect()
}

/// None, of an odd length, the path of that volume or of another, or any.
fn start(random: &mut Random, paths: &[Vec<u16>], volume: usize) -> Vec<u8> {
    match random.below(8) {
        0 => Vec::new(),
        1 => bytes_of(&paths[volume]),
        2 => bytes_of(random.pick::<Vec<u16>>(paths)),
        3 | 4 => {
            let length = 2 * random.below(30) + 1;
            random.bytes(length)
        }
        5 => {
            let length = 2 * random.between(1, 30);
            random.bytes(length)
        }
        _ => {
            let number = random.between(1, 12);
            let text = format!(r"\DEVICE\HARDDISKVOLUME{number}");
            bytes_of(&text.encode_utf16().collect::<Vec<u16>>())
        }
    }
}

/// One that names are made for; or that of a name which is the path and nothing
/// behind it, with a number on top.
fn stored_hash(random: &mut Random, layout: &Layout, start: &[u8]) -> u32 {
    if !random.one_in(4) {
        return aimed_at(random, layout);
    }
    let number = *random.pick(&[0, 0, 1, 4, 8, 9, u32::MAX]);
    hash_of(layout.version, &hashes::bytes(start)).wrapping_add(number)
}

/// What names are made for.
struct Aim<'a> {
    version: u32,
    stored: u32,
    start: &'a [u8],
}

impl Aim<'_> {
    /// These units, and four behind them so that the whole behind a front has a
    /// hash as far below the stored one as a number goes, or just past it.
    fn rest(&self, random: &mut Random, front: &[u8], units: &[u16]) -> Vec<u8> {
        let number = *random.pick(&[0, 0, 1, 2, 3, 4, 5, 6, 7, 8, 9, u32::MAX]);
        let front = [front, &bytes_of(units)].concat();
        let hash = self.stored.wrapping_sub(number);
        let tail = tail_with_hash(random, self.version, &front, hash);
        // XP has no text for such a hash: any will do.
        [bytes_of(units), tail.unwrap_or([0x41; 8]).to_vec()].concat()
    }
}

fn strings(
    random: &mut Random,
    paths: &[Vec<u16>],
    volume: usize,
    aim: &Aim,
    names: usize,
) -> Strings {
    let mut strings = Strings { bytes: Vec::new(), names: Vec::new() };
    for _ in 0..names {
        if !strings.names.is_empty() && random.one_in(5) {
            let earlier = *random.pick(&strings.names);
            strings.names.push(earlier);
            continue;
        }
        let text = name(random, paths, volume, aim);
        if random.one_in(3) {
            let length = random.between(1, 3);
            strings.bytes.extend(random.bytes(length));
        }
        let (offset, units) = (strings.bytes.len() as u32, text.len() as u32 / 2);
        strings.names.push(Name { offset, units });
        strings.bytes.extend(text);
        strings.bytes.extend([0, 0]);
    }
    strings
}

/// Half of them take part; of the others most would have the stored hash if they
/// did.
fn name(random: &mut Random, paths: &[Vec<u16>], volume: usize, aim: &Aim) -> Vec<u8> {
    let path = &paths[volume];
    let own = bytes_of(path);
    match random.below(14) {
        0..=4 => [own, aim.rest(random, aim.start, &[BACKSLASH])].concat(),
        5 => own,
        6 => {
            let text = [BACKSLASH, unit(random), unit(random)];
            [own, bytes_of(&text)].concat()
        }
        // By its own hash, and not from the start.
        7 => {
            let rest = aim.rest(random, &own, &[BACKSLASH]);
            [own, rest].concat()
        }
        8 | 9 => {
            let behind = *random.pick(&NO_BACKSLASH);
            [own, aim.rest(random, aim.start, &[behind])].concat()
        }
        10 => nearly(random, path, aim),
        11 => {
            let other = bytes_of(random.pick::<Vec<u16>>(paths));
            [other, aim.rest(random, aim.start, &[BACKSLASH])].concat()
        }
        12 => aim.rest(random, &[], &[]),
        _ => {
            let units: Vec<u16> = (0..random.below(6)).map(|_| unit(random)).collect();
            bytes_of(&units)
        }
    }
}

/// The path with one unit changed, left out at its end or put in at its front.
fn nearly(random: &mut Random, path: &[u16], aim: &Aim) -> Vec<u8> {
    let mut other = path.to_vec();
    match random.below(3) {
        0 if !path.is_empty() => {
            let at = random.below(path.len());
            other[at] = unit(random);
        }
        1 => _ = other.pop(),
        _ => other.insert(0, unit(random)),
    }
    [bytes_of(&other), aim.rest(random, aim.start, &[BACKSLASH])].concat()
}
