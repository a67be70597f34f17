//! The strings section and the names in it.

use super::aimed::text_with_hash;
use crate::random::Random;

#[derive(Clone, Copy)]
pub struct Name {
    pub offset: u32,
    pub units: u32,
}

pub struct Strings {
    pub bytes: Vec<u8>,
    /// One for each metrics entry.
    pub names: Vec<Name>,
}

/// The stored hash that some names are made for, by the version's function.
pub struct Aim {
    pub version: u32,
    pub stored: u32,
}

/// With no names the section may still hold something.
pub fn section(random: &mut Random, names: usize, aim: &Aim) -> Strings {
    let mut strings = Strings { bytes: Vec::new(), names: Vec::new() };
    for _ in 0..names {
        let name = name(random, &mut strings, aim);
        strings.names.push(name);
    }
    if random.one_in(2) {
        let length = random.between(1, 5);
        strings.bytes.extend(random.bytes(length));
    }
    strings
}

/// A new name, or one that shares bytes with an earlier one.
fn name(random: &mut Random, strings: &mut Strings, aim: &Aim) -> Name {
    if random.one_in(3) {
        if let Some(name) = aimed_name(random, &mut strings.bytes, aim) {
            return name;
        }
    }
    if strings.names.is_empty() || !random.one_in(4) {
        return new_name(random, &mut strings.bytes);
    }
    let earlier = *random.pick(&strings.names);
    let skipped = random.between(0, earlier.units as usize) as u32;
    Name { offset: earlier.offset + 2 * skipped, units: earlier.units - skipped }
}

/// With a hash as far below the stored one as a number goes, or just past it.
fn aimed_name(random: &mut Random, bytes: &mut Vec<u8>, aim: &Aim) -> Option<Name> {
    let number = *random.pick(&[0, 1, 2, 3, 4, 5, 6, 7, 8, 9, u32::MAX]);
    let text = text_with_hash(random, aim.version, aim.stored.wrapping_sub(number))?;
    let offset = bytes.len() as u32;
    bytes.extend(text);
    bytes.extend([0, 0]);
    Some(Name { offset, units: 4 })
}

/// At any parity, with its zero unit.
fn new_name(random: &mut Random, bytes: &mut Vec<u8>) -> Name {
    if random.one_in(3) {
        let length = random.between(1, 3);
        bytes.extend(random.bytes(length));
    }
    let offset = bytes.len() as u32;
    let units = *random.pick(&[0, 1, 1, 2, 3, 7, 8, 9, 10, 17, 24]);
    for _ in 0..units {
        bytes.extend(unit(random).to_le_bytes());
    }
    bytes.extend([0, 0]);
    Name { offset, units }
}

/// Not zero. Units with one zero byte put two zero bytes side by side that
/// are no zero unit.
pub fn unit(random: &mut Random) -> u16 {
    match random.below(6) {
        0 => 65 + random.below(26) as u16,
        1 => 1 + random.byte() as u16 % 255,
        2 => (1 + random.byte() as u16 % 255) << 8,
        3 => *random.pick(&[1, 32, 33, 126, 127, 0x8000, 0xD800, 0xDFFF, 0xFFFF]),
        4 => *random.pick(&[0x0041, 0x4100]),
        _ => 1 + random.below(65_535) as u16,
    }
}
