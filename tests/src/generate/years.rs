//! Catalogue lines and starts for a year's table.

use super::recordings::EDGES;
use crate::random::Random;
use crate::reference::catalogue::OLD_LARGEST_SIZE;
use crate::reference::layout::{least_head_end, LARGEST_SIZE, LAYOUTS};

/// What a table is asked for with: the lines one by one, and of each start the
/// hash and, as long as they last, four numbers.
#[derive(Clone, Debug)]
pub struct Case {
    pub each_line: Vec<Vec<u8>>,
    pub hashes: Vec<u32>,
    pub answers: Vec<u64>,
}

impl Case {
    pub fn lines(&self) -> Vec<u8> {
        self.each_line.concat()
    }

    /// The same lines and starts in another order. The answers must not end
    /// before the starts do.
    pub fn shuffled(&self, random: &mut Random) -> Case {
        let mut each_line = self.each_line.clone();
        random.shuffle(&mut each_line);
        let mut order: Vec<usize> = (0..self.hashes.len()).collect();
        random.shuffle(&mut order);
        Case {
            each_line,
            hashes: order.iter().map(|&k| self.hashes[k]).collect(),
            answers: order.iter().flat_map(|&k| self.answers[4 * k..4 * k + 4].to_vec()).collect(),
        }
    }
}

/// A line of 26 digits, the size being the least of version 17.
pub fn line(stored_hash: u32, run_count: u32) -> Vec<u8> {
    format!("00000094{stored_hash:08X}{run_count:08X}11\n").into_bytes()
}

/// A line of 24 digits, the size being the least of version 30.
pub fn old_line(stored_hash: u32, run_count: u32) -> Vec<u8> {
    format!("0000D4{stored_hash:08X}{run_count:08X}1E\n").into_bytes()
}

/// A line of either length, with any version and a size that it can have.
fn any_line(random: &mut Random, stored_hash: u32) -> Vec<u8> {
    let version = random.pick(&LAYOUTS).version;
    let least = least_head_end(version).expect("a known version");
    let run_count = match random.below(3) {
        0 => *random.pick(&[0, 1, u32::MAX]),
        _ => random.u32() >> random.below(32),
    };
    let is_old = random.one_in(3);
    let largest = if is_old { OLD_LARGEST_SIZE } else { LARGEST_SIZE };
    let any = random.between(least as usize, largest as usize) as u64;
    let size = *random.pick(&[least, largest, any]);
    let rest = format!("{stored_hash:08X}{run_count:08X}{version:02X}\n");
    let text = if is_old { format!("{size:06X}{rest}") } else { format!("{size:08X}{rest}") };
    text.into_bytes()
}

/// Four numbers. Those of a start without a reading are noise behind the zero
/// now and then, and so is what is not looked at of a reading.
pub fn any_answer(random: &mut Random) -> [u64; 4] {
    let bits = match random.below(3) {
        0 => *random.pick(&EDGES),
        1 => (random.below(9) as u16).wrapping_sub(4),
        _ => random.u32() as u16,
    };
    let noise = if random.one_in(3) { random.next() & !0xFFFF } else { 0 };
    let [time, board] = [random.next(), random.byte().into()];
    let is_there = match random.below(8) {
        0 => return [0; 4],
        1 => 0,
        2 => *random.pick(&[2, 1 << 32, 1 << 63, u64::MAX, 0x1_0000]),
        _ => 1,
    };
    [is_there, time, board, u64::from(bits) | noise]
}

/// Hashes that meet often, lie at the ends of their bits, or are about as many
/// as a table can have.
fn pool(random: &mut Random) -> Vec<u32> {
    let base = *random.pick(&[0, 0x7FFF_FF00, 0x8000_0000, 0xFFFF_0000]);
    match random.below(5) {
        0 => vec![0, 1, 0x7FFF_FFFF, 0x8000_0000, u32::MAX - 1, u32::MAX],
        1 => (0..random.between(1, 3)).map(|_| random.u32()).collect(),
        2 => random.numbers(40),
        3 => (0..random.between(1_020, 1_030) as u32).map(|more| base + more).collect(),
        _ => {
            let count = random.between(1_020, 1_030);
            random.numbers(count)
        }
    }
}

/// At most so many of each.
pub fn any_case(random: &mut Random, most: usize) -> Case {
    let (lines, starts) = (random.below(most + 1), random.below(most + 1));
    case_of(random, lines, starts)
}

pub fn case_of(random: &mut Random, lines: usize, starts: usize) -> Case {
    let pool = pool(random);
    let hashes = |random: &mut Random, count| -> Vec<u32> {
        (0..count).map(|_| *random.pick(&pool)).collect()
    };
    let of_lines = hashes(random, lines);
    let mut case = Case {
        each_line: of_lines.into_iter().map(|hash| any_line(random, hash)).collect(),
        hashes: hashes(random, starts),
        answers: (0..starts).flat_map(|_| any_answer(random)).collect(),
    };
    // In order of the hashes, or against it.
    match random.below(8) {
        0 => case.hashes.sort(),
        1 => case.hashes.sort_by_key(|hash| !hash),
        _ => {}
    }
    case
}

/// All hashes once, by lines and then by starts.
pub fn distinct(random: &mut Random, hashes: &[u32], lines: usize) -> Case {
    let (of_lines, of_starts) = hashes.split_at(lines);
    Case {
        each_line: of_lines.iter().map(|&hash| any_line(random, hash)).collect(),
        hashes: of_starts.to_vec(),
        answers: of_starts.iter().flat_map(|_| any_answer(random)).collect(),
    }
}
