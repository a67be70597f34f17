//! Recordings and starts, and aimed damage to their lines.

use crate::random::Random;
use crate::reference::replay::{Reading, Start};

/// The temperatures at the ends of 16 bits, around zero, and those of the paper.
pub const EDGES: [u16; 6] = [0x7FFF, 0x8000, 0xFFFF, 0x0000, 0xFF38, 0x0514];

/// What a replay is asked with.
#[derive(Clone, Debug)]
pub struct Case {
    pub readings: Vec<Reading>,
    pub starts: Vec<Start>,
}

impl Case {
    pub fn recording(&self) -> Vec<u8> {
        lines_of(&self.readings)
    }

    pub fn times(&self) -> Vec<u64> {
        self.starts.iter().map(|start| start.time).collect()
    }

    pub fn boards(&self) -> Vec<u8> {
        self.starts.iter().map(|start| start.board).collect()
    }

    /// What the program takes: the starts, then the recording.
    pub fn input(&self) -> Vec<u8> {
        let mut input: Vec<u8> = self.starts.iter().flat_map(start_line).collect();
        input.extend(self.recording());
        input
    }
}

pub fn reading_line(reading: &Reading) -> Vec<u8> {
    let Reading { time, board, temperature } = reading;
    format!("{time:016X}{board:02X}{temperature:04X}\n").into_bytes()
}

pub fn start_line(start: &Start) -> Vec<u8> {
    format!("{:016X}{:02X}\n", start.time, start.board).into_bytes()
}

pub fn lines_of(readings: &[Reading]) -> Vec<u8> {
    readings.iter().flat_map(reading_line).collect()
}

/// Times that meet often, or lie near the ends of their bits.
struct Pool {
    times: Vec<u64>,
    boards: Vec<u8>,
}

impl Pool {
    fn new(random: &mut Random) -> Pool {
        let near = *random.pick(&[3, 1 << 16, 1 << 32, 1 << 63, u64::MAX - 2]);
        let times = match random.below(4) {
            0 => vec![0, 1, u64::MAX - 1, u64::MAX],
            1 => (0..5).map(|more| near - 2 + more).collect(),
            2 => (0..40).collect(),
            _ => (0..100).map(|_| random.next()).collect(),
        };
        let boards = match random.below(4) {
            0 => vec![random.byte()],
            1 => vec![0, 255],
            2 => vec![1, 2, 127, 128, 129],
            _ => (0..=255).collect(),
        };
        Pool { times, boards }
    }

    fn start(&self, random: &mut Random) -> Start {
        Start { time: *random.pick(&self.times), board: *random.pick(&self.boards) }
    }

    fn reading(&self, random: &mut Random) -> Reading {
        let Start { time, board } = self.start(random);
        let bits = match random.one_in(2) {
            true => *random.pick(&EDGES),
            false => random.u32() as u16,
        };
        Reading { time, board, temperature: bits as i16 }
    }
}

/// At most so many of each, out of time order or in it or against it. Starts
/// repeat, and some are copies of those before.
pub fn any_case(random: &mut Random, readings: usize, starts: usize) -> Case {
    let (readings, starts) = (random.below(readings + 1), random.below(starts + 1));
    case_of(random, readings, starts)
}

pub fn case_of(random: &mut Random, readings: usize, starts: usize) -> Case {
    let pool = Pool::new(random);
    let mut readings: Vec<Reading> = (0..readings).map(|_| pool.reading(random)).collect();
    let mut starts: Vec<Start> = (0..starts).map(|_| pool.start(random)).collect();
    match random.below(4) {
        0 => readings.sort_by_key(|reading| reading.time),
        1 => readings.sort_by_key(|reading| !reading.time),
        _ => {}
    }
    for at in 1..starts.len() {
        if random.one_in(8) {
            starts[at] = starts[random.below(at)];
        }
    }
    Case { readings, starts }
}

/// One byte changed, left out or put in, or the end cut off; a line emptied,
/// ended by a carriage return, in lowercase or of the other length. Not all of
/// that makes a line bad.
pub fn spoil(random: &mut Random, bytes: &mut Vec<u8>) {
    let at = random.below(bytes.len() + 1);
    let feed = bytes[at.min(bytes.len())..].iter().position(|&byte| byte == b'\n');
    let end = feed.map_or(bytes.len(), |more| at + more);
    let byte = random.byte();
    let near = *random.pick(b"/:@G`afg\n\r \t\0-+x0F");
    match random.below(9) {
        0 if at < bytes.len() => bytes[at] = byte,
        1 if at < bytes.len() => bytes[at] = near,
        2 if at < bytes.len() => _ = bytes.remove(at),
        3 => bytes.insert(at, byte),
        4 => bytes.insert(at, near),
        5 => bytes.truncate(at),
        6 => bytes.insert(end, *random.pick(b"\r\n0")),
        7 => bytes[at..end].make_ascii_lowercase(),
        _ => _ = bytes.drain(end.saturating_sub(4)..end),
    }
}
