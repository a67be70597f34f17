use crate::replay_program;
use crate::timing::{in_turn, median_of};
use compare::plain::replay::replay;
use compare::random::Random;
use hivesaddle::{replay_into, Reading, Start};
use std::hint::black_box;

const TURNS: usize = 11;
const READINGS: usize = 1_000_000;
const BOARDS: usize = 16;
/// A second in run times, of 100 nanoseconds each, and the year's first.
const SECOND: u64 = 10_000_000;
const FIRST: u64 = 0x01DB_5BE0_0000_0000;

pub fn run() {
    let recording = recording();
    println!(
        "starts, bytes, library ms, MB a second, plain ms, MB a second, ratio, times the library's with one start"
    );
    let mut with_one = None;
    for count in [1, 1_024, 100_000] {
        let [library, plain] = times(&recording, count);
        let one = *with_one.get_or_insert(library);
        let speed = |time: f64| recording.len() as f64 * 1_000.0 / time;
        println!(
            "{count}, {}, {:.1}, {:.0}, {:.1}, {:.0}, {:.2}, {:.2}",
            recording.len(),
            library / 1e6,
            speed(library),
            plain / 1e6,
            speed(plain),
            library / plain,
            library / one
        );
    }
    replay_program::run(&recording);
}

/// Starts all over the year, in no order.
pub fn starts(count: usize) -> Vec<Start> {
    let random = &mut Random::new(count as u64);
    let year = READINGS as u64 * 31 * SECOND;
    let mut start =
        || Start { time: FIRST + random.next() % year, board: random.below(BOARDS) as u8 };
    (0..count).map(|_| start()).collect()
}

/// A reading every half a minute or so, of one board after another, now and
/// then handed in late.
fn recording() -> Vec<u8> {
    let random = &mut Random::new(1);
    let mut recording = String::new();
    for i in 0..READINGS {
        let late = if random.one_in(50) { random.below(10_000) } else { 0 };
        let time =
            FIRST + (i.saturating_sub(late) as u64) * 31 * SECOND + random.below(1_000) as u64;
        let tenths = random.between(0, 1_500) as i16 - 200;
        recording.push_str(&format!("{time:016X}{:02X}{tenths:04X}\n", i % BOARDS));
    }
    recording.into_bytes()
}

/// The library has a place of `work` for each start.
fn times(recording: &[u8], count: usize) -> [f64; 2] {
    let starts = starts(count);
    let times: Vec<u64> = starts.iter().map(|start| start.time).collect();
    let boards: Vec<u8> = starts.iter().map(|start| start.board).collect();
    let (mut work, mut answers) = (vec![0; count], vec![0; 4 * count]);
    let given = replay_into(recording, &times, &boards, &mut work, &mut answers);
    let readings: Vec<_> = answers.chunks_exact(4).map(Reading::from_answer).collect();
    assert_eq!(given.map(|()| readings), replay(recording, &starts));
    let turns = in_turn(
        TURNS,
        1,
        [
            &mut || {
                let recording = black_box(recording);
                _ = black_box(replay_into(recording, &times, &boards, &mut work, &mut answers));
            },
            &mut || _ = black_box(replay(black_box(recording), &starts)),
        ],
    );
    [median_of(&turns, |turn| turn[0]), median_of(&turns, |turn| turn[1])]
}
