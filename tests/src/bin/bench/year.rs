use crate::timing::side_by_side;
use compare::plain::year::table;
use compare::random::Random;
use hivesaddle::{year_table_into, YearRow, YEAR_MOST_ROWS, YEAR_ROW_LENGTH};
use std::hint::black_box;

const TURNS: usize = 11;
const MOST: usize = 1_048_576;
const HASHES: usize = 1_024;

struct Input {
    lines: Vec<u8>,
    hashes: Vec<u32>,
    answers: Vec<u64>,
}

pub fn run() {
    println!("lines, starts, hashes, library ms, plain ms, ratio");
    let random = &mut Random::new(113);
    for (lines, starts, hashes) in [
        (MOST, MOST, HASHES),
        (MOST, 0, HASHES),
        (0, MOST, HASHES),
        (MOST, MOST, 32),
        (MOST, MOST, 1),
        (10_000, 10_000, HASHES),
    ] {
        let input = input(random, lines, starts, hashes);
        let (library, plain) = times(&input);
        let (milliseconds, ratio) = ((library / 1e6, plain / 1e6), library / plain);
        println!(
            "{lines}, {starts}, {hashes}, {:.1}, {:.1}, {ratio:.2}",
            milliseconds.0, milliseconds.1
        );
    }
}

/// Hashes in no order, one line in ten an old one, and one start in ten without
/// a reading.
fn input(random: &mut Random, lines: usize, starts: usize, hashes: usize) -> Input {
    let pool = random.numbers(hashes);
    let mut text = String::with_capacity(27 * lines);
    for _ in 0..lines {
        let (size, hash, runs) =
            (random.between(212, 1 << 20), random.pick(&pool), random.below(5_000));
        text.push_str(&match random.one_in(10) {
            true => format!("{size:06X}{hash:08X}{runs:08X}17\n"),
            false => format!("{size:08X}{hash:08X}{runs:08X}1E\n"),
        });
    }
    let mut answer = || match random.one_in(10) {
        true => [0; 4],
        false => {
            let tenths = random.between(0, 1_500) as i16 - 200;
            [1, random.next() >> 8, random.below(16) as u64, u64::from(tenths as u16)]
        }
    };
    let answers = (0..starts).flat_map(|_| answer()).collect();
    let hashes = (0..starts).map(|_| *random.pick(&pool)).collect();
    Input { lines: text.into_bytes(), hashes, answers }
}

fn times(input: &Input) -> (f64, f64) {
    let Input { lines, hashes, answers } = input;
    let mut rows = vec![0; YEAR_ROW_LENGTH * YEAR_MOST_ROWS];
    let given = year_table_into(lines, hashes, answers, &mut rows).map(|count| {
        let rows = rows.chunks_exact(YEAR_ROW_LENGTH).take(count);
        rows.filter_map(YearRow::from_numbers).collect()
    });
    assert_eq!(given, table(lines, hashes, answers));
    let times = side_by_side(
        TURNS,
        1,
        || _ = black_box(year_table_into(black_box(lines), hashes, answers, &mut rows)),
        || _ = black_box(table(black_box(lines), hashes, answers)),
    );
    (times.library, times.plain)
}
