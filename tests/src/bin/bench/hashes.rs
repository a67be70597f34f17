use crate::timing::side_by_side;
use compare::random::Random;
use std::hint::black_box;

const TURNS: usize = 101;
/// Numbers hashed in one turn.
const NUMBERS: usize = 1 << 20;

pub fn run() {
    let mut random = Random::new(37);
    for length in [40, 260, 4_096] {
        let numbers: Vec<u32> = (0..NUMBERS).map(|_| random.u32() % 65_536).collect();
        beside_plain("Vista", length, &numbers, hivesaddle::hash_vista);
        beside_plain("2008", length, &numbers, hivesaddle::hash_2008);
    }
}

fn beside_plain(name: &str, length: usize, numbers: &[u32], library: fn(&[u32]) -> u32) {
    let times = side_by_side(
        TURNS,
        1,
        || all_lists(length, numbers, library),
        || all_lists(length, numbers, plain),
    );
    let lists = (numbers.len() / length) as f64;
    println!(
        "{name}, lists of {length}: library {:.1} ns, plain Rust {:.1} ns, ratio {:.3}",
        times.library / lists,
        times.plain / lists,
        times.ratio()
    );
}

fn all_lists(length: usize, numbers: &[u32], hash: fn(&[u32]) -> u32) {
    let mut sum = 0u32;
    for list in numbers.chunks_exact(length) {
        sum = sum.wrapping_add(black_box(hash)(black_box(list)));
    }
    black_box(sum);
}

#[inline(never)]
fn plain(numbers: &[u32]) -> u32 {
    let mut h = 314159u32;
    for &c in numbers {
        h = h.wrapping_mul(37).wrapping_add(c);
    }
    h
}
