use crate::timing::{in_turn, median_of};
use crate::trace::{in_order, linked, shuffled};
use compare::generate::bare::with_blocks;
use compare::plain::walk::{walk, walk_alone};
use std::hint::black_box;

const TURNS: usize = 25;
/// Entries walked in one turn, at least.
const ENTRIES_A_TURN: usize = 1_000_000;

pub fn run() {
    println!(
        "shape, entries, walk alone: library ns an entry, plain, ratio, whole: library, plain, ratio"
    );
    for count in [7_300, 1_398_000] {
        one_chain("in order", &in_order(count));
        one_chain("shuffled", &shuffled(count));
    }
}

/// One chain along the order given.
fn one_chain(name: &str, order: &[u32]) {
    let count = order.len();
    let blocks: Vec<u32> = (0..count as u32).map(|entry| entry.wrapping_mul(0x9E37_79B9)).collect();
    let file = &with_blocks(&linked(order, false), &blocks)[..];
    let (mut table, mut list) = (vec![0; count], vec![0; count]);
    let (mut own_table, mut own_list) = (vec![0; count], vec![0; count]);
    let library = hivesaddle::walk(file, &mut table, &mut list);
    assert_eq!(library, walk(file, &mut own_table, &mut own_list));
    assert_eq!((&table, &list[..]), (&own_table, order));
    // The plain walk alone needs a table that nothing else writes to.
    let (alone_table, mut alone_list) = (own_table.clone(), vec![0; count]);
    let mut read_table = vec![0; count];
    let turns = in_turn(
        TURNS,
        ENTRIES_A_TURN.div_ceil(count),
        [
            &mut || _ = black_box(hivesaddle::walk(black_box(file), &mut table, &mut list)),
            &mut || _ = black_box(hivesaddle::read_file(black_box(file), &mut read_table)),
            &mut || _ = black_box(walk(black_box(file), &mut own_table, &mut own_list)),
            &mut || _ = black_box(walk_alone(black_box(file), &alone_table, &mut alone_list)),
        ],
    );
    assert_eq!(alone_list, order);
    // Less the reader in the same turn, so that both ran at the same speed.
    let an_entry = |time: fn(&[f64; 4]) -> f64| median_of(&turns, time) / count as f64;
    let (library, plain) = (an_entry(|turn| turn[0]), an_entry(|turn| turn[2]));
    let (alone, plain_alone) = (an_entry(|turn| turn[0] - turn[1]), an_entry(|turn| turn[3]));
    println!(
        "{name}, {count}, {alone:.2}, {plain_alone:.2}, {:.2}, {library:.2}, {plain:.2}, {:.2}",
        alone / plain_alone,
        library / plain
    );
}
