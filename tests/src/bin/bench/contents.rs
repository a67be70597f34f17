use crate::timing::side_by_side;
use compare::typical::{self, Amounts, TYPICAL};
use std::hint::black_box;

const TURNS: usize = 101;
const DIRECTORIES: usize = 10_000;

pub fn run() {
    println!("what, ns, beside, ns, ratio");
    directories();
    let file = typical::file(23, &TYPICAL);
    let mut places = vec![0; 10_000];
    assert!(hivesaddle::read_file(&file, &mut places).is_ok());
    beside(
        "entry_reference, entry_name",
        1_000,
        || _ = black_box(hivesaddle::entry_reference(black_box(&file), 7)),
        || _ = black_box(hivesaddle::entry_name(black_box(&file), 7)),
    );
    beside(
        "cost, read_file",
        10,
        || _ = black_box(hivesaddle::cost(black_box(&file))),
        || _ = black_box(hivesaddle::read_file(black_box(&file), &mut places)),
    );
}

/// All directories of a volume listed, beside the volume shown, which is its
/// check.
fn directories() {
    let file = typical::file(23, &Amounts { files: 10, trace: 1, directories: DIRECTORIES });
    let count = hivesaddle::volume(&file, 0).expect("a volume").directories as usize;
    let mut pairs = vec![0; 2 * count];
    assert_eq!(hivesaddle::directories_into(&file, 0, &mut pairs), count as u64);
    beside(
        &format!("directories, volume ({count} of them)"),
        1,
        || _ = black_box(hivesaddle::directories_into(black_box(&file), 0, &mut pairs)),
        || _ = black_box(hivesaddle::volume(black_box(&file), 0)),
    );
}

fn beside(what: &str, calls: usize, one: impl FnMut(), other: impl FnMut()) {
    let times = side_by_side(TURNS, calls, one, other);
    println!("{what}: {:.1}, {:.1}, {:.2}", times.library, times.plain, times.ratio());
}
