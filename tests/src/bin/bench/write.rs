use crate::timing::side_by_side;
use compare::generate::writes::of_file;
use compare::groups::writes::of_crate;
use compare::plain;
use compare::typical::{self, Amounts};
use std::hint::black_box;

/// Bytes written in one turn, at least.
const BYTES_A_TURN: usize = 1 << 20;

pub fn run() {
    println!("version, bytes, library ns a byte, plain ns a byte, ratio");
    for (bytes, turns) in [(150_000, 101), (16_000_000, 51)] {
        for version in [17, 23] {
            one_file(version, bytes, turns);
        }
    }
}

/// There are as many slots and bytes as the file needs.
fn one_file(version: u32, bytes: usize, turns: usize) {
    let parts = of_file(&typical::file(version, &Amounts::for_bytes(bytes)));
    let description = parts.description();
    let described = &of_crate(&description);
    let size = described.size();
    let (mut places, mut others) = (vec![0; parts.places], vec![0; parts.places]);
    let (mut output, mut own_output) = (vec![7; size], vec![8; size]);
    let library = hivesaddle::write_file(described, &mut places, &mut output);
    assert_eq!(library, plain::writer::write_file(described, &mut others, &mut own_output));
    assert!(library.is_ok() && output == own_output && places == others);
    let times = side_by_side(
        turns,
        BYTES_A_TURN.div_ceil(size),
        || _ = black_box(hivesaddle::write_file(black_box(described), &mut places, &mut output)),
        || {
            _ = black_box(plain::writer::write_file(
                black_box(described),
                &mut others,
                &mut own_output,
            ))
        },
    );
    let a_byte = |time: f64| time / size as f64;
    println!(
        "{version}, {size}, {:.4}, {:.4}, {:.3}",
        a_byte(times.library),
        a_byte(times.plain),
        times.ratio()
    );
}
