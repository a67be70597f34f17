use crate::timing::{in_turn, median_of, side_by_side};
use compare::generate::bare::bare;
use compare::generate::set_32;
use compare::plain;
use std::hint::black_box;

const TURNS: usize = 3;
/// Where the first section of a version 17 file can start.
const HEAD_END: usize = 148;

pub fn run() {
    println!("what overlaps, bytes, library ms, plain ms, ratio");
    for bytes in [32_768, 65_536, 131_072, 262_144] {
        one_file("names", &names(bytes));
        one_file("directories", &directories(bytes));
    }
    println!("time over cost: what, bytes, units, ns a unit");
    for bytes in [65_536, 4_194_304] {
        let (names, directories) = (names(bytes), directories(bytes));
        a_unit("reader, names", &names, hivesaddle::cost(&names).expect("a cost").names, read);
        let cost = hivesaddle::cost(&directories).expect("a cost").directories;
        a_unit("reader, directories", &directories, cost, read);
        a_unit("search, names", &names, hivesaddle::cost(&names).expect("a cost").names, search);
    }
}

fn read(file: &[u8]) {
    _ = black_box(hivesaddle::read_file(black_box(file), &mut []));
}

fn search(file: &[u8]) {
    _ = black_box(hivesaddle::find_path(black_box(file)));
}

/// One call where it takes long, the median of some where it does not.
fn a_unit(what: &str, file: &[u8], units: u64, call: fn(&[u8])) {
    let turns = if file.len() < 1_000_000 { 11 } else { 1 };
    let times = in_turn(turns, 1, [&mut || call(file)]);
    let time = median_of(&times, |turn| turn[0]);
    println!("{what}, {}, {units}, {:.4}", file.len(), time / units as f64);
}

/// Half of the file is entries, the other half the one name that they all have.
fn names(bytes: usize) -> Vec<u8> {
    const ENTRY: usize = 20;
    let entries = bytes / 2 / ENTRY;
    let strings = (bytes / 2) & !1;
    let mut file = bare(17, (entries * ENTRY + strings) as u32);
    let strings_start = HEAD_END + entries * ENTRY;
    set_32(&mut file, 84, HEAD_END as u32);
    set_32(&mut file, 88, entries as u32);
    set_32(&mut file, 100, strings_start as u32);
    set_32(&mut file, 104, strings as u32);
    for i in 0..entries {
        set_32(&mut file, HEAD_END + i * ENTRY + 12, (strings / 2 - 1) as u32);
    }
    file[strings_start..strings_start + strings - 2].fill(b'A');
    file
}

/// Half of the file is volume entries, the other half the empty directories
/// that they all have.
fn directories(bytes: usize) -> Vec<u8> {
    const ENTRY: usize = 40;
    let entries = bytes / 2 / ENTRY;
    let directories = bytes / 2 / 4;
    let size = entries * ENTRY + directories * 4;
    let mut file = bare(17, size as u32);
    set_32(&mut file, 108, HEAD_END as u32);
    set_32(&mut file, 112, entries as u32);
    set_32(&mut file, 116, size as u32);
    for i in 0..entries {
        let at = HEAD_END + i * ENTRY;
        set_32(&mut file, at + 28, (entries * ENTRY) as u32);
        set_32(&mut file, at + 32, directories as u32);
    }
    file
}

fn one_file(name: &str, file: &[u8]) {
    let library = hivesaddle::read_file(file, &mut []);
    assert_eq!(library, plain::read_file(file, &mut []));
    library.expect("a sound file");
    let times = side_by_side(
        TURNS,
        1,
        || _ = black_box(hivesaddle::read_file(black_box(file), &mut [])),
        || _ = black_box(plain::read_file(black_box(file), &mut [])),
    );
    let (library, plain) = (times.library / 1e6, times.plain / 1e6);
    println!("{name}, {}, {library:.1}, {plain:.1}, {:.2}", file.len(), times.ratio());
}
