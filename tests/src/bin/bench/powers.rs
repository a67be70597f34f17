use crate::timing::{side_by_side, Times};
use compare::random::Random;
use std::hint::black_box;

/// Turns over all paths, which take longer than those over one length.
const TURNS: usize = 15;
const SHORT_TURNS: usize = 101;
const PATHS: usize = 200_000;
/// Bytes or numbers hashed in one turn of a single length.
const NUMBERS: usize = 1 << 17;
const LENGTHS: [usize; 10] = [10, 50, 100, 150, 200, 256, 257, 512, 1_024, 2_000];

const OLD_VOLUME: &str = r"\DEVICE\HARDDISKVOLUME1";
const NEW_VOLUME: &str = r"\DEVICE\HARDDISKVOLUME2";

pub fn run() {
    let mut random = Random::new(37);
    let paths: Vec<Vec<u8>> = (0..PATHS).map(|_| path(&mut random)).collect();
    println!("what, library ns a path, plain ns a path, ratio");
    show("powers", PATHS, all_paths(&paths, hivesaddle::hash_powers_bytes));
    show("swap of the volume", PATHS, swaps(&paths));
    show("Vista", PATHS, all_paths(&paths, hivesaddle::hash_vista_bytes));
    show("2008", PATHS, all_paths(&paths, hivesaddle::hash_2008_bytes));
    println!("length, library ns a list, plain ns a list, ratio");
    for length in LENGTHS {
        let text = random.bytes(NUMBERS);
        let times = lists(&text, length, hivesaddle::hash_powers_bytes, of_bytes);
        show(&format!("{length} bytes"), NUMBERS / length, times);
    }
    for length in LENGTHS {
        let numbers: Vec<u32> = random.numbers(NUMBERS).iter().map(|c| c % 65_536).collect();
        let times = lists(&numbers, length, hivesaddle::hash_powers, of_numbers);
        show(&format!("{length} numbers"), NUMBERS / length, times);
    }
}

fn text(path: &str) -> Vec<u8> {
    path.encode_utf16().flat_map(u16::to_le_bytes).collect()
}

/// 30 to 120 units, as bytes.
fn path(random: &mut Random) -> Vec<u8> {
    let mut path = OLD_VOLUME.to_string();
    let units = random.between(30, 120);
    while path.len() < units {
        path.push(
            *random.pick(&['\\', 'A', 'E', 'I', 'N', 'O', 'R', 'S', 'T', '0', '1', '.', '_']),
        );
    }
    text(&path)
}

/// Each path hashed once in a turn.
fn all_paths(paths: &[Vec<u8>], library: fn(&[u8]) -> u32) -> Times {
    assert!(paths.iter().all(|path| library(path) == of_bytes(path)));
    side_by_side(
        TURNS,
        1,
        || all_of(paths.iter().map(|path| library(black_box(path)))),
        || all_of(paths.iter().map(|path| of_bytes(black_box(path)))),
    )
}

/// Takes all hashes, so that none can be left out.
fn all_of(hashes: impl Iterator<Item = u32>) {
    black_box(hashes.fold(0u32, u32::wrapping_add));
}

/// The volume of each path swapped in a turn, beside the plain loop over the
/// path as it is then.
fn swaps(paths: &[Vec<u8>]) -> Times {
    let (old, new) = (text(OLD_VOLUME), text(NEW_VOLUME));
    let p = old.len() as u64;
    let hashes: Vec<u32> = paths.iter().map(|path| of_bytes(path)).collect();
    let joined: Vec<Vec<u8>> =
        paths.iter().map(|path| [&new[..], &path[old.len()..]].concat()).collect();
    let swap = |hash: u32, path: &[u8]| {
        hivesaddle::hash_swap_bytes(hash, path, p, &new).expect("every path is that long")
    };
    for ((&hash, path), joined) in hashes.iter().zip(paths).zip(&joined) {
        assert_eq!(swap(hash, path), of_bytes(joined));
    }
    side_by_side(
        TURNS,
        1,
        || all_of(hashes.iter().zip(paths).map(|(&hash, path)| swap(hash, black_box(path)))),
        || all_of(joined.iter().map(|path| of_bytes(black_box(path)))),
    )
}

/// As many lists of one length as there are.
fn lists<T>(all: &[T], length: usize, library: fn(&[T]) -> u32, plain: fn(&[T]) -> u32) -> Times {
    assert!(all.chunks_exact(length).all(|list| library(list) == plain(list)));
    side_by_side(
        SHORT_TURNS,
        1,
        || all_of(all.chunks_exact(length).map(|list| library(black_box(list)))),
        || all_of(all.chunks_exact(length).map(|list| plain(black_box(list)))),
    )
}

#[inline(never)]
fn of_bytes(text: &[u8]) -> u32 {
    text.iter().fold(314159, |h: u32, &c| h.wrapping_mul(37).wrapping_add(c.into()))
}

#[inline(never)]
fn of_numbers(numbers: &[u32]) -> u32 {
    numbers.iter().fold(314159, |h: u32, &c| h.wrapping_mul(37).wrapping_add(c))
}

/// Times for one of so many lists.
fn show(what: &str, lists: usize, times: Times) {
    let (library, plain) = (times.library / lists as f64, times.plain / lists as f64);
    println!("{what}, {library:.1}, {plain:.1}, {:.3}", times.ratio());
}
