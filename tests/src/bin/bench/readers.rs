use crate::timing::{side_by_side, Times};
use compare::generate::set_32;
use compare::plain;
use compare::reference::head::trace_count;
use compare::typical::{self, Amounts, TYPICAL};
use std::hint::black_box;

/// Bytes read in one turn, at least.
const BYTES_A_TURN: usize = 1 << 20;
const TURNS: usize = 101;
/// For the largest file, which takes long.
const FEWER_TURNS: usize = 25;
/// The amounts come to some bytes less than 16 MiB and 64 MiB, the largest file.
const LARGE: usize = 16_300_000;
const LARGEST: usize = 65_400_000;

/// One size: how long both readers take for a byte.
struct Row {
    bytes: usize,
    times: Times,
}

impl Row {
    fn library_a_byte(&self) -> f64 {
        self.times.library / self.bytes as f64
    }

    fn plain_a_byte(&self) -> f64 {
        self.times.plain / self.bytes as f64
    }
}

pub fn run() {
    let sizes = [250, 4_000, 16_000, 64_000];
    let small = sizes.map(row_of_size);
    let typical = row(&typical::file(23, &TYPICAL));
    let large = [1_000_000, 4_000_000, LARGE, LARGEST].map(row_of_size);
    println!("bytes, library ns a byte, plain ns a byte, ratio, growth over the typical file");
    for row in small.iter().chain([&typical]).chain(&large) {
        println!(
            "{}, {:.4}, {:.4}, {:.3}, {:.2}",
            row.bytes,
            row.library_a_byte(),
            row.plain_a_byte(),
            row.times.ratio(),
            row.library_a_byte() / typical.library_a_byte()
        );
    }
    let [.., largest] = &large;
    println!("ratio, typical file: {:.3}", typical.times.ratio());
    println!("ratio, largest file: {:.3}", largest.times.ratio());
    println!(
        "time a byte, largest to typical: library {:.2}, plain {:.2}",
        growth(|file, places| _ = black_box(hivesaddle::read_file(black_box(file), places))),
        growth(|file, places| _ = black_box(plain::read_file(black_box(file), places)))
    );
    parts();
}

/// The time a byte of the largest file to that of the typical one. Both are
/// read turn and turn about, as many bytes in a turn, so that a machine that
/// changes its speed changes it for both.
fn growth(read: impl Fn(&[u8], &mut [u32])) -> f64 {
    let typical = typical::file(23, &TYPICAL);
    let largest = typical::file(23, &Amounts::for_bytes(LARGEST));
    let calls = largest.len() / typical.len();
    let mut few = vec![0; trace_count(&typical) as usize];
    let mut many = vec![0; trace_count(&largest) as usize];
    let times = side_by_side(
        FEWER_TURNS,
        1,
        || (0..calls).for_each(|_| read(&typical, &mut few)),
        || read(&largest, &mut many),
    );
    let of_typical = times.library / (calls * typical.len()) as f64;
    times.plain / largest.len() as f64 / of_typical
}

/// The typical file with the counts of all sections but one set to 0, to see
/// which checks the time goes to.
fn parts() {
    const METRICS: usize = 88;
    const TRACE: usize = 96;
    const VOLUMES: usize = 112;
    let parts: [(&str, &[usize]); 4] = [
        ("names", &[TRACE, VOLUMES]),
        ("trace", &[METRICS, VOLUMES]),
        ("volumes", &[METRICS, TRACE]),
        ("head", &[METRICS, TRACE, VOLUMES]),
    ];
    println!("part of the typical file, library ns, plain ns, ratio");
    for (name, counts) in parts {
        let mut file = typical::file(23, &TYPICAL);
        for &count in counts {
            set_32(&mut file, count, 0);
        }
        let Row { times, .. } = row(&file);
        println!("{name}, {:.0}, {:.0}, {:.3}", times.library, times.plain, times.ratio());
    }
}

fn row_of_size(bytes: usize) -> Row {
    row(&typical::file(23, &Amounts::for_bytes(bytes)))
}

/// There are as many slots as trace entries.
fn row(file: &[u8]) -> Row {
    let count = trace_count(file) as usize;
    let (mut places, mut others) = (vec![0; count], vec![0; count]);
    let library = hivesaddle::read_file(file, &mut places).expect("a sound file");
    assert_eq!(Ok(library), plain::read_file(file, &mut others));
    assert_eq!(places, others);
    let times = side_by_side(
        if file.len() > 1 << 25 { FEWER_TURNS } else { TURNS },
        BYTES_A_TURN.div_ceil(file.len()),
        || _ = black_box(hivesaddle::read_file(black_box(file), &mut places)),
        || _ = black_box(plain::read_file(black_box(file), &mut others)),
    );
    Row { bytes: file.len(), times }
}
