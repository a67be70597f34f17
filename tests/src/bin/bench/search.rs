use crate::timing::{side_by_side, Times};
use compare::generate::set_32;
use compare::plain::search;
use compare::reference::search::find_path;
use compare::typical::{self, Amounts};
use hivesaddle::{TestFile, TestVolume};
use std::hint::black_box;

const TURNS: usize = 101;
const NAMES: usize = 10_000;
/// As Windows 10 names a volume, and as it hashes its paths.
const VOLUME: &str = r"\VOLUME{01d70d9edb27d5ce-5c0a70e1}";
const START: &str = r"\DEVICE\HARDDISKVOLUME2";

pub fn run() {
    println!("what, version, library ns a name, plain ns a name, ratio");
    for version in [17, 23, 26, 30] {
        one_file(version);
    }
    another_start(17);
    another_start(23);
}

/// No name has the stored hash with any number, so that all are looked at.
fn one_file(version: u32) {
    let mut file = typical::file(version, &Amounts { files: NAMES, trace: 1, directories: 1 });
    let mut pairs = [0; 2];
    let found = find_path(&file).expect("the program's own path");
    assert_eq!(hivesaddle::list_paths(&file, &mut pairs), 1);
    assert_eq!(pairs.map(u64::from), [found.entry, found.number]);
    let stored = u32::from_le_bytes([file[76], file[77], file[78], file[79]]);
    set_32(&mut file, 76, u32::MAX);
    assert_eq!(hivesaddle::find_path(&file), None);
    assert_eq!(search::find_path(&file), None);
    let times = side_by_side(
        TURNS,
        1,
        || _ = black_box(hivesaddle::find_path(black_box(&file))),
        || _ = black_box(search::find_path(black_box(&file))),
    );
    show("search", version, &times);
    let times = side_by_side(
        TURNS,
        1,
        || _ = black_box(hivesaddle::list_paths(black_box(&file), &mut pairs)),
        || _ = black_box(search::list_paths(black_box(&file), &mut [0; 2])),
    );
    show("list", version, &times);
    one_pair(version, &mut file, stored.wrapping_add(8));
}

/// One name has the stored hash, with number 8: the search looks at all names,
/// and the list takes its second pass.
fn one_pair(version: u32, file: &mut [u8], stored: u32) {
    set_32(file, 76, stored);
    let mut pairs = [0; 2];
    let times = side_by_side(
        TURNS,
        1,
        || _ = black_box(hivesaddle::list_paths(black_box(file), &mut pairs)),
        || _ = black_box(hivesaddle::find_path(black_box(file))),
    );
    assert_eq!(pairs[1], 8);
    show("list of one pair beside the library's search", version, &times);
}

/// All names begin with the volume's path, and none has the stored hash, from
/// either start.
fn another_start(version: u32) {
    let name = |start: &str, i| format!(r"{start}\WINDOWS\SYSTEM32\DRIVERS\STORE{i:05}.SYS");
    let volume = TestVolume { path: VOLUME.into(), ..TestVolume::default() };
    let mut file = TestFile::new(version).name("STORE.EXE").hash_of(&name(START, NAMES - 1));
    for i in 0..NAMES {
        file = file.file(&name(VOLUME, i));
    }
    let mut file = file.volume(volume).lay_out();
    let start: Vec<u8> = START.encode_utf16().flat_map(u16::to_le_bytes).collect();
    let found = hivesaddle::find_path_from(&file, 0, &start).expect("the last name's path");
    assert_eq!((found.entry, found.number), (NAMES as u64 - 1, 0));
    set_32(&mut file, 76, u32::MAX);
    assert_eq!(hivesaddle::find_path_from(&file, 0, &start), None);
    assert_eq!(hivesaddle::find_path(&file), None);
    let times = side_by_side(
        TURNS,
        1,
        || _ = black_box(hivesaddle::find_path_from(black_box(&file), 0, &start)),
        || _ = black_box(hivesaddle::find_path(black_box(&file))),
    );
    show("search from another start beside the library's search", version, &times);
}

fn show(what: &str, version: u32, times: &Times) {
    let names = NAMES as f64;
    println!(
        "{what}, {version}, {:.1}, {:.1}, {:.3}",
        times.library / names,
        times.plain / names,
        times.ratio()
    );
}
