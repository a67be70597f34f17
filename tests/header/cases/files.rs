//! Calls that take a file, and the writer.

use crate::call::{Arguments, Call, Number};
use crate::judge::constants::{HS_READER_OUT, HS_WALK_OUT};
use crate::judge::*;
use crate::reference::checks::{entry_start, name_of_entry};
use crate::reference::head::*;
use crate::reference::search::hash_of;
use crate::reference::{hashes, trace};
use compare::generate::bare::with_volumes;
use compare::generate::{set_32, set_64};
use compare::typical::{self, Amounts, PLAYER};

const AMOUNTS: Amounts = Amounts { files: 12, trace: 15, directories: 8 };
const TRACE: usize = AMOUNTS.trace;

pub fn all() -> Vec<Call> {
    let sound = sound();
    let cycle = cycle();
    let other = typical::file_of(&PLAYER, 26, &AMOUNTS);
    let mut calls = Vec::new();
    for file in [&sound[..], &sound[..700], &sound[..30], &cycle, &other, &other[..400], &[]] {
        calls.extend(readers(file, TRACE + 1));
        calls.extend(queries(file));
        calls.push(walk(file, TRACE + 1, TRACE + 3));
    }
    calls.extend(readers(&sound, TRACE - 1));
    calls.push(walk(&sound, TRACE, TRACE - 1));
    calls.push(walk(&sound, TRACE - 1, TRACE));
    calls.extend(from_another_start());
    calls.extend(writers(&sound, &cycle));
    calls
}

/// Version 23, with a file reference in an entry.
fn sound() -> Vec<u8> {
    let mut file = typical::file(23, &AMOUNTS);
    let reference = entry_start(&file, 3) as usize + 24;
    set_64(&mut file, reference, 0x0007_0000_1234_5678);
    file
}

/// The same with a trace entry that leads to itself.
fn cycle() -> Vec<u8> {
    let mut file = sound();
    let last = trace::entry_start(&file, TRACE as u64 - 1) as usize;
    set_32(&mut file, last, TRACE as u32 - 1);
    file
}

type Reader = unsafe extern "C" fn(*const u8, usize, *mut u32, usize, *mut u64, usize) -> u32;

/// With a whole `out`, and with one that does not take all.
fn readers(bytes: &[u8], places: usize) -> Vec<Call> {
    let call = |function, judge: Reader, out| {
        Call::of(function, |c| {
            let (file, length) = c.read("file", "length", bytes);
            let (table, places) = c.written("predecessors", "places", places);
            let (out, out_length) = c.written("out", "out_length", out);
            // SAFETY: here and below, lists and lengths are those that `Arguments` gave.
            unsafe { judge(file, length, table, places, out, out_length) }
        })
    };
    let mut calls = Vec::new();
    for out in [HS_READER_OUT + 1, 5] {
        calls.push(call("hs_read_prefix", judge_read_prefix, out));
        calls.push(call("hs_read_file", judge_read_file, out));
    }
    calls
}

fn walk(bytes: &[u8], places: usize, room: usize) -> Call {
    Call::of("hs_walk", |c| {
        let (file, length) = c.read("file", "length", bytes);
        let (table, places) = c.written("predecessors", "places", places);
        let (order, order_length) = c.written("order", "order_length", room);
        let (out, out_length) = c.written("out", "out_length", HS_WALK_OUT);
        unsafe { judge_walk(file, length, table, places, order, order_length, out, out_length) }
    })
}

type Query = unsafe extern "C" fn(*const u8, usize, *mut u64, usize) -> u32;

/// A query without an index. `out` takes one number fewer than there are.
pub fn query(
    function: &'static str,
    judge: Query,
    list: &'static str,
    bytes: &[u8],
    numbers: usize,
) -> [Call; 2] {
    [numbers + 1, numbers - 1].map(|room| {
        Call::of(function, |c| {
            let (file, length) = c.read(list, "length", bytes);
            let (out, out_length) = c.written("out", "out_length", room);
            unsafe { judge(file, length, out, out_length) }
        })
    })
}

type Indexed = unsafe extern "C" fn(*const u8, usize, u64, *mut u64, usize) -> u32;

fn indexed(function: &'static str, judge: Indexed, bytes: &[u8], i: u64, numbers: usize) -> Call {
    Call::of(function, |c| {
        let (file, length) = c.read("file", "length", bytes);
        let i = c.number("i", i);
        let (out, out_length) = c.written("out", "out_length", numbers);
        unsafe { judge(file, length, i, out, out_length) }
    })
}

fn queries(file: &[u8]) -> Vec<Call> {
    let mut calls = Vec::new();
    calls.extend(query("hs_places", judge_places, "file", file, 1));
    calls.extend(query("hs_program_name", judge_program_name, "file", file, 2));
    calls.extend(query("hs_find_path", judge_find_path, "file", file, 2));
    calls.extend(query("hs_cost", judge_cost, "file", file, 2));
    for i in [0, 3, AMOUNTS.files as u64] {
        calls.push(indexed("hs_entry_name", judge_entry_name, file, i, 3));
        calls.push(indexed("hs_entry_reference", judge_entry_reference, file, i, 3));
    }
    for i in 0..3 {
        calls.push(indexed("hs_volume", judge_volume, file, i, 7));
        calls.push(reference(file, i, 1 - i.min(1)));
    }
    calls.extend(pairs(file));
    calls
}

fn reference(bytes: &[u8], i: u64, k: u64) -> Call {
    Call::of("hs_reference", |c| {
        let (file, length) = c.read("file", "length", bytes);
        let (i, k) = (c.number("i", i), c.number("k", k));
        let (out, out_length) = c.written("out", "out_length", 2);
        unsafe { judge_reference(file, length, i, k, out, out_length) }
    })
}

/// With room for all pairs, and with an odd number of places for some of them.
fn pairs(file: &[u8]) -> Vec<Call> {
    let mut calls = Vec::new();
    for room in [41, 3, 0] {
        calls.push(Call::of("hs_list_paths", |c| {
            let (file, length) = c.read("file", "length", file);
            let (pairs, pairs_length) = c.written("pairs", "pairs_length", room);
            unsafe { judge_list_paths(file, length, pairs, pairs_length) }
        }));
        for volume in [0, 1, 2] {
            let directories = of_volume("hs_directories", judge_directories, file, volume, room);
            let references = of_volume("hs_references", judge_references, file, volume, room);
            calls.extend([directories, references]);
        }
    }
    calls
}

type OfVolume<T> = unsafe extern "C" fn(*const u8, usize, u64, *mut T, usize) -> u64;

fn of_volume<T: Number>(
    function: &'static str,
    judge: OfVolume<T>,
    bytes: &[u8],
    volume: u64,
    room: usize,
) -> Call {
    Call::of(function, |c| {
        let (file, length) = c.read("file", "length", bytes);
        let volume = c.number("volume", volume);
        let (pairs, pairs_length) = c.written("pairs", "pairs_length", room);
        unsafe { judge(file, length, volume, pairs, pairs_length) }
    })
}

/// Names as Windows 10 writes them, with the hash from another start.
fn from_another_start() -> Vec<Call> {
    let bytes = |text: &str| text.encode_utf16().flat_map(u16::to_le_bytes).collect::<Vec<u8>>();
    let start = r"\DEVICE\HARDDISKVOLUME2";
    let hash = hash_of(30, &hashes::bytes(&bytes(&format!(r"{start}\A.EXE")))).wrapping_add(5);
    let (names, paths) = ([r"\VOLUME{02}\B.DLL", r"\VOLUME{02}\A.EXE"], [r"\V", r"\VOLUME{02}"]);
    let file = with_volumes(30, &names, &paths, hash);
    let call = |(volume, start): (u64, &[u8])| {
        Call::of("hs_find_path_from", |c| {
            let (file, length) = c.read("file", "length", &file);
            let volume = c.number("volume", volume);
            let (start, start_length) = c.read("start", "start_length", start);
            let (out, out_length) = c.written("out", "out_length", 2);
            unsafe {
                judge_find_path_from(file, length, volume, start, start_length, out, out_length)
            }
        })
    };
    let start = bytes(start);
    [(1, &start[..]), (0, &start), (1, &start[..8]), (1, &[])].map(call).into()
}

/// What the writer takes, from the sections of a file.
struct Lists {
    metrics: Vec<u32>,
    trace: Vec<u32>,
    strings: Vec<u8>,
    volumes: Vec<u8>,
}

fn lists(file: &[u8]) -> Lists {
    let part = |which| {
        let section = section(file, which);
        file[section.start as usize..section.end() as usize].to_vec()
    };
    let name = |i| {
        let name = name_of_entry(file, i);
        [name.offset as u32, name.units as u32]
    };
    let entry = |i| {
        let next = number_32(file, trace::entry_start(file, i) as usize) as u32;
        [next, trace::block_count(file, i) as u32]
    };
    Lists {
        metrics: (0..metrics_count(file)).flat_map(name).collect(),
        trace: (0..trace_count(file)).flat_map(entry).collect(),
        strings: part(STRINGS),
        volumes: part(VOLUMES),
    }
}

fn writers(sound: &[u8], cycle: &[u8]) -> Vec<Call> {
    let room = sound.len();
    let name: Vec<u16> = "CHAMBER.EXE".encode_utf16().collect();
    vec![
        writer(&lists(sound), 23, &name, room),
        writer(&lists(cycle), 23, &name, room),
        writer(&lists(sound), 23, &name, 100),
        writer(&lists(sound), 26, &name, room),
        writer(&lists(sound), 23, &[66; 31], room),
    ]
}

fn writer(lists: &Lists, version: u32, name: &[u16], room: usize) -> Call {
    Call::of("hs_write_file", |c| {
        let version = c.number("version", version);
        let (name, name_length) = c.read("name", "name_length", name);
        let (stored_hash, run_time, run_count, volume_count) = fields(c);
        let (metrics, metrics_length) = c.read("metrics", "metrics_length", &lists.metrics);
        let (trace, trace_length) = c.read("trace", "trace_length", &lists.trace);
        let (strings, strings_length) = c.read("strings", "strings_length", &lists.strings);
        let (volumes, volumes_length) = c.read("volumes", "volumes_length", &lists.volumes);
        let (table, places) = c.written("predecessors", "places", TRACE + 2);
        let (output, output_length) = c.written("output", "output_length", room);
        let (out, out_length) = c.written("out", "out_length", HS_READER_OUT);
        unsafe {
            judge_write_file(
                version,
                name,
                name_length,
                stored_hash,
                run_time,
                run_count,
                metrics,
                metrics_length,
                trace,
                trace_length,
                strings,
                strings_length,
                volumes,
                volumes_length,
                volume_count,
                table,
                places,
                output,
                output_length,
                out,
                out_length,
            )
        }
    })
}

/// Stored hash, run time, run count and volume count, each another number.
fn fields(c: &mut Arguments) -> (u32, u64, u32, u32) {
    (
        c.number("stored_hash", 0x978D_AB15),
        c.number("run_time", 133_761_942_000_000_000),
        c.number("run_count", 42),
        c.number("volume_count", 2),
    )
}
