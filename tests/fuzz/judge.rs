//! The independent reading behind C functions, one beside each of the library's and with the same parameters. It
//! calls nothing of the library. Its lists are as those of `hivesaddle::raw`, where it says when a call is safe.

#![allow(clippy::missing_safety_doc)]

#[allow(dead_code)]
#[path = "../../rust/hivesaddle/src/constants.rs"]
pub mod constants;
#[path = "../src/boundary/numbers.rs"]
pub mod numbers;
#[allow(dead_code)]
#[path = "../src/reference/mod.rs"]
pub mod reference;

use numbers::{answer_numbers, numbers_of, replay_numbers, walk_numbers, year_numbers};
use reference::catalogue::{self, Fields};
use reference::head::{section, VOLUMES};
use reference::path_from::find_path_from;
use reference::readers::{read_file, read_prefix, Answer};
use reference::replay::{replay, signed, starts_of, Reading};
use reference::search::{find_path, list_paths};
use reference::volume_lists::{directories, references};
use reference::walk::walk;
use reference::writer::{self, Description};
use reference::{cost, hashes, pieces, queries, year};

unsafe fn list<'a, T>(pointer: *const T, length: usize) -> &'a [T] {
    match length {
        0 => &[],
        _ => std::slice::from_raw_parts(pointer, length),
    }
}

/// As many of the values as fit.
unsafe fn write<T: Copy>(place: *mut T, length: usize, values: &[T]) {
    for (at, value) in values.iter().take(length).enumerate() {
        *place.add(at) = *value;
    }
}

unsafe fn give(
    answer: &Answer,
    table: *mut u32,
    places: usize,
    out: *mut u64,
    length: usize,
) -> u32 {
    assert_eq!(answer.predecessors.len(), places);
    let (code, numbers) = numbers_of(&answer.verdict);
    write(table, places, &answer.predecessors);
    write(out, length, &numbers);
    code
}

/// 1 and the numbers, or 0 and as many zeros.
unsafe fn tell<const N: usize>(numbers: Option<[u64; N]>, out: *mut u64, length: usize) -> u32 {
    write(out, length, &numbers.unwrap_or([0; N]));
    u32::from(numbers.is_some())
}

#[no_mangle]
pub unsafe extern "C" fn judge_read_prefix(
    file: *const u8,
    length: usize,
    table: *mut u32,
    places: usize,
    out: *mut u64,
    out_length: usize,
) -> u32 {
    give(&read_prefix(list(file, length), places), table, places, out, out_length)
}

#[no_mangle]
pub unsafe extern "C" fn judge_read_file(
    file: *const u8,
    length: usize,
    table: *mut u32,
    places: usize,
    out: *mut u64,
    out_length: usize,
) -> u32 {
    give(&read_file(list(file, length), places), table, places, out, out_length)
}

/// After a refusal nothing is written to the order.
#[no_mangle]
pub unsafe extern "C" fn judge_walk(
    file: *const u8,
    length: usize,
    table: *mut u32,
    places: usize,
    order: *mut u32,
    order_length: usize,
    out: *mut u64,
    out_length: usize,
) -> u32 {
    let walked = walk(list(file, length), places, order_length);
    let (code, numbers) = walk_numbers(&walked.outcome);
    write(table, places, &walked.predecessors);
    if let Ok(walk) = &walked.outcome {
        write(order, order_length, &walk.order);
    }
    write(out, out_length, &numbers);
    code
}

/// After a refusal nothing is written to the output.
#[no_mangle]
pub unsafe extern "C" fn judge_write_file(
    version: u32,
    name: *const u16,
    name_length: usize,
    stored_hash: u32,
    run_time: u64,
    run_count: u32,
    metrics: *const u32,
    metrics_length: usize,
    trace: *const u32,
    trace_length: usize,
    strings: *const u8,
    strings_length: usize,
    volumes: *const u8,
    volumes_length: usize,
    volume_count: u32,
    table: *mut u32,
    places: usize,
    output: *mut u8,
    output_length: usize,
    out: *mut u64,
    out_length: usize,
) -> u32 {
    let described = Description {
        version,
        name: list(name, name_length),
        stored_hash,
        run_time,
        run_count,
        metrics: list(metrics, metrics_length),
        trace: list(trace, trace_length),
        strings: list(strings, strings_length),
        volumes: list(volumes, volumes_length),
        volume_count,
    };
    let written = writer::write(&described, places, output_length);
    write(output, output_length, written.file.as_deref().unwrap_or(&[]));
    give(&written.answer, table, places, out, out_length)
}

#[no_mangle]
pub unsafe extern "C" fn judge_places(
    file: *const u8,
    length: usize,
    out: *mut u64,
    out_length: usize,
) -> u32 {
    let places = queries::places(list(file, length));
    tell(places.map(|places| [places]), out, out_length)
}

#[no_mangle]
pub unsafe extern "C" fn judge_program_name(
    file: *const u8,
    length: usize,
    out: *mut u64,
    out_length: usize,
) -> u32 {
    let name = queries::program_name(list(file, length));
    tell(name.map(|part| [part.offset, part.length]), out, out_length)
}

#[no_mangle]
pub unsafe extern "C" fn judge_entry_name(
    file: *const u8,
    length: usize,
    i: u64,
    out: *mut u64,
    out_length: usize,
) -> u32 {
    let name = queries::entry_name(list(file, length), i);
    tell(name.map(|part| [part.offset, part.length]), out, out_length)
}

/// A path of no units stands at the start of the volumes section.
#[no_mangle]
pub unsafe extern "C" fn judge_volume(
    file: *const u8,
    length: usize,
    i: u64,
    out: *mut u64,
    out_length: usize,
) -> u32 {
    let file = list(file, length);
    let numbers = queries::volume(file, i).map(|v| {
        let offset = match v.path_has_a_place {
            true => v.path.offset,
            false => section(file, VOLUMES).start,
        };
        [v.creation_time, v.serial_number, v.references, v.directories, offset, v.path.length]
    });
    tell(numbers, out, out_length)
}

#[no_mangle]
pub unsafe extern "C" fn judge_reference(
    file: *const u8,
    length: usize,
    i: u64,
    k: u64,
    out: *mut u64,
    out_length: usize,
) -> u32 {
    let reference = queries::reference(list(file, length), i, k);
    tell(reference.map(|r| [r.entry_index, r.sequence_number]), out, out_length)
}

#[no_mangle]
pub unsafe extern "C" fn judge_find_path(
    file: *const u8,
    length: usize,
    out: *mut u64,
    out_length: usize,
) -> u32 {
    let found = find_path(list(file, length));
    tell(found.map(|found| [found.entry, found.number]), out, out_length)
}

/// As many whole pairs as fit.
#[no_mangle]
pub unsafe extern "C" fn judge_list_paths(
    file: *const u8,
    length: usize,
    pairs: *mut u32,
    pairs_length: usize,
) -> u64 {
    let found = list_paths(list(file, length));
    let fitting = found.iter().take(pairs_length / 2);
    let numbers: Vec<u32> = fitting.flat_map(|f| [f.entry as u32, f.number as u32]).collect();
    write(pairs, pairs_length, &numbers);
    found.len() as u64
}

/// As many whole pairs as fit.
#[no_mangle]
pub unsafe extern "C" fn judge_directories(
    file: *const u8,
    length: usize,
    volume: u64,
    pairs: *mut u32,
    pairs_length: usize,
) -> u64 {
    let listed = directories(list(file, length), volume);
    let fitting = listed.iter().take(pairs_length / 2);
    let numbers: Vec<u32> = fitting.flat_map(|d| [d.offset as u32, d.units as u32]).collect();
    write(pairs, pairs_length, &numbers);
    listed.len() as u64
}

/// As many whole pairs as fit.
#[no_mangle]
pub unsafe extern "C" fn judge_references(
    file: *const u8,
    length: usize,
    volume: u64,
    pairs: *mut u64,
    pairs_length: usize,
) -> u64 {
    let listed = references(list(file, length), volume);
    let fitting = listed.iter().take(pairs_length / 2);
    let numbers: Vec<u64> = fitting.flat_map(|r| [r.entry_index, r.sequence_number]).collect();
    write(pairs, pairs_length, &numbers);
    listed.len() as u64
}

#[no_mangle]
pub unsafe extern "C" fn judge_entry_reference(
    file: *const u8,
    length: usize,
    i: u64,
    out: *mut u64,
    out_length: usize,
) -> u32 {
    let reference = queries::entry_reference(list(file, length), i);
    let numbers =
        reference.map(|field| field.map_or([0; 3], |r| [1, r.entry_index, r.sequence_number]));
    tell(numbers, out, out_length)
}

#[no_mangle]
pub unsafe extern "C" fn judge_find_path_from(
    file: *const u8,
    length: usize,
    volume: u64,
    start: *const u8,
    start_length: usize,
    out: *mut u64,
    out_length: usize,
) -> u32 {
    let found = find_path_from(list(file, length), volume, list(start, start_length));
    tell(found.map(|found| [found.entry, found.number]), out, out_length)
}

#[no_mangle]
pub unsafe extern "C" fn judge_cost(
    file: *const u8,
    length: usize,
    out: *mut u64,
    out_length: usize,
) -> u32 {
    let cost = cost::cost(list(file, length));
    tell(cost.map(|cost| [cost.names, cost.directories]), out, out_length)
}

#[no_mangle]
pub unsafe extern "C" fn judge_hash_xp(numbers: *const u32, count: usize) -> u32 {
    hashes::hash_xp(list(numbers, count))
}

#[no_mangle]
pub unsafe extern "C" fn judge_hash_vista(numbers: *const u32, count: usize) -> u32 {
    hashes::hash_vista(list(numbers, count))
}

#[no_mangle]
pub unsafe extern "C" fn judge_hash_2008(numbers: *const u32, count: usize) -> u32 {
    hashes::hash_2008(list(numbers, count))
}

#[no_mangle]
pub unsafe extern "C" fn judge_hash_xp_bytes(text: *const u8, length: usize) -> u32 {
    hashes::hash_xp(&hashes::bytes(list(text, length)))
}

#[no_mangle]
pub unsafe extern "C" fn judge_hash_vista_bytes(text: *const u8, length: usize) -> u32 {
    hashes::hash_vista(&hashes::bytes(list(text, length)))
}

#[no_mangle]
pub unsafe extern "C" fn judge_hash_2008_bytes(text: *const u8, length: usize) -> u32 {
    hashes::hash_2008(&hashes::bytes(list(text, length)))
}

#[no_mangle]
pub unsafe extern "C" fn judge_hash_powers(numbers: *const u32, count: usize) -> u32 {
    hashes::hash_powers(list(numbers, count))
}

#[no_mangle]
pub unsafe extern "C" fn judge_hash_powers_bytes(text: *const u8, length: usize) -> u32 {
    hashes::hash_powers(&hashes::bytes(list(text, length)))
}

/// The hash, or 0 with 25.
unsafe fn swapped(hash: Option<u32>, out: *mut u64, out_length: usize) -> u32 {
    match tell(hash.map(|hash| [hash.into()]), out, out_length) {
        1 => 0,
        _ => 25,
    }
}

#[no_mangle]
pub unsafe extern "C" fn judge_hash_swap(
    old_hash: u32,
    old: *const u32,
    old_count: usize,
    p: u64,
    start: *const u32,
    start_count: usize,
    out: *mut u64,
    out_length: usize,
) -> u32 {
    let hash = hashes::hash_swap(old_hash, list(old, old_count), p, list(start, start_count));
    swapped(hash, out, out_length)
}

#[no_mangle]
pub unsafe extern "C" fn judge_hash_swap_bytes(
    old_hash: u32,
    old: *const u8,
    old_length: usize,
    p: u64,
    start: *const u8,
    start_length: usize,
    out: *mut u64,
    out_length: usize,
) -> u32 {
    let (old, start) = (list(old, old_length), list(start, start_length));
    let hash = hashes::hash_swap(old_hash, &hashes::bytes(old), p, &hashes::bytes(start));
    swapped(hash, out, out_length)
}

#[no_mangle]
pub unsafe extern "C" fn judge_catalogue_read(
    line: *const u8,
    length: usize,
    out: *mut u64,
    out_length: usize,
) -> u32 {
    let fields = catalogue::read(list(line, length));
    let numbers = fields.map(|f| [f.size, f.stored_hash, f.run_count, f.version]);
    match tell(numbers, out, out_length) {
        1 => 0,
        _ => 18,
    }
}

#[no_mangle]
pub unsafe extern "C" fn judge_catalogue_write(
    size: u32,
    stored_hash: u32,
    run_count: u32,
    version: u32,
    output: *mut u8,
    length: usize,
) -> u32 {
    let fields = Fields {
        size: size.into(),
        stored_hash: stored_hash.into(),
        run_count: run_count.into(),
        version: version.into(),
    };
    match catalogue::write(&fields) {
        Some(line) if line.len() <= length => {
            write(output, length, &line);
            0
        }
        _ => 19,
    }
}

/// As many whole answers as fit.
#[no_mangle]
pub unsafe extern "C" fn judge_replay(
    recording: *const u8,
    length: usize,
    times: *const u64,
    times_length: usize,
    boards: *const u8,
    boards_length: usize,
    work: *mut u32,
    work_length: usize,
    answers: *mut u64,
    answers_length: usize,
    out: *mut u64,
    out_length: usize,
) -> u32 {
    let starts = starts_of(list(times, times_length), list(boards, boards_length));
    let replayed = replay(list(recording, length), &starts);
    let (code, line, numbers) = replay_numbers(&replayed, starts.len());
    write(work, work_length, &vec![constants::HS_NONE; work_length]);
    write(answers, answers_length / 4 * 4, &numbers);
    write(out, out_length, &line);
    code
}

#[no_mangle]
pub unsafe extern "C" fn judge_replay_begin(
    times: *const u64,
    times_length: usize,
    boards: *const u8,
    boards_length: usize,
    work: *mut u32,
    work_length: usize,
    answers: *mut u64,
    answers_length: usize,
    out: *mut u64,
    out_length: usize,
) -> u32 {
    let served = pieces::served(times_length, boards_length, work_length, answers_length);
    let starts = starts_of(list(times, served), list(boards, served));
    write(work, work_length, &pieces::order(&starts));
    write(answers, answers_length, &vec![0; 4 * served]);
    write(out, out_length, &[0, 0, served as u64]);
    0
}

/// The answers are those of a call before, and so is the order or it has a place that is none.
#[no_mangle]
pub unsafe extern "C" fn judge_replay_feed(
    lines: u64,
    bad: u64,
    piece: *const u8,
    length: usize,
    times: *const u64,
    times_length: usize,
    boards: *const u8,
    boards_length: usize,
    work: *const u32,
    work_length: usize,
    answers: *mut u64,
    answers_length: usize,
    out: *mut u64,
    out_length: usize,
) -> u32 {
    let served = pieces::served(times_length, boards_length, work_length, answers_length);
    let starts = starts_of(list(times, served), list(boards, served));
    let so_far = list(answers.cast_const(), 4 * served).chunks_exact(4).map(|answer| {
        (answer[0] != 0).then(|| Reading {
            time: answer[1],
            board: answer[2] as u8,
            temperature: signed(answer[3]),
        })
    });
    let so_far: Vec<Option<Reading>> = so_far.collect();
    let (piece, order) = (list(piece, length), list(work, served));
    let fed = pieces::feed((lines, bad), piece, &starts, order, &so_far);
    if let Some(new) = fed.answers {
        let numbers: Vec<u64> = new.iter().flat_map(answer_numbers).collect();
        write(answers, answers_length, &numbers);
    }
    write(out, out_length, &[fed.lines, fed.bad, fed.used]);
    0
}

#[no_mangle]
pub unsafe extern "C" fn judge_replay_finish(
    lines: u64,
    bad: u64,
    waiting: u64,
    _times: *const u64,
    times_length: usize,
    _boards: *const u8,
    boards_length: usize,
    work: *mut u32,
    work_length: usize,
    answers: *mut u64,
    answers_length: usize,
    out: *mut u64,
    out_length: usize,
) -> u32 {
    let served = pieces::served(times_length, boards_length, work_length, answers_length);
    let line = pieces::finish(lines, bad, waiting);
    if line.is_some() {
        write(answers, answers_length, &vec![0; 4 * served]);
    }
    write(work, work_length, &vec![constants::HS_NONE; work_length]);
    write(out, out_length, &[line.unwrap_or(0)]);
    if line.is_some() {
        22
    } else {
        0
    }
}

/// As many whole rows as fit.
#[no_mangle]
pub unsafe extern "C" fn judge_year_table(
    lines: *const u8,
    length: usize,
    hashes: *const u32,
    starts: usize,
    answers: *const u64,
    answers_length: usize,
    rows: *mut u64,
    rows_length: usize,
    out: *mut u64,
    out_length: usize,
) -> u32 {
    let starts = year::starts_of(list(hashes, starts), list(answers, answers_length));
    let (code, numbers, of_rows) = year_numbers(&year::table(list(lines, length), &starts));
    write(rows, rows_length / 9 * 9, &of_rows);
    write(out, out_length, &numbers);
    code
}
