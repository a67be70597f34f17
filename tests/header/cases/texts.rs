//! Calls that take numbers, a text or lines: hashes, swaps, catalogue lines.

use super::files::query;
use crate::call::{Call, Number};
use crate::judge::*;

pub fn all() -> Vec<Call> {
    let numbers: Vec<u32> = (0..300u32).map(|i| i.wrapping_mul(0x9E37_79B9)).collect();
    let text: Vec<u8> = numbers.iter().map(|number| (number >> 24) as u8).collect();
    let mut calls = Vec::new();
    for length in [300, 41, 8, 0] {
        calls.extend(hashes(&numbers[..length], &text[..length]));
    }
    for (length, p) in [(41, 9), (41, 41), (9, 0), (9, 10), (0, 0)] {
        let (old, old_bytes) = (&numbers[..length], &text[..length]);
        let (start, start_bytes) = (&numbers[100..117], &text[100..117]);
        calls.push(swap("hs_hash_swap", NUMBERS, judge_hash_swap, old, p, start));
        calls.push(swap(
            "hs_hash_swap_bytes",
            BYTES,
            judge_hash_swap_bytes,
            old_bytes,
            p,
            start_bytes,
        ));
    }
    calls.extend(lines());
    calls
}

type Hash<T> = unsafe extern "C" fn(*const T, usize) -> u32;

/// By numbers and by bytes, each function with the same lists.
fn hashes(numbers: &[u32], text: &[u8]) -> Vec<Call> {
    let of_numbers: [(&'static str, Hash<u32>); 4] = [
        ("hs_hash_xp", judge_hash_xp),
        ("hs_hash_vista", judge_hash_vista),
        ("hs_hash_2008", judge_hash_2008),
        ("hs_hash_powers", judge_hash_powers),
    ];
    let of_bytes: [(&'static str, Hash<u8>); 4] = [
        ("hs_hash_xp_bytes", judge_hash_xp_bytes),
        ("hs_hash_vista_bytes", judge_hash_vista_bytes),
        ("hs_hash_2008_bytes", judge_hash_2008_bytes),
        ("hs_hash_powers_bytes", judge_hash_powers_bytes),
    ];
    let of_numbers = of_numbers.map(|(function, judge)| {
        Call::of(function, |c| {
            let (numbers, count) = c.read("numbers", "count", numbers);
            unsafe { judge(numbers, count) }
        })
    });
    let of_bytes = of_bytes.map(|(function, judge)| {
        Call::of(function, |c| {
            let (text, length) = c.read("text", "length", text);
            unsafe { judge(text, length) }
        })
    });
    of_numbers.into_iter().chain(of_bytes).collect()
}

/// What the lengths of the two lists are called.
const NUMBERS: [&str; 2] = ["old_count", "start_count"];
const BYTES: [&str; 2] = ["old_length", "start_length"];

type Swap<T> =
    unsafe extern "C" fn(u32, *const T, usize, u64, *const T, usize, *mut u64, usize) -> u32;

fn swap<T: Number>(
    function: &'static str,
    lengths: [&'static str; 2],
    judge: Swap<T>,
    old: &[T],
    p: u64,
    start: &[T],
) -> Call {
    Call::of(function, |c| {
        let old_hash = c.number("old_hash", 0x1234_5678);
        let (old, old_length) = c.read("old", lengths[0], old);
        let p = c.number("p", p);
        let (start, start_length) = c.read("start", lengths[1], start);
        let (out, out_length) = c.written("out", "out_length", 2);
        unsafe { judge(old_hash, old, old_length, p, start, start_length, out, out_length) }
    })
}

/// New and old lines and none; fields that form a line, and fields that do not.
fn lines() -> Vec<Call> {
    let mut calls = Vec::new();
    for line in ["0001E2401234ABCD0000002A17\n", "01E2401234ABCD0000002A1A\n", "0001E240\n", ""] {
        calls.extend(query("hs_catalogue_read", judge_catalogue_read, "line", line.as_bytes(), 4));
    }
    for (version, room) in [(23, 30), (23, 27), (23, 26), (24, 30)] {
        calls.push(Call::of("hs_catalogue_write", |c| {
            let (size, hash) = (c.number("size", 123_456), c.number("stored_hash", 0x1234_ABCD));
            let (run_count, version) = (c.number("run_count", 42), c.number("version", version));
            let (output, length) = c.written("output", "length", room);
            unsafe { judge_catalogue_write(size, hash, run_count, version, output, length) }
        }));
    }
    calls
}
