//! The three path hashes over lists of numbers and over texts.

use super::Run;
use crate::generate::aimed::inverse;
use crate::generate::misread;
use crate::random::Random;
use crate::reference::hashes as reference;
use crate::tally::{hex, hex_numbers, Tally};
use hivesaddle::raw;
use std::ptr::null;

const EDGES: [u32; 8] =
    [0, 1, 255, 65_535, 2_147_483_647, 2_147_483_648, 2_147_483_649, 4_294_967_295];

pub fn run(run: &Run, tally: &mut Tally) {
    let mut random = run.random("hashes");
    named_points(tally);
    named_texts(tally);
    nothing_at_a_null_pointer(tally);
    example_of_the_source(tally);
    edge_numbers(tally);
    xp_ends(&mut random, tally);
    lists(&mut random, run.scale, tally);
    texts(&mut random, run.scale, tally);
}

fn named_points(tally: &mut Tally) {
    tally.named("XP of nothing", &0, &hivesaddle::hash_xp(&[]));
    tally.named("Vista of nothing", &314159, &hivesaddle::hash_vista(&[]));
    tally.named("2008 of nothing", &314159, &hivesaddle::hash_2008(&[]));
    tally.named("XP of A", &54483988, &hivesaddle::hash_xp(&[65]));
    tally.named("Vista of A", &11623948, &hivesaddle::hash_vista(&[65]));
    tally.named("2008 of A", &11623948, &hivesaddle::hash_2008(&[65]));
    tally.named("Vista of AB", &430086142, &hivesaddle::hash_vista(&[65, 66]));
    // The wrong multiplier that has been seen gives this for "A".
    tally.named("XP multiplier", &false, &(hivesaddle::hash_xp(&[65]) == 184483988));
}

/// Texts as bytes: "A" and an E9 as UTF-16 units, and a single byte.
fn named_texts(tally: &mut Tally) {
    let cases: [(&[u8], u32, u32); 4] = [
        (b"", 0, 314159),
        (b"A\0", 361202151, 430086076),
        // As a signed byte: 61565560 and 430082820.
        (b"\xE9\0", 757305720, 430092292),
        // An odd last byte counts.
        (b"A", 54483988, 11623948),
    ];
    for (text, xp, vista) in cases {
        tally.named(&format!("XP of bytes {text:?}"), &xp, &hivesaddle::hash_xp_bytes(text));
        let given = (hivesaddle::hash_vista_bytes(text), hivesaddle::hash_2008_bytes(text));
        tally.named(&format!("Vista and 2008 of bytes {text:?}"), &(vista, vista), &given);
    }
}

fn nothing_at_a_null_pointer(tally: &mut Tally) {
    unsafe {
        tally.named("XP, null", &0, &raw::hs_hash_xp(null(), 0));
        tally.named("Vista, null", &314159, &raw::hs_hash_vista(null(), 0));
        tally.named("2008, null", &314159, &raw::hs_hash_2008(null(), 0));
        tally.named("XP by bytes, null", &0, &raw::hs_hash_xp_bytes(null(), 0));
        tally.named("Vista by bytes, null", &314159, &raw::hs_hash_vista_bytes(null(), 0));
        tally.named("2008 by bytes, null", &314159, &raw::hs_hash_2008_bytes(null(), 0));
    }
}

/// The example of the source document holds over the bytes of the name, low
/// byte first, and does not hold over its units.
fn example_of_the_source(tally: &mut Tally) {
    const EXPECTED: u32 = 0x189578DA;
    let name = r"\DEVICE\HARDDISKVOLUME1\WINDOWS\NOTEPAD.EXE";
    let text: Vec<u8> = name.encode_utf16().flat_map(u16::to_le_bytes).collect();
    let by_bytes = hivesaddle::hash_xp_bytes(&text);
    let by_units = hivesaddle::hash_xp(&misread::units(&text));
    println!(
        "example hash {EXPECTED:08X} of {name}: by bytes {by_bytes:08X}, by units {by_units:08X}"
    );
    tally.named("example hash by bytes", &EXPECTED, &by_bytes);
    tally.named("example hash by units", &0x39B1CF75, &by_units);
    // The document has no example for these: its functions, run over the bytes.
    let others = (hivesaddle::hash_vista_bytes(&text), hivesaddle::hash_2008_bytes(&text));
    tally.named("the example by Vista and 2008", &(0x3D2AFDB4, 0x3D2AFDB4), &others);
}

/// Every list of up to three edge numbers.
fn edge_numbers(tally: &mut Tally) {
    for a in EDGES {
        list(&[a], tally);
        for b in EDGES {
            list(&[a, b], tally);
            for c in EDGES {
                list(&[a, b, c], tally);
            }
        }
    }
}

/// Lists whose XP value after the multiplication is a chosen number.
fn xp_ends(random: &mut Random, tally: &mut Tally) {
    literal_ends(tally);
    for after in chosen_ends() {
        let end = reference::xp_end_step(after as i128);
        for length in 1..=40 {
            let numbers = list_ending_in(random, length, after);
            let given = hivesaddle::hash_xp(&numbers);
            tally.same("XP end step", &end, &given, || hex_numbers(&numbers));
            list(&numbers, tally);
        }
    }
}

/// The two ends that the papers give, and their neighbours, worked by hand.
fn literal_ends(tally: &mut Tally) {
    let ends = [
        (2_147_483_647, 147_483_633),
        (2_147_483_648, 147_483_634),
        (2_147_483_649, 147_483_633),
        (4_294_967_294, 2),
        (4_294_967_295, 1),
        (0, 0),
        (1, 1),
    ];
    for (after, end) in ends {
        let given = hivesaddle::hash_xp(&[single_number_for(after)]);
        tally.named(&format!("XP end step from {after}"), &end, &given);
    }
}

fn chosen_ends() -> Vec<u32> {
    const PRIME: u32 = 1_000_000_007;
    let middles =
        [0, 2_147_483_648, PRIME, 2 * PRIME, PRIME.wrapping_neg(), (2 * PRIME).wrapping_neg()];
    let around = |middle: u32| (0..7).map(move |step| middle.wrapping_add(step).wrapping_sub(3));
    middles.into_iter().flat_map(around).collect()
}

/// The number c with c x 314159269 = after, mod 2 to the 32.
fn single_number_for(after: u32) -> u32 {
    after.wrapping_mul(inverse(314159269))
}

/// Random numbers and a last one that brings the XP value where it should be.
fn list_ending_in(random: &mut Random, length: usize, after: u32) -> Vec<u32> {
    let mut numbers = random.numbers(length - 1);
    let before = numbers.iter().fold(0u32, |h, &c| h.wrapping_mul(37).wrapping_add(c));
    numbers.push(single_number_for(after).wrapping_sub(before.wrapping_mul(37)));
    numbers
}

fn lists(random: &mut Random, scale: usize, tally: &mut Tally) {
    for length in 0..=40 {
        for _ in 0..4_000 * scale {
            list(&mixed_numbers(random, length), tally);
        }
    }
    for length in [255, 256, 257, 260, 999, 1_000, 1_001, 4_096] {
        for _ in 0..20 * scale {
            list(&mixed_numbers(random, length), tally);
        }
    }
    list(&random.numbers(1_000_000), tally);
}

/// Of one kind, or edge numbers and random ones mixed.
fn mixed_numbers(random: &mut Random, length: usize) -> Vec<u32> {
    let kind = random.below(4);
    let mut number = || match kind {
        0 => random.u32(),
        1 => random.u32() % 65_536,
        2 => random.u32() % 256,
        _ if random.one_in(2) => *random.pick(&EDGES),
        _ => random.u32(),
    };
    (0..length).map(|_| number()).collect()
}

fn list(numbers: &[u32], tally: &mut Tally) {
    let copy = numbers.to_vec();
    let input = || hex_numbers(numbers);
    tally.same("XP", &reference::hash_xp(numbers), &hivesaddle::hash_xp(&copy), input);
    tally.same("Vista", &reference::hash_vista(numbers), &hivesaddle::hash_vista(&copy), input);
    tally.same("2008", &reference::hash_2008(numbers), &hivesaddle::hash_2008(&copy), input);
    let (vista, hash_2008) = (hivesaddle::hash_vista(&copy), hivesaddle::hash_2008(&copy));
    tally.same("Vista and 2008 are equal", &vista, &hash_2008, input);
    tally.same("numbers unchanged", numbers, &copy, input);
}

fn texts(random: &mut Random, scale: usize, tally: &mut Tally) {
    for length in 0..=200 {
        for _ in 0..400 * scale {
            text(&mixed_text(random, length), tally);
        }
    }
    for length in [999, 1_000, 1_001, 65_535, 65_536] {
        text(&mixed_text(random, length), tally);
    }
}

/// Random bytes, plain letters, or bytes of 128 and above only.
fn mixed_text(random: &mut Random, length: usize) -> Vec<u8> {
    let kind = random.below(3);
    let byte = |place: usize| match kind {
        0 => random.byte(),
        1 if place % 2 == 1 => 0,
        1 => 32 + random.byte() % 95,
        _ => 128 | random.byte(),
    };
    (0..length).map(byte).collect()
}

fn text(text: &[u8], tally: &mut Tally) {
    let copy = text.to_vec();
    let bytes = reference::bytes(text);
    let input = || hex(text);
    let (xp, vista, hash_2008) =
        (reference::hash_xp(&bytes), reference::hash_vista(&bytes), reference::hash_2008(&bytes));
    tally.same("XP by bytes", &xp, &hivesaddle::hash_xp_bytes(&copy), input);
    tally.same("Vista by bytes", &vista, &hivesaddle::hash_vista_bytes(&copy), input);
    tally.same("2008 by bytes", &hash_2008, &hivesaddle::hash_2008_bytes(&copy), input);
    tally.same("text unchanged", text, &copy, input);
}
