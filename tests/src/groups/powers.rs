//! The second hash engine and its swap, over lists of numbers and over texts.

use super::Run;
use crate::boundary::guarded_u64;
use crate::generate::misread;
use crate::random::Random;
use crate::reference::hashes as reference;
use crate::reference::hashes::POWERS;
use crate::tally::{hex, hex_numbers, Tally};
use hivesaddle::raw;
use std::ptr::{null, null_mut};

pub fn run(run: &Run, tally: &mut Tally) {
    let mut powers = Powers { random: run.random("powers"), tally, seen: Seen::default() };
    named_points(powers.tally);
    named_swaps(powers.tally);
    volume_renamed(powers.tally);
    null_pointers(powers.tally);
    powers.engines(run.scale);
    powers.swaps(run.scale);
    powers.seen.report(powers.tally);
}

fn named_points(tally: &mut Tally) {
    let points: [(&[u32], u32); 4] =
        [(&[], 314159), (&[65], 11623948), (&[65, 66], 430086142), (&[65, 0], 430086076)];
    for (numbers, hash) in points {
        let name = format!("powers of {numbers:?}");
        tally.named(&name, &hash, &hivesaddle::hash_powers(numbers));
        tally.named(&name, &hash, &reference::hash_powers(numbers));
        let text: Vec<u8> = numbers.iter().map(|&number| number as u8).collect();
        tally.named(&name, &hash, &hivesaddle::hash_powers_bytes(&text));
    }
    // As a signed byte: 430082820.
    tally.named("powers of E9 00", &430092292, &hivesaddle::hash_powers_bytes(b"\xE9\0"));
}

/// An old hash, a list, p, a start, and the hash worked by hand or 25.
type Swap = (u32, &'static [u32], u64, &'static [u32], Result<u32, u32>);

fn named_swaps(tally: &mut Tally) {
    const VISTA_A: u32 = 11623948;
    const VISTA_AB: u32 = 430086142;
    let swaps: [Swap; 17] = [
        (314159, &[], 0, &[], Ok(314159)),
        (314159, &[], 0, &[65], Ok(VISTA_A)),
        (VISTA_A, &[65], 0, &[], Ok(VISTA_A)),
        (VISTA_A, &[65], 1, &[], Ok(314159)),
        (VISTA_A, &[65], 1, &[66], Ok(VISTA_A + 1)),
        (11623949, &[66], 0, &[65], Ok(VISTA_AB)),
        (VISTA_AB, &[65, 66], 1, &[], Ok(11623949)),
        (VISTA_AB, &[65, 66], 2, &[65], Ok(VISTA_A)),
        // Old hashes that are not the list's: the formula's answer.
        (0, &[65], 1, &[66], Ok(1)),
        (5, &[65, 66], 1, &[66], Ok(42)),
        (0, &[66], 1, &[65], Ok(u32::MAX)),
        (u32::MAX, &[65, 9, 9], 1, &[66], Ok(37 * 37 - 1)),
        (7, &[65, 66], 0, &[], Ok(7)),
        (VISTA_A, &[65], 2, &[66], Err(25)),
        (314159, &[], 1, &[], Err(25)),
        (VISTA_A, &[65], 1 << 32, &[], Err(25)),
        (VISTA_A, &[65], u64::MAX, &[66], Err(25)),
    ];
    for (old_hash, old, p, start, expected) in swaps {
        let name = format!("{old_hash}, the first {p} of {old:?} for {start:?}");
        let refusal = |number| hivesaddle::Refusal { number, index: 0, offset: 0 };
        let expected = expected.map_err(refusal);
        tally.named(&name, &expected, &hivesaddle::hash_swap(old_hash, old, p, start));
        let own = reference::hash_swap(old_hash, old, p, start);
        tally.named(&name, &expected.ok(), &own);
        let bytes = |numbers: &[u32]| numbers.iter().map(|&c| c as u8).collect::<Vec<u8>>();
        let given = hivesaddle::hash_swap_bytes(old_hash, &bytes(old), p, &bytes(start));
        tally.named(&name, &expected, &given);
    }
}

/// The example path of source document 000 on the volume beside; both hashes
/// are from its functions.
fn volume_renamed(tally: &mut Tally) {
    let text = |path: &str| path.encode_utf16().flat_map(u16::to_le_bytes).collect::<Vec<u8>>();
    let old = text(r"\DEVICE\HARDDISKVOLUME1\WINDOWS\NOTEPAD.EXE");
    let volume = text(r"\DEVICE\HARDDISKVOLUME2");
    tally.named("bytes of the volume", &46, &volume.len());
    let given = hivesaddle::hash_swap_bytes(0x3D2AFDB4, &old, 46, &volume);
    tally.named("the volume renamed", &Ok(0x86E0E9B9), &given);
}

fn null_pointers(tally: &mut Tally) {
    let (numbers, text) = (null::<u32>(), null::<u8>());
    unsafe {
        tally.named("powers, null", &314159, &raw::hs_hash_powers(numbers, 0));
        tally.named("powers by bytes, null", &314159, &raw::hs_hash_powers_bytes(text, 0));
        for (p, code) in [(0, 0), (1, 25)] {
            let given = raw::hs_hash_swap(1, numbers, 0, p, numbers, 0, null_mut(), 0);
            tally.named("swap, null", &code, &given);
            let given = raw::hs_hash_swap_bytes(1, text, 0, p, text, 0, null_mut(), 0);
            tally.named("swap by bytes, null", &code, &given);
        }
    }
}

struct Powers<'a> {
    random: Random,
    tally: &'a mut Tally,
    seen: Seen,
}

impl Powers<'_> {
    /// Every length past the end of the table, and some far longer.
    fn engines(&mut self, scale: usize) {
        for length in 0..=POWERS + 40 {
            for _ in 0..3 * scale {
                self.engine(length);
            }
        }
        for length in [0, 1, POWERS - 1, POWERS, POWERS + 1, 2 * POWERS, 5_000, 65_536] {
            for _ in 0..20 * scale {
                self.engine(length);
            }
        }
    }

    fn engine(&mut self, length: usize) {
        let numbers = mixed_numbers(&mut self.random, length);
        let copy = numbers.clone();
        let input = || hex_numbers(&numbers);
        let expected = reference::hash_powers(&numbers);
        self.tally.same("powers", &expected, &hivesaddle::hash_powers(&copy), input);
        let vista = hivesaddle::hash_vista(&copy);
        self.tally.same("powers and Vista are equal", &vista, &expected, input);
        self.tally.same("numbers unchanged", &numbers, &copy, input);
        let text = mixed_text(&mut self.random, length);
        let copy = text.clone();
        let input = || hex(&text);
        let expected = reference::hash_powers(&reference::bytes(&text));
        self.tally.same("powers by bytes", &expected, &hivesaddle::hash_powers_bytes(&copy), input);
        self.tally.same("text unchanged", &text, &copy, input);
        let signed = reference::hash_powers(&misread::signed_bytes(&text));
        self.seen.signs += (signed != expected) as u64;
    }

    /// Old lists and starts on both sides of the table's end, p at either end
    /// of the list and past it, and so many kept that their power is the last
    /// of the table, one past it, or far beyond.
    fn swaps(&mut self, scale: usize) {
        let lengths = [0, 1, 2, 46, 240, POWERS - 1, POWERS, POWERS + 1, POWERS + 47, 5_000];
        for length in lengths {
            for start in [0, 1, 46, 68, POWERS - 1, POWERS, POWERS + 1, 3_000] {
                for p in places(length) {
                    for _ in 0..scale {
                        self.swap(length, p, start);
                    }
                }
            }
        }
        for _ in 0..4_000 * scale {
            let (length, start) = (self.random.below(200), self.random.below(100));
            let p = self.random.below(length + 2) as u64;
            self.swap(length, p, start);
        }
    }

    /// With the old list's own hash, and with another.
    fn swap(&mut self, length: usize, p: u64, start: usize) {
        let old = mixed_numbers(&mut self.random, length);
        let start = mixed_numbers(&mut self.random, start);
        let right = reference::hash_vista(&old);
        for old_hash in [right, other_hash(&mut self.random, right)] {
            let expected = reference::hash_swap(old_hash, &old, p, &start);
            self.seen.swap(expected, length as u64, p, old_hash == right);
            if let (Some(hash), true) = (expected, old_hash == right) {
                let joined = [&start[..], &old[p as usize..]].concat();
                let anew = hivesaddle::hash_vista(&joined);
                self.tally.same("hashed anew", &hash, &anew, || swap_words(&old, p, &start));
            }
            let numbers: Lists<u32> = (old_hash, &old, p, &start);
            self.asked("swap", numbers, expected, raw::hs_hash_swap, || {
                format!("{old_hash}, {}", swap_words(&old, p, &start))
            });
        }
        self.swap_of_texts(length, p, start.len());
    }

    fn swap_of_texts(&mut self, length: usize, p: u64, start: usize) {
        let old = mixed_text(&mut self.random, length);
        let start = mixed_text(&mut self.random, start);
        let (numbers, new) = (reference::bytes(&old), reference::bytes(&start));
        let right = reference::hash_vista(&numbers);
        for old_hash in [right, other_hash(&mut self.random, right)] {
            let expected = reference::hash_swap(old_hash, &numbers, p, &new);
            if let (Some(hash), true) = (expected, old_hash == right) {
                let joined = [&start[..], &old[p as usize..]].concat();
                let anew = hivesaddle::hash_vista_bytes(&joined);
                self.tally.same("text hashed anew", &hash, &anew, || hex(&joined));
            }
            let texts: Lists<u8> = (old_hash, &old, p, &start);
            self.asked("swap by bytes", texts, expected, raw::hs_hash_swap_bytes, || {
                format!("{old_hash}, the first {p} of {} for {}", hex(&old), hex(&start))
            });
        }
    }

    /// 0 and the hash, or 25 and 0; both lists are as they were.
    fn asked<T: Copy + PartialEq + std::fmt::Debug>(
        &mut self,
        what: &str,
        (old_hash, old, p, start): Lists<T>,
        expected: Option<u32>,
        call: RawSwap<T>,
        input: impl Fn() -> String,
    ) {
        let out_length = if self.random.one_in(8) { self.random.below(4) } else { 1 };
        let mut out = guarded_u64(&mut self.random, out_length);
        let values = out.after_writing(&[expected.unwrap_or(0).into()]);
        let code = if expected.is_some() { 0 } else { 25 };
        let (old_copy, start_copy) = (old.to_vec(), start.to_vec());
        let place = out.inner();
        let given = unsafe {
            call(
                old_hash,
                old_copy.as_ptr(),
                old_copy.len(),
                p,
                start_copy.as_ptr(),
                start_copy.len(),
                place.as_mut_ptr(),
                place.len(),
            )
        };
        self.tally.same(what, &(code, &values[..]), &(given, out.all()), &input);
        let unchanged = old == old_copy && start == start_copy;
        self.tally.holds("lists unchanged", unchanged, &input);
    }
}

/// Old hash, old list, p and start.
type Lists<'a, T> = (u32, &'a [T], u64, &'a [T]);

type RawSwap<T> =
    unsafe extern "C" fn(u32, *const T, usize, u64, *const T, usize, *mut u64, usize) -> u32;

fn swap_words(old: &[u32], p: u64, start: &[u32]) -> String {
    format!("the first {p} of {} for {}", hex_numbers(old), hex_numbers(start))
}

/// Both ends of a list of so many, past it, and those that leave as many as
/// the table has powers, one less and one more.
fn places(length: usize) -> Vec<u64> {
    let length = length as u64;
    let mut places = vec![0, 1, 46, length / 2, length, length + 1, length + (1 << 32), u64::MAX];
    places.extend([1_022, 1_023, 1_024, 1_025, 4_000].map(|kept| length.wrapping_sub(kept)));
    places.sort();
    places.dedup();
    places
}

/// Near the right one, at an end of 32 bits, or any.
fn other_hash(random: &mut Random, right: u32) -> u32 {
    let noise = random.u32();
    *random.pick(&[right.wrapping_add(1), right ^ 1 << 31, 0, 1, u32::MAX, noise, noise])
}

/// Bytes, units, any numbers, or those near the ends of 32 bits.
fn mixed_numbers(random: &mut Random, length: usize) -> Vec<u32> {
    let kind = random.below(4);
    let mut number = || match kind {
        0 => random.u32() % 256,
        1 => random.u32() % 65_536,
        2 => random.u32(),
        _ => *random.pick(&[0, 1, 1 << 31, u32::MAX - 1, u32::MAX]),
    };
    (0..length).map(|_| number()).collect()
}

/// Any bytes, or those of 128 and above only.
fn mixed_text(random: &mut Random, length: usize) -> Vec<u8> {
    let high = if random.one_in(2) { 128 } else { 0 };
    (0..length).map(|_| high | random.byte()).collect()
}

/// How often each kind has come up.
#[derive(Default)]
struct Seen {
    /// Texts whose hash would differ with signed bytes.
    signs: u64,
    right: u64,
    wrong: u64,
    refused: u64,
    /// Swaps that keep as many numbers as the table has powers, or more.
    long: u64,
}

impl Seen {
    fn swap(&mut self, expected: Option<u32>, length: u64, p: u64, right: bool) {
        let place = match expected {
            None => &mut self.refused,
            Some(_) if right => &mut self.right,
            Some(_) => &mut self.wrong,
        };
        *place += 1;
        self.long += (expected.is_some() && length - p >= POWERS as u64) as u64;
    }

    fn report(&self, tally: &mut Tally) {
        let kinds = [
            ("texts that signed bytes would change", self.signs),
            ("swaps from the right hash", self.right),
            ("swaps from another", self.wrong),
            ("swaps refused", self.refused),
            ("swaps that keep 1,024 and more", self.long),
        ];
        let counts: Vec<String> =
            kinds.iter().map(|(name, count)| format!("{name}: {count}")).collect();
        println!("powers: {}", counts.join(", "));
        for (name, count) in kinds {
            tally.named(&format!("{name} have come up often"), &true, &(count >= 100));
        }
    }
}
