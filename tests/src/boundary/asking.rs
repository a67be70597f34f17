//! One query to the library beside the answer of the reference, with noise in
//! and around the list that it writes to.

use super::guarded::{guarded_u32, guarded_u64, Guarded};
use crate::random::Random;
use crate::tally::Tally;
use std::fmt::Debug;

/// What is compared, and how the input is put into words.
pub struct Asked<'a, W: Fn() -> String> {
    pub what: &'a str,
    pub input: W,
}

/// A query that gives 1 and the numbers, or 0 and as many zeros. Now and then
/// `out` has another length than all that there are.
pub fn compare_query<const N: usize, W: Fn() -> String>(
    random: &mut Random,
    tally: &mut Tally,
    asked: Asked<W>,
    numbers: Option<[u64; N]>,
    call: impl FnOnce(&mut [u64]) -> u32,
) {
    let out_length = match random.one_in(8) {
        true => random.below(N + 4),
        false => N,
    };
    let mut out = guarded_u64(random, out_length);
    let expected = out.after_writing(&numbers.unwrap_or([0; N]));
    let code = call(out.inner());
    let expected = (u32::from(numbers.is_some()), &expected[..]);
    tally.same(asked.what, &expected, &(code, out.all()), asked.input);
}

/// A number that a list of pairs is made of.
pub trait Number: Copy + PartialEq + Debug {
    fn guarded(random: &mut Random, length: usize) -> Guarded<Self>;
}

impl Number for u32 {
    fn guarded(random: &mut Random, length: usize) -> Guarded<u32> {
        guarded_u32(random, length)
    }
}

impl Number for u64 {
    fn guarded(random: &mut Random, length: usize) -> Guarded<u64> {
        guarded_u64(random, length)
    }
}

/// A query that lists pairs, into a list of this length: the full count, the
/// pairs that fit, and all else of the list as it was.
pub fn compare_pairs<T: Number, W: Fn() -> String>(
    random: &mut Random,
    tally: &mut Tally,
    asked: Asked<W>,
    expected: &[[T; 2]],
    length: usize,
    call: impl FnOnce(&mut [T]) -> u64,
) {
    let mut pairs = T::guarded(random, length);
    let fitting: Vec<T> = expected.iter().take(length / 2).flatten().copied().collect();
    let after = pairs.after_writing(&fitting);
    let count = call(pairs.inner());
    let input = || format!("{length} numbers for {}", (asked.input)());
    tally.same(asked.what, &(expected.len() as u64, &after[..]), &(count, pairs.all()), input);
}
