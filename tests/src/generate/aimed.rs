//! Texts with a chosen path hash, taken over their bytes.

use crate::random::Random;

const PRIME: u32 = 1_000_000_007;

/// Four units with this hash by the version's function, and no byte zero. XP
/// never gives 1000000007 and above.
pub fn text_with_hash(random: &mut Random, version: u32, hash: u32) -> Option<[u8; 8]> {
    tail_with_hash(random, version, &[], hash)
}

/// Four such units that give a text of these bytes the hash, with them behind it.
pub fn tail_with_hash(
    random: &mut Random,
    version: u32,
    front: &[u8],
    hash: u32,
) -> Option<[u8; 8]> {
    if version != 17 {
        return Some(text_with_sum(random, hash.wrapping_sub(sum_of_front(314_159, front))));
    }
    if hash >= PRIME {
        return None;
    }
    // All four come to the same hash in XP's end step.
    let positive = *random.pick(&[hash, hash + PRIME]);
    let after = *random.pick(&[positive, positive.wrapping_neg()]);
    let sum = after.wrapping_mul(inverse(314_159_269));
    Some(text_with_sum(random, sum.wrapping_sub(sum_of_front(0, front))))
}

/// What a hash's start and the bytes of a front add behind eight more steps.
fn sum_of_front(start: u32, front: &[u8]) -> u32 {
    let step = |sum: u32, &byte: &u8| sum.wrapping_mul(37).wrapping_add(byte.into());
    [front, &[0; 8]].concat().iter().fold(start, step)
}

/// Eight bytes that the plain step takes from 0 to this number. The first is
/// any; the others are one more than the digits, to the base 37, of what is
/// left, since seven such digits go past 32 bits.
fn text_with_sum(random: &mut Random, sum: u32) -> [u8; 8] {
    let first = random.between(1, 255) as u8;
    let ones = [first, 1, 1, 1, 1, 1, 1, 1];
    let behind =
        ones.iter().fold(0, |sum: u32, &one| sum.wrapping_mul(37).wrapping_add(one.into()));
    let mut left = sum.wrapping_sub(behind);
    let mut text = ones;
    for byte in text[1..].iter_mut().rev() {
        *byte += (left % 37) as u8;
        left /= 37;
    }
    text
}

/// Of an odd number, mod 2 to the 32: each turn doubles the bits that hold.
pub fn inverse(odd: u32) -> u32 {
    let mut x = odd;
    for _ in 0..5 {
        x = x.wrapping_mul(2u32.wrapping_sub(odd.wrapping_mul(x)));
    }
    x
}

#[cfg(test)]
mod points {
    use super::*;
    use crate::reference::hashes::bytes;
    use crate::reference::search::hash_of;

    #[test]
    fn the_hash_is_the_chosen_one() {
        let mut random = Random::new(5);
        for version in [17, 23, 26, 30] {
            for round in 0..5_000 {
                let hash = *random.pick(&[0, 1, PRIME - 1, PRIME, u32::MAX, round, u32::MAX / 7]);
                let front = random.bytes(round as usize % 40);
                match tail_with_hash(&mut random, version, &front, hash) {
                    Some(tail) => {
                        let text = [&front[..], &tail].concat();
                        assert_eq!(hash_of(version, &bytes(&text)), hash);
                    }
                    None => assert!(version == 17 && hash >= PRIME),
                }
            }
        }
    }
}
