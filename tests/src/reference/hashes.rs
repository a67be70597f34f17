//! The path hashes, with exact sums that are reduced where the paper says so.

const MODULUS: i128 = 4_294_967_296;
/// What Vista and 2008 start from.
const START: i128 = 314159;

/// XP: from 0, with the end step.
pub fn hash_xp(numbers: &[u32]) -> u32 {
    let h = plain_steps(0, numbers);
    xp_end_step((h * 314159269).rem_euclid(MODULUS))
}

/// From the number after the multiplication: read as signed, made positive,
/// and taken mod 1000000007.
pub fn xp_end_step(after: i128) -> u32 {
    let signed = if after < MODULUS / 2 { after } else { after - MODULUS };
    (signed.abs() % 1_000_000_007) as u32
}

/// Vista: from 314159, no end step.
pub fn hash_vista(numbers: &[u32]) -> u32 {
    plain_steps(START, numbers) as u32
}

/// 2008: eight numbers at a time while more than eight remain.
pub fn hash_2008(numbers: &[u32]) -> u32 {
    let mut h = START;
    let mut rest = numbers;
    while rest.len() > 8 {
        let c: Vec<i128> = rest[..8].iter().map(|&number| number as i128).collect();
        let sum = (((((37 * c[1] + c[2]) * 37 + c[3]) * 37 + c[4]) * 37 + c[5]) * 37 + c[6]) * 37
            + 442596621 * c[0]
            + c[7];
        h = (sum - 803794207 * h).rem_euclid(MODULUS);
        rest = &rest[8..];
    }
    plain_steps(h, rest) as u32
}

/// The second engine: each number times its power of 37, up to as many numbers
/// as its table has powers; past that the plain step.
pub fn hash_powers(numbers: &[u32]) -> u32 {
    if numbers.len() > POWERS {
        return plain_steps(START, numbers) as u32;
    }
    let behind = |place: usize| numbers.len() - 1 - place;
    let terms = numbers.iter().enumerate().map(|(place, &c)| c as i128 * power(behind(place)));
    ((START * power(numbers.len()) + terms.sum::<i128>()) % MODULUS) as u32
}

/// Powers in the table of the second engine.
pub const POWERS: usize = 1_024;

/// 37 raised to the exponent, mod 2 to the 32, by squares.
fn power(exponent: usize) -> i128 {
    match exponent {
        0 => 1,
        _ if exponent % 2 == 1 => 37 * power(exponent - 1) % MODULUS,
        _ => power(exponent / 2).pow(2) % MODULUS,
    }
}

/// The old hash, which may be any, with the first p numbers of the old list
/// swapped for another start; nothing where the list has fewer than p.
pub fn hash_swap(old_hash: u32, old: &[u32], p: u64, start: &[u32]) -> Option<u32> {
    if p > old.len() as u64 {
        return None;
    }
    let (first, kept) = old.split_at(p as usize);
    let difference = hash_powers(start) as i128 - hash_powers(first) as i128;
    let hash = old_hash as i128 + difference * power(kept.len());
    Some(hash.rem_euclid(MODULUS) as u32)
}

/// The hash of two lists behind each other by the version's function, from each
/// on its own: the steps of the second take any h to h times 37 raised to its
/// length, and add what they make of 0.
pub fn hash_joined(version: u32, first: &[u32], second: &[u32]) -> u32 {
    let from = if version == 17 { 0 } else { START };
    let h = plain_steps(from, first) * power(second.len()) + plain_steps(0, second);
    match version {
        17 => xp_end_step((h % MODULUS * 314159269).rem_euclid(MODULUS)),
        _ => (h % MODULUS) as u32,
    }
}

fn plain_steps(start: i128, numbers: &[u32]) -> i128 {
    numbers.iter().fold(start, |h, &c| (37 * h + c as i128) % MODULUS)
}

/// Each byte of a text as one number, from 0 to 255: what a path is hashed
/// over.
pub fn bytes(text: &[u8]) -> Vec<u32> {
    text.iter().map(|&byte| byte as u32).collect()
}

#[cfg(test)]
mod points {
    use super::*;

    #[test]
    fn of_nothing_and_of_short_names() {
        assert_eq!(hash_xp(&[]), 0);
        assert_eq!(hash_vista(&[]), 314159);
        assert_eq!(hash_vista(&[65]), 11623948);
        assert_eq!(hash_2008(&[65]), 11623948);
        assert_eq!(hash_vista(&[65, 66]), 430086142);
        assert_eq!(hash_xp(&[65]), 54483988);
    }

    #[test]
    fn of_bytes() {
        assert_eq!(hash_xp(&bytes(b"A\0")), 361202151);
        assert_eq!(hash_vista(&bytes(b"A\0")), 430086076);
        // As signed bytes: 61565560 and 430082820.
        assert_eq!(hash_xp(&bytes(b"\xE9\0")), 757305720);
        assert_eq!(hash_vista(&bytes(b"\xE9\0")), 430092292);
    }

    #[test]
    fn the_example_of_the_source() {
        let path = r"\DEVICE\HARDDISKVOLUME1\WINDOWS\NOTEPAD.EXE";
        let text: Vec<u8> = path.encode_utf16().flat_map(u16::to_le_bytes).collect();
        assert_eq!(hash_xp(&bytes(&text)), 0x189578DA);
    }

    /// What #108 says of every list, on lists around the steps of eight.
    #[test]
    fn vista_and_2008_are_equal() {
        for length in 0..=40u32 {
            for start in [0, 1, 254, 65_534, u32::MAX - 20, 1 << 31] {
                let numbers: Vec<u32> =
                    (0..length).map(|i| start.wrapping_add(i * i * i)).collect();
                assert_eq!(hash_vista(&numbers), hash_2008(&numbers));
            }
        }
    }

    /// What #109 says of the second engine and of its swap.
    #[test]
    fn powers_are_vista_and_swaps_are_joined_lists() {
        let numbers: Vec<u32> = (0..3_000u32).map(|i| i.wrapping_mul(0x9E37_79B9)).collect();
        for length in [0, 1, 2, 1_023, 1_024, 1_025, 3_000] {
            assert_eq!(hash_powers(&numbers[..length]), hash_vista(&numbers[..length]));
        }
        for (length, p) in [(0, 0), (1, 0), (1, 1), (1_025, 1), (3_000, 46), (3_000, 1_500)] {
            let (old, start) = (&numbers[..length], &numbers[7..60]);
            let joined = [start, &old[p..]].concat();
            let swapped = hash_swap(hash_vista(old), old, p as u64, start);
            assert_eq!(swapped, Some(hash_vista(&joined)));
            assert_eq!(hash_swap(0, old, length as u64 + 1, start), None);
        }
    }

    #[test]
    fn joined_lists_are_one_list() {
        use crate::reference::search::hash_of;
        let numbers: Vec<u32> = (0..90u32).map(|i| i.wrapping_mul(0x9E37_79B9) >> 24).collect();
        for version in [17, 23, 26, 30] {
            for (first, last) in [(0, 0), (0, 1), (1, 1), (7, 9), (8, 24), (46, 90), (90, 90)] {
                let joined = hash_joined(version, &numbers[..first], &numbers[first..last]);
                assert_eq!(joined, hash_of(version, &numbers[..last]));
            }
        }
    }

    #[test]
    fn xp_ends() {
        assert_eq!(xp_end_step(2147483648), 147483634);
        assert_eq!(xp_end_step(4294967295), 1);
    }
}
