//! The walk through the safe call, with answers by hand.

use hivesaddle::*;

/// Version 17 with trace entries at 148: next index and block count.
fn file(entries: &[(u32, u32)]) -> Vec<u8> {
    let mut file = vec![0; 148 + 12 * entries.len()];
    let size = file.len() as u32;
    file[4..8].copy_from_slice(b"SCCA");
    for (at, number) in [(0, 17), (12, size), (92, 148), (96, entries.len() as u32)] {
        file[at..at + 4].copy_from_slice(&number.to_le_bytes());
    }
    for (i, (next, blocks)) in entries.iter().enumerate() {
        file[148 + 12 * i..][..4].copy_from_slice(&next.to_le_bytes());
        file[148 + 12 * i + 4..][..4].copy_from_slice(&blocks.to_le_bytes());
    }
    file
}

/// The chains 0 -> 3 -> 1 and 2, with a total past 32 bits.
fn two_chains() -> Vec<u8> {
    file(&[(3, u32::MAX), (NONE, 1), (NONE, u32::MAX), (1, 3)])
}

#[test]
fn heads_in_index_order() {
    let (mut slots, mut order) = ([7; 5], [7; 6]);
    let walked = walk(&two_chains(), &mut slots, &mut order);
    assert_eq!(walked, Ok(Walk { steps: 4, total: 8_589_934_594 }));
    assert_eq!(order, [0, 3, 1, 2, 7, 7]);
    assert_eq!(slots, [NONE, 3, NONE, 0, NONE]);
}

#[test]
fn no_entries() {
    assert_eq!(walk(&file(&[]), &mut [], &mut []), Ok(Walk { steps: 0, total: 0 }));
}

#[test]
fn refused() {
    let sound = two_chains();
    let cycle = file(&[(1, 0), (0, 0), (NONE, 0), (NONE, 0)]);
    let cases: [(&[u8], usize, usize, (u32, u64, u64)); 5] = [
        (&sound, 4, 3, (23, 0, 0)),
        (&sound, 4, 0, (23, 0, 0)),
        (&sound, 3, 3, (7, 0, 96)),
        (&sound[..195], 4, 0, (16, 0, 12)),
        (&cycle, 4, 0, (13, 0, 148)),
    ];
    for (file, places, order_length, (number, index, offset)) in cases {
        let (mut slots, mut order) = (vec![7; places], vec![7; order_length]);
        let refusal = Refusal { number, index, offset };
        assert_eq!(walk(file, &mut slots, &mut order), Err(refusal));
        assert_eq!(slots, vec![NONE; places]);
        assert_eq!(order, vec![7; order_length]);
    }
}

/// Trace entries of 8 bytes without a next index.
#[test]
fn version_30() {
    let mut file = vec![0xFF; 236];
    file[..212].fill(0);
    file[4..8].copy_from_slice(b"SCCA");
    (file[0], file[12], file[92], file[96]) = (30, 236, 212, 3);
    (file[84], file[85]) = (48, 1);
    let (mut slots, mut order) = ([7; 2], [7; 2]);
    assert_eq!(walk(&file, &mut slots, &mut order), Ok(Walk { steps: 0, total: 0 }));
    assert_eq!((slots, order), ([NONE; 2], [7; 2]));
}
