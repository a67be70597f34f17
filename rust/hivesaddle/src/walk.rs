//! The walk along all chains of trace entries.

use crate::raw::*;
use crate::{Refusal, NONE};

/// What a walk comes to.
#[derive(Clone, Copy, Debug, PartialEq, Eq)]
pub struct Walk {
    /// Entries visited: all that the file has, and none in version 30.
    pub steps: u32,
    /// The block load counts along the chains added up, which is their total
    /// over the array; 0 in version 30. That is what the papers call the number.
    /// In files that Windows wrote it rises along every chain of more than one
    /// entry: there it is a position, and the total means nothing.
    pub total: u64,
}

/// Reads a complete file as [`crate::read_file`] does, and walks its chains:
/// from each head, an entry that no entry names as next, in index order, and
/// from there along next to the chain's end. So every trace entry is visited
/// once.
///
/// `order` takes the entries in the order visited, one place for each step,
/// and keeps what it held behind them. It needs one place for each trace
/// entry; with fewer the answer is refusal 23. A refusal of
/// [`crate::read_file`] comes first. After any refusal all of `order` is as it
/// was.
///
/// `predecessors` is as [`crate::read_file`] leaves it, with
/// [`crate::NONE`] in every slot after a refusal, 23 too. [`crate::places`]
/// says how many slots, and how many places of `order`, a file needs. The
/// trace entries of version 30 have no next index: there is nothing to walk,
/// and both may be empty.
///
/// ```
/// use hivesaddle::{walk, Walk, NONE};
/// // Version 17: three trace entries at 148, the chains 1 and 2 -> 0.
/// let mut file = [0; 184];
/// file[0] = 17;
/// file[4..8].copy_from_slice(b"SCCA");
/// file[12] = 184;
/// (file[92], file[96]) = (148, 3);
/// for (entry, (next, blocks)) in [(NONE, 8), (NONE, 16), (0, 200)].into_iter().enumerate() {
///     file[148 + 12 * entry..][..4].copy_from_slice(&next.to_le_bytes());
///     file[148 + 12 * entry + 4] = blocks;
/// }
/// let (mut predecessors, mut order) = ([0; 3], [77; 4]);
/// assert_eq!(walk(&file, &mut predecessors, &mut order), Ok(Walk { steps: 3, total: 224 }));
/// assert_eq!(order, [1, 2, 0, 77]);
/// assert_eq!(predecessors, [2, NONE, NONE]);
///
/// // One place too few, and nothing is written there.
/// let refusal = walk(&file, &mut predecessors, &mut order[2..]).unwrap_err();
/// assert_eq!((refusal.number, refusal.index, refusal.offset), (23, 0, 0));
/// assert_eq!((order, predecessors), ([1, 2, 0, 77], [NONE; 3]));
/// ```
pub fn walk(file: &[u8], predecessors: &mut [u32], order: &mut [u32]) -> Result<Walk, Refusal> {
    let mut out = [0; HS_WALK_OUT];
    // SAFETY: each list is a slice with its length, and those written are borrowed as mut.
    let answer = unsafe {
        hs_walk(
            file.as_ptr(),
            file.len(),
            predecessors.as_mut_ptr(),
            predecessors.len(),
            order.as_mut_ptr(),
            order.len(),
            out.as_mut_ptr(),
            out.len(),
        )
    };
    match answer {
        // There are at most 5,592,393 trace entries with a next index.
        HS_ACCEPTED => Ok(Walk { steps: out[HS_WALK_STEPS] as u32, total: out[HS_WALK_TOTAL] }),
        HS_REFUSED => Err(Refusal {
            number: out[HS_WALK_NUMBER] as u32,
            index: out[HS_WALK_INDEX],
            offset: out[HS_WALK_OFFSET],
        }),
        other => unreachable!("no such answer: {other}"),
    }
}

/// The chains of a complete file, as [`walk`] goes along them: each the trace
/// entries from its head to its end, in the order of the heads. A refusal is
/// that of [`walk`], with 7 or 23 where a list is too short; [`crate::places`]
/// says how many numbers each needs. The file is walked here, once, and then
/// nothing is looked at but the two lists.
///
/// ```
/// use hivesaddle::{chains, places, TestFile};
/// let file = TestFile::new(23).chain(&[8, 16]).chain(&[4]).chain(&[1, 2, 3]).lay_out();
/// let count = places(&file).unwrap();
/// let (mut predecessors, mut order) = (vec![0; count], vec![0; count]);
/// let chains = chains(&file, &mut predecessors, &mut order).unwrap();
/// assert!(chains.eq([&[0, 1][..], &[2], &[3, 4, 5]]));
/// ```
pub fn chains<'a>(
    file: &[u8],
    predecessors: &'a mut [u32],
    order: &'a mut [u32],
) -> Result<Chains<'a>, Refusal> {
    let Walk { steps, .. } = walk(file, predecessors, order)?;
    Ok(Chains { predecessors, order: &order[..steps as usize] })
}

/// The chains of a file, see [`chains`].
#[derive(Clone, Debug)]
pub struct Chains<'a> {
    predecessors: &'a [u32],
    /// The entries that are left, the first of them a head.
    order: &'a [u32],
}

impl<'a> Iterator for Chains<'a> {
    type Item = &'a [u32];

    fn next(&mut self) -> Option<&'a [u32]> {
        let (_, rest) = self.order.split_first()?;
        let is_head = |&entry: &u32| self.predecessors[entry as usize] == NONE;
        let length = 1 + rest.iter().position(is_head).unwrap_or(rest.len());
        let (chain, left) = self.order.split_at(length);
        self.order = left;
        Some(chain)
    }

    fn size_hint(&self) -> (usize, Option<usize>) {
        (self.order.len().min(1), Some(self.order.len()))
    }
}

impl core::iter::FusedIterator for Chains<'_> {}
