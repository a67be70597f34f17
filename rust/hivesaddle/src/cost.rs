//! What it takes to look at a file.

use crate::queries::yes;
use crate::raw;

/// Bytes that a file has its reader look at.
#[derive(Clone, Copy, Debug, PartialEq, Eq)]
pub struct Cost {
    /// Of all names with their zero units. Where no two names of an accepted
    /// file share a byte, at most the size of its strings.
    pub names: u64,
    /// Of the directories of all volumes, or less where they are long: 4 for
    /// each, and for no volume more than the volumes size. Where no two
    /// directories of an accepted file share a byte, at most that size.
    pub directories: u64,
}

/// What a file costs to look at. Many entries may name the same text and many
/// volumes may list the same directories, and each is looked at anew: a file of
/// 4 MB made on purpose keeps the reader busy for seconds or a minute, one of
/// 64 MiB for hours. This takes one pass over the entries, so it is quick
/// whatever the answer.
///
/// On a prefix the entries that have come whole count. None where checks 1 to 6
/// do not pass on these bytes.
///
/// ```
/// use hivesaddle::{cost, Cost};
/// // Version 17: three metrics entries at 148 that all name "A", at 208.
/// let mut file = [0; 212];
/// file[0] = 17;
/// file[4..8].copy_from_slice(b"SCCA");
/// file[12] = 212;
/// (file[84], file[88]) = (148, 3);
/// (file[100], file[104]) = (208, 4);
/// (file[148 + 12], file[168 + 12], file[188 + 12]) = (1, 1, 1);
/// file[208] = b'A';
/// // More than the 4 bytes that the strings have.
/// assert_eq!(cost(&file), Some(Cost { names: 12, directories: 0 }));
/// assert_eq!(cost(&file[..187]), Some(Cost { names: 4, directories: 0 }));
/// assert_eq!(cost(&file[..147]), None);
/// ```
pub fn cost(file: &[u8]) -> Option<Cost> {
    let mut out = [0; 2];
    // SAFETY: each list is a slice with its length, and those written are borrowed as mut.
    let answer = unsafe { raw::hs_cost(file.as_ptr(), file.len(), out.as_mut_ptr(), out.len()) };
    yes(answer).then(|| Cost { names: out[0], directories: out[1] })
}
