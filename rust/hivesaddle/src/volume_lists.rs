//! All directories and all file references of a volume.

use crate::queries::{part, Reference};
use crate::{raw, Text};
use core::fmt;
use core::slice::ChunksExact;

#[cfg(feature = "alloc")]
use alloc::{vec, vec::Vec};

/// The directories of a volume in their order, each as the very bytes of the
/// file, without its last zero unit; zero units inside are allowed. None where
/// [`crate::volume`] gives none.
///
/// The volume is checked twice, first to count. [`directories_into`] is the same
/// with a borrowed list. There are at most 16,777,179 directories, 4 bytes each
/// inside the declared size.
///
/// ```
/// // Version 17: one volume at 148, with the directories "C" and "".
/// let mut file = [0; 198];
/// file[0] = 17;
/// file[4..8].copy_from_slice(b"SCCA");
/// file[12] = 198;
/// (file[108], file[112], file[116]) = (148, 1, 50);
/// (file[148 + 28], file[148 + 32]) = (40, 2);
/// (file[188], file[190]) = (1, b'C');
/// assert_eq!(hivesaddle::directories(&file, 0), [&b"C\0"[..], b""]);
/// assert!(hivesaddle::directories(&file, 1).is_empty());
/// ```
#[cfg(feature = "alloc")]
pub fn directories(file: &[u8], volume: u64) -> Vec<&[u8]> {
    let mut pairs = vec![0; 2 * directories_into(file, volume, &mut []) as usize];
    directories_into(file, volume, &mut pairs);
    pairs.chunks_exact(2).map(|pair| directory(file, pair).bytes()).collect()
}

/// The directories of a volume as [`directories`] has them, one after another
/// and without a heap, on a list that is lent: two numbers for each of
/// [`crate::Volume::directories`]. A shorter one is told how many it needs.
///
/// The volume is checked and listed here, once.
///
/// ```
/// use hivesaddle::{directories_iter, TestFile, TestVolume};
/// let directories = vec![r"\A".into(), r"\A\B".into()];
/// let file =
///     TestFile::new(23).volume(TestVolume { directories, ..TestVolume::default() }).lay_out();
/// let mut list = [0; 4];
/// let given = directories_iter(&file, 0, &mut list).unwrap();
/// assert!(given.map(|directory| directory.to_string()).eq([r"\A", r"\A\B"]));
/// let refused = directories_iter(&file, 0, &mut list[..3]).err().unwrap();
/// assert_eq!(refused.to_string(), "the list has to have 4 numbers");
/// ```
pub fn directories_iter<'file, 'list>(
    file: &'file [u8],
    volume: u64,
    list: &'list mut [u32],
) -> Result<
    impl DoubleEndedIterator<Item = Text<'file>> + ExactSizeIterator + use<'file, 'list>,
    TooShort,
> {
    let count = directories_into(file, volume, list);
    Ok(filled(list, count)?.map(move |pair| directory(file, pair)))
}

/// By the file offset of its first unit and the number of its units.
fn directory<'a>(file: &'a [u8], pair: &[u32]) -> Text<'a> {
    Text::new(part(file, pair[0].into(), 2 * u64::from(pair[1])))
}

/// The pairs of a list that was to take so many.
fn filled<T>(list: &[T], count: u64) -> Result<ChunksExact<'_, T>, TooShort> {
    // At most 16,777,179.
    let needed = 2 * count as usize;
    list.get(..needed).map(|pairs| pairs.chunks_exact(2)).ok_or(TooShort { needed })
}

/// A list that was lent and is too short, see [`directories_iter`] and
/// [`references_iter`].
#[derive(Clone, Copy, Debug, PartialEq, Eq)]
pub struct TooShort {
    /// The fewest numbers that it has to have.
    pub needed: usize,
}

impl fmt::Display for TooShort {
    fn fmt(&self, f: &mut fmt::Formatter) -> fmt::Result {
        write!(f, "the list has to have {} numbers", self.needed)
    }
}

impl core::error::Error for TooShort {}

/// As [`directories`], without a heap. Gives how many there are. `pairs` takes
/// of each the file offset of its first unit and the number of its units, as
/// many whole pairs as fit; all else of it stays as it was. The volume is
/// checked once and then listed in one pass.
///
/// ```
/// // Version 17: one volume at 148, with the directories "C" and "".
/// let mut file = [0; 198];
/// file[0] = 17;
/// file[4..8].copy_from_slice(b"SCCA");
/// file[12] = 198;
/// (file[108], file[112], file[116]) = (148, 1, 50);
/// (file[148 + 28], file[148 + 32]) = (40, 2);
/// (file[188], file[190]) = (1, b'C');
/// let mut pairs = [7; 5];
/// assert_eq!(hivesaddle::directories_into(&file, 0, &mut pairs), 2);
/// assert_eq!(pairs, [190, 1, 196, 0, 7]);
/// // Half a pair is not written.
/// let mut pairs = [7; 3];
/// assert_eq!(hivesaddle::directories_into(&file, 0, &mut pairs), 2);
/// assert_eq!(pairs, [190, 1, 7]);
/// ```
pub fn directories_into(file: &[u8], volume: u64, pairs: &mut [u32]) -> u64 {
    let (list, length) = (pairs.as_mut_ptr(), pairs.len());
    // SAFETY: each list is a slice with its length, and those written are borrowed as mut.
    unsafe { raw::hs_directories(file.as_ptr(), file.len(), volume, list, length) }
}

/// The file references of a volume in their order. None where
/// [`crate::volume`] gives none. [`crate::reference()`] gives one of them, and
/// checks the volume each time.
///
/// The volume is checked twice, first to count. [`references_into`] is the same
/// with a borrowed list. There are at most 8,388,588 references, 8 bytes each
/// inside the declared size.
///
/// ```
/// // Version 17: one volume at 148 with two file references.
/// let mut file = [0; 212];
/// file[0] = 17;
/// file[4..8].copy_from_slice(b"SCCA");
/// file[12] = 212;
/// (file[108], file[112], file[116]) = (148, 1, 64);
/// (file[148 + 20], file[148 + 24]) = (40, 24);
/// file[192] = 2;
/// file[196..204].copy_from_slice(&[1, 2, 0, 0, 0, 0, 3, 0]);
/// let references = hivesaddle::references(&file, 0);
/// let numbers = references.iter().map(|r| (r.entry_index, r.sequence_number));
/// assert!(numbers.eq([(0x0201, 3), (0, 0)]));
/// assert!(hivesaddle::references(&file, 1).is_empty());
/// ```
#[cfg(feature = "alloc")]
pub fn references(file: &[u8], volume: u64) -> Vec<Reference> {
    let mut pairs = vec![0; 2 * references_into(file, volume, &mut []) as usize];
    references_into(file, volume, &mut pairs);
    pairs.chunks_exact(2).map(listed_reference).collect()
}

/// The file references of a volume as [`references`] has them, one after another
/// and without a heap, on a list that is lent: two numbers for each of
/// [`crate::Volume::references`]. A shorter one is told how many it needs.
///
/// The volume is checked and listed here, once.
///
/// ```
/// use hivesaddle::{references_iter, Reference, TestFile, TestVolume};
/// let reference = Reference { entry_index: 40, sequence_number: 1 };
/// let file = TestFile::new(23)
///     .volume(TestVolume { references: vec![reference], ..TestVolume::default() })
///     .lay_out();
/// let mut list = [0; 2];
/// assert!(references_iter(&file, 0, &mut list).unwrap().eq([reference]));
/// assert_eq!(references_iter(&file, 0, &mut []).err().map(|short| short.needed), Some(2));
/// ```
pub fn references_iter<'list>(
    file: &[u8],
    volume: u64,
    list: &'list mut [u64],
) -> Result<impl DoubleEndedIterator<Item = Reference> + ExactSizeIterator + use<'list>, TooShort> {
    let count = references_into(file, volume, list);
    Ok(filled(list, count)?.map(listed_reference))
}

fn listed_reference(pair: &[u64]) -> Reference {
    Reference { entry_index: pair[0], sequence_number: pair[1] as u16 }
}

/// As [`references`], without a heap. Gives how many there are. `pairs` takes
/// entry index and sequence number of each, as many whole pairs as fit; all else
/// of it stays as it was. The volume is checked once and then listed in one
/// pass.
///
/// ```
/// // Version 17: one volume at 148 with two file references.
/// let mut file = [0; 212];
/// file[0] = 17;
/// file[4..8].copy_from_slice(b"SCCA");
/// file[12] = 212;
/// (file[108], file[112], file[116]) = (148, 1, 64);
/// (file[148 + 20], file[148 + 24]) = (40, 24);
/// file[192] = 2;
/// file[196..204].copy_from_slice(&[1, 2, 0, 0, 0, 0, 3, 0]);
/// let mut pairs = [7; 3];
/// assert_eq!(hivesaddle::references_into(&file, 0, &mut pairs), 2);
/// assert_eq!(pairs, [0x0201, 3, 7]);
/// ```
pub fn references_into(file: &[u8], volume: u64, pairs: &mut [u64]) -> u64 {
    let (list, length) = (pairs.as_mut_ptr(), pairs.len());
    // SAFETY: each list is a slice with its length, and those written are borrowed as mut.
    unsafe { raw::hs_references(file.as_ptr(), file.len(), volume, list, length) }
}
