//! Queries about one entry, the path search, and the number of slots that
//! `predecessors` needs. All of them work on a prefix of a file too, and hand
//! back parts of the borrowed bytes.

use crate::raw;

#[cfg(feature = "alloc")]
use alloc::{vec, vec::Vec};

/// A volume that can be shown.
#[derive(Clone, Copy, Debug, PartialEq, Eq)]
pub struct Volume<'a> {
    /// Creation time, a FILETIME as it stands.
    pub creation_time: u64,
    /// As it stands; Windows shows its hexadecimal digits.
    pub serial_number: u32,
    /// How many file references it lists, see [`crate::references_iter`].
    pub references: u32,
    /// How many directories it lists, see [`crate::directories_iter`].
    pub directories: u32,
    /// The path's bytes, without a zero unit; [`crate::Text`] shows them.
    pub path: &'a [u8],
}

/// An NTFS file reference.
#[derive(Clone, Copy, Debug, PartialEq, Eq)]
pub struct Reference {
    /// The file's entry in the master file table, 48 bits.
    pub entry_index: u64,
    /// How often that entry was taken for another file.
    pub sequence_number: u16,
}

/// What a metrics entry says of its file beside the name.
#[derive(Clone, Copy, Debug, PartialEq, Eq)]
pub struct EntryReference {
    /// The reference as it stands, both numbers 0 where it is not set; none in
    /// version 17, whose entries have no such field.
    pub reference: Option<Reference>,
}

/// A metrics entry whose name has the stored hash, once the number is added.
#[derive(Clone, Copy, Debug, PartialEq, Eq)]
pub struct FoundPath {
    /// The metrics entry, as [`entry_name`] takes it.
    pub entry: u64,
    /// From 0 to 8: what the program's `/prefetch` switch added to the hash.
    pub number: u32,
}

/// How many slots of `predecessors` [`crate::read_prefix`] and
/// [`crate::read_file`] need for this file: its trace count, and 0 for version
/// 30. None where checks 1 to 6, 21 among them, do not pass on these bytes;
/// both then answer the same with any number of slots.
///
/// Only the head is looked at, so a prefix that has all of it is enough. The
/// number is at most 5,592,393: check 5 keeps the trace entries, 12 bytes each,
/// inside the declared size, and check 3 keeps that to 67,108,864.
///
/// ```
/// // Version 17: three trace entries at 148.
/// let mut file = [0; 184];
/// file[0] = 17;
/// file[4..8].copy_from_slice(b"SCCA");
/// file[12] = 184;
/// (file[92], file[96]) = (148, 3);
/// assert_eq!(hivesaddle::places(&file), Some(3));
/// assert_eq!(hivesaddle::places(&file[..148]), Some(3));
/// assert_eq!(hivesaddle::places(&file[..147]), None);
/// // A fourth would end behind the declared size.
/// file[96] = 4;
/// assert_eq!(hivesaddle::places(&file), None);
///
/// // Version 30 has no links to keep. Its metrics offset tells the head form.
/// let mut file = [0; 236];
/// file[0] = 30;
/// file[4..8].copy_from_slice(b"SCCA");
/// file[12] = 236;
/// (file[84], file[85]) = (48, 1);
/// (file[92], file[96]) = (212, 3);
/// assert_eq!(hivesaddle::places(&file), Some(0));
/// file[84] = 40;
/// assert_eq!(hivesaddle::places(&file), None);
/// ```
pub fn places(file: &[u8]) -> Option<usize> {
    let mut out = [0];
    // SAFETY: each list is a slice with its length, and those written are borrowed as mut.
    let answer = unsafe { raw::hs_places(file.as_ptr(), file.len(), out.as_mut_ptr(), out.len()) };
    yes(answer).then(|| out[0] as usize)
}

/// The bytes of the program name before its first zero unit; [`crate::Text`]
/// shows them. None where checks 1 to 4 do not pass on these bytes.
///
/// ```
/// let mut file = [0; 148];
/// file[0] = 17;
/// file[4..8].copy_from_slice(b"SCCA");
/// file[12] = 148;
/// file[16] = b'A';
/// assert_eq!(hivesaddle::program_name(&file), Some(&b"A\0"[..]));
/// assert_eq!(hivesaddle::program_name(&file[..75]), None);
/// ```
pub fn program_name(file: &[u8]) -> Option<&[u8]> {
    let mut out = [0; 2];
    // SAFETY: each list is a slice with its length, and those written are borrowed as mut.
    let answer =
        unsafe { raw::hs_program_name(file.as_ptr(), file.len(), out.as_mut_ptr(), out.len()) };
    yes(answer).then(|| part(file, out[0], out[1]))
}

/// The bytes of metrics entry i's name, without its zero unit; [`crate::Text`]
/// shows them, and [`crate::names`] goes through all of them. None where checks
/// 1 to 6 do not pass on these bytes, there is no such entry, or its name is not
/// sound. Only the head, this entry and this name are looked at.
///
/// ```
/// // Version 17: one metrics entry at 148, and the strings "A" at 168.
/// let mut file = [0; 172];
/// file[0] = 17;
/// file[4..8].copy_from_slice(b"SCCA");
/// file[12] = 172;
/// (file[84], file[88]) = (148, 1);
/// (file[100], file[104]) = (168, 4);
/// file[148 + 12] = 1;
/// file[168] = b'A';
/// assert_eq!(hivesaddle::entry_name(&file, 0), Some(&b"A\0"[..]));
/// assert_eq!(hivesaddle::entry_name(&file, 1), None);
/// assert_eq!(hivesaddle::entry_name(&file[..171], 0), None);
/// ```
pub fn entry_name(file: &[u8], i: u64) -> Option<&[u8]> {
    let mut out = [0; 2];
    // SAFETY: each list is a slice with its length, and those written are borrowed as mut.
    let answer =
        unsafe { raw::hs_entry_name(file.as_ptr(), file.len(), i, out.as_mut_ptr(), out.len()) };
    yes(answer).then(|| part(file, out[0], out[1]))
}

/// The NTFS file reference of metrics entry i. None where [`entry_name`] gives
/// none.
///
/// ```
/// use hivesaddle::{entry_reference, EntryReference, Reference};
/// // Version 23: one metrics entry at 156, and the strings "A" at 188.
/// let mut file = [0; 192];
/// file[0] = 23;
/// file[4..8].copy_from_slice(b"SCCA");
/// file[12] = 192;
/// (file[84], file[88]) = (156, 1);
/// (file[100], file[104]) = (188, 4);
/// file[156 + 16] = 1;
/// file[156 + 24..156 + 32].copy_from_slice(&[1, 2, 0, 0, 0, 0, 3, 0]);
/// file[188] = b'A';
/// let reference = Some(Reference { entry_index: 0x0201, sequence_number: 3 });
/// assert_eq!(entry_reference(&file, 0), Some(EntryReference { reference }));
/// assert_eq!(entry_reference(&file, 1), None);
/// assert_eq!(entry_reference(&file[..191], 0), None);
/// ```
pub fn entry_reference(file: &[u8], i: u64) -> Option<EntryReference> {
    let mut out = [0; 3];
    // SAFETY: each list is a slice with its length, and those written are borrowed as mut.
    let answer = unsafe {
        raw::hs_entry_reference(file.as_ptr(), file.len(), i, out.as_mut_ptr(), out.len())
    };
    let [has_field, entry_index, sequence_number] = out;
    let reference = || Reference { entry_index, sequence_number: sequence_number as u16 };
    yes(answer).then(|| EntryReference { reference: (has_field != 0).then(reference) })
}

/// Volume i. None where checks 1 to 6 do not pass on these bytes, there is no
/// such volume, or something of it is not sound. [`crate::volumes`] goes through
/// all of them. All directories of the volume are looked at each time.
///
/// ```
/// // Version 17: one volume at 148 with serial number 7 and the path "C".
/// let mut file = [0; 190];
/// file[0] = 17;
/// file[4..8].copy_from_slice(b"SCCA");
/// file[12] = 190;
/// (file[108], file[112], file[116]) = (148, 1, 42);
/// (file[148], file[152]) = (40, 1);
/// file[148 + 16] = 7;
/// file[188] = b'C';
/// let volume = hivesaddle::volume(&file, 0).unwrap();
/// assert_eq!((volume.serial_number, volume.path), (7, &b"C\0"[..]));
/// assert_eq!((volume.references, volume.directories), (0, 0));
/// assert_eq!(hivesaddle::volume(&file, 1), None);
/// ```
pub fn volume(file: &[u8], i: u64) -> Option<Volume<'_>> {
    let mut out = [0; 6];
    // SAFETY: each list is a slice with its length, and those written are borrowed as mut.
    let answer =
        unsafe { raw::hs_volume(file.as_ptr(), file.len(), i, out.as_mut_ptr(), out.len()) };
    yes(answer).then(|| Volume {
        creation_time: out[0],
        serial_number: out[1] as u32,
        references: out[2] as u32,
        directories: out[3] as u32,
        path: part(file, out[4], out[5]),
    })
}

/// File reference k of volume i. None where [`volume()`] gives none or there is no
/// such reference. The volume is checked each time: [`crate::references_iter`]
/// lists them all with one check.
///
/// ```
/// // Version 17: one volume at 148 with a single file reference.
/// let mut file = [0; 204];
/// file[0] = 17;
/// file[4..8].copy_from_slice(b"SCCA");
/// file[12] = 204;
/// (file[108], file[112], file[116]) = (148, 1, 56);
/// (file[148 + 20], file[148 + 24]) = (40, 16);
/// file[192] = 1;
/// file[196..204].copy_from_slice(&[1, 2, 0, 0, 0, 0, 3, 0]);
/// let reference = hivesaddle::reference(&file, 0, 0).unwrap();
/// assert_eq!((reference.entry_index, reference.sequence_number), (0x0201, 3));
/// assert_eq!(hivesaddle::reference(&file, 0, 1), None);
/// ```
pub fn reference(file: &[u8], i: u64, k: u64) -> Option<Reference> {
    let mut out = [0; 2];
    // SAFETY: each list is a slice with its length, and those written are borrowed as mut.
    let answer =
        unsafe { raw::hs_reference(file.as_ptr(), file.len(), i, k, out.as_mut_ptr(), out.len()) };
    yes(answer).then(|| Reference { entry_index: out[0], sequence_number: out[1] as u16 })
}

/// The least number from 0 to 8 with which a metrics entry matches, and the
/// first entry that matches with it. An entry matches where it can be shown
/// and the hash of its name's bytes plus the number, mod 2 to the 32, is the
/// stored hash. Version 17 uses XP; 23, 26 and 30 use Vista or 2008, which are
/// equal.
///
/// Every name is looked at, those that share their bytes too: [`crate::cost()`]
/// says how much that is.
///
/// ```
/// // Version 17, one name "A" after the head, and the XP hash of "A" plus 6.
/// let mut file = [0; 172];
/// file[0] = 17;
/// file[4..8].copy_from_slice(b"SCCA");
/// file[12] = 172;
/// file[76..80].copy_from_slice(&361202157u32.to_le_bytes());
/// (file[84], file[88]) = (148, 1);
/// (file[100], file[104]) = (168, 4);
/// file[148 + 12] = 1;
/// file[168] = b'A';
/// let found = hivesaddle::find_path(&file).unwrap();
/// assert_eq!((found.entry, found.number), (0, 6));
/// file[168] = b'B';
/// assert_eq!(hivesaddle::find_path(&file), None);
/// ```
pub fn find_path(file: &[u8]) -> Option<FoundPath> {
    let mut out = [0; 2];
    // SAFETY: each list is a slice with its length, and those written are borrowed as mut.
    let answer =
        unsafe { raw::hs_find_path(file.as_ptr(), file.len(), out.as_mut_ptr(), out.len()) };
    yes(answer).then(|| FoundPath { entry: out[0], number: out[1] as u32 })
}

/// The path search from another start. Windows 10 writes names that begin with
/// `\VOLUME{..}` and takes the hash over the same path with
/// `\DEVICE\HARDDISKVOLUME2`, or another number, in place of that;
/// [`find_path`] finds none there.
///
/// `start` stands in place of the path of that volume: bytes as a name has
/// them, of any length. An entry takes part where it can be shown, the volume
/// can be shown with a path of at least one unit, and the name begins with that
/// path, followed by nothing or by a backslash. Of the entries that take part,
/// the answer is as of [`find_path`]: the least number from 0 to 8, and then the
/// first entry.
///
/// ```
/// use hivesaddle::{find_path, find_path_from, volume, TestFile, TestVolume};
/// let file = TestFile::new(23)
///     .hash_of(r"\DEVICE\HARDDISKVOLUME2\A.EXE")
///     .file(r"\VOLUME{01}\A.EXE")
///     .volume(TestVolume { path: r"\VOLUME{01}".into(), ..TestVolume::default() })
///     .write()
///     .unwrap();
/// let utf16 = |text: &str| text.encode_utf16().flat_map(u16::to_le_bytes).collect::<Vec<u8>>();
/// assert_eq!(find_path(&file), None);
/// let found = find_path_from(&file, 0, &utf16(r"\DEVICE\HARDDISKVOLUME2")).unwrap();
/// assert_eq!((found.entry, found.number), (0, 0));
/// assert_eq!(find_path_from(&file, 0, &utf16(r"\DEVICE\HARDDISKVOLUME3")), None);
/// // There is no second volume.
/// assert_eq!(find_path_from(&file, 1, &utf16(r"\DEVICE\HARDDISKVOLUME2")), None);
/// // With the volume's own path the names are taken as they stand.
/// let own = volume(&file, 0).unwrap().path;
/// assert_eq!(find_path_from(&file, 0, own), None);
/// ```
pub fn find_path_from(file: &[u8], volume: u64, start: &[u8]) -> Option<FoundPath> {
    let mut out = [0; 2];
    // SAFETY: each list is a slice with its length, and those written are borrowed as mut.
    let answer = unsafe {
        raw::hs_find_path_from(
            file.as_ptr(),
            file.len(),
            volume,
            start.as_ptr(),
            start.len(),
            out.as_mut_ptr(),
            out.len(),
        )
    };
    yes(answer).then(|| FoundPath { entry: out[0], number: out[1] as u32 })
}

/// All entries that match, as [`find_path`] says it, ordered by number and
/// then by entry. Gives how many there are. `pairs` takes entry and number of
/// each, as many whole pairs as fit; all else of it stays as it was.
/// [`list_paths_alloc`] allocates them.
///
/// ```
/// // Version 26: the units 0x0141 and 0x0041, and the hash of the first. That
/// // of the second is one less.
/// let mut file = [0; 284];
/// file[0] = 26;
/// file[4..8].copy_from_slice(b"SCCA");
/// (file[12], file[13]) = (28, 1);
/// file[76..80].copy_from_slice(&430086077u32.to_le_bytes());
/// (file[84], file[88]) = (212, 2);
/// (file[100], file[101], file[104]) = (20, 1, 8);
/// (file[212 + 16], file[244 + 12], file[244 + 16]) = (1, 4, 1);
/// (file[276], file[277], file[280]) = (b'A', 1, b'A');
/// let mut pairs = [7; 5];
/// assert_eq!(hivesaddle::list_paths(&file, &mut pairs), 2);
/// assert_eq!(pairs, [0, 0, 1, 1, 7]);
/// ```
pub fn list_paths(file: &[u8], pairs: &mut [u32]) -> u64 {
    // SAFETY: each list is a slice with its length, and those written are borrowed as mut.
    unsafe { raw::hs_list_paths(file.as_ptr(), file.len(), pairs.as_mut_ptr(), pairs.len()) }
}

/// [`list_paths`] with as many pairs as there are. The names are hashed twice,
/// first to count.
///
/// An entry matches with one number at most, and there are at most 3,355,435
/// entries, 20 bytes each inside the declared size, so no file takes more than
/// 80.6 MB.
///
/// ```
/// // Version 17, one empty name, which XP gives 0, and a stored hash of 8.
/// let mut file = [0; 170];
/// file[0] = 17;
/// file[4..8].copy_from_slice(b"SCCA");
/// (file[12], file[76]) = (170, 8);
/// (file[84], file[88]) = (148, 1);
/// (file[100], file[104]) = (168, 2);
/// let found = hivesaddle::list_paths_alloc(&file);
/// assert_eq!(found, [hivesaddle::FoundPath { entry: 0, number: 8 }]);
/// file[76] = 9;
/// assert_eq!(hivesaddle::list_paths_alloc(&file), []);
/// ```
#[cfg(feature = "alloc")]
pub fn list_paths_alloc(file: &[u8]) -> Vec<FoundPath> {
    let mut pairs = vec![0; 2 * list_paths(file, &mut []) as usize];
    list_paths(file, &mut pairs);
    let found = |pair: &[u32]| FoundPath { entry: pair[0].into(), number: pair[1] };
    pairs.chunks_exact(2).map(found).collect()
}

pub(crate) fn yes(answer: u32) -> bool {
    match answer {
        0 => false,
        1 => true,
        other => unreachable!("no such answer: {other}"),
    }
}

pub(crate) fn part(file: &[u8], offset: u64, length: u64) -> &[u8] {
    &file[offset as usize..][..length as usize]
}
