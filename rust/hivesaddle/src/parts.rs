//! All names and all volumes of a file, one after another.

use crate::{entry_name, places, volume, Text, Volume};

/// The names of the files loaded that [`entry_name`] gives, each with the number
/// of its metrics entry. Of an accepted file that is every entry from 0; of a
/// damaged one, or of a prefix, those that are sound.
///
/// Each step is one call of [`entry_name`]. Nothing is allocated.
///
/// ```
/// use hivesaddle::{names, TestFile};
/// let file = TestFile::new(23).file(r"\A.EXE").file(r"\B.DLL").lay_out();
/// for (entry, name) in names(&file) {
///     println!("{entry} {name}");
/// }
/// assert!(names(&file).map(|(_, name)| name.to_string()).eq([r"\A.EXE", r"\B.DLL"]));
///
/// // The middle one of these names begins behind the strings.
/// let damaged = TestFile::new(23).file("A").metrics(99, 1).file("B").lay_out();
/// assert!(names(&damaged).map(|(entry, _)| entry).eq([0, 2]));
/// ```
pub fn names(file: &[u8]) -> impl DoubleEndedIterator<Item = (u64, Text<'_>)> + Clone {
    let entries = 0..count(file, 88, 20);
    entries.filter_map(|i| Some((i, Text::new(entry_name(file, i)?))))
}

/// The volumes that [`volume()`] gives, each with its number. Of an accepted file
/// that is every volume from 0; of a damaged one, or of a prefix, those that are
/// sound.
///
/// Each step is one call of [`volume()`], which looks at all directories of that
/// volume; see [`crate::cost()`]. Nothing is allocated.
///
/// ```
/// use hivesaddle::{volumes, TestFile, TestVolume, Text};
/// let path = r"\DEVICE\HARDDISKVOLUME1";
/// let file = TestFile::new(23)
///     .volume(TestVolume { path: path.into(), serial_number: 7, ..TestVolume::default() })
///     .lay_out();
/// let (number, volume) = volumes(&file).next().unwrap();
/// assert_eq!((number, volume.serial_number), (0, 7));
/// assert_eq!(Text::new(volume.path), path);
/// ```
pub fn volumes(file: &[u8]) -> impl DoubleEndedIterator<Item = (u64, Volume<'_>)> + Clone {
    let entries = 0..count(file, 112, 40);
    entries.filter_map(|i| Some((i, volume(file, i)?)))
}

/// A count of the head, of entries that take so many bytes at least: no more than
/// the bytes have room for. Where the head is not sound no entry can be shown.
fn count(file: &[u8], field: usize, least: usize) -> u64 {
    let room = (file.len() / least) as u64;
    let count = places(file).and_then(|_| file.get(field..)?.first_chunk());
    count.map_or(0, |count| room.min(u32::from_le_bytes(*count).into()))
}
