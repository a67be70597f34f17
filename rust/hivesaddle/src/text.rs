//! Names and paths as text.

use core::char::{DecodeUtf16, REPLACEMENT_CHARACTER};
use core::fmt::{self, Write};

#[cfg(feature = "alloc")]
use alloc::string::String;

/// A name or a path as it stands in a file: UTF-16 units, low byte first, and
/// any of them. Half a unit at the end is none.
///
/// Shown with `{}`, a unit that is no text stands as U+FFFD. Controls are shown as
/// they are: mind a terminal. Nothing is allocated, and nothing is looked at
/// before it is asked for.
///
/// ```
/// use hivesaddle::{program_name, Text, TestFile};
/// let file = TestFile::new(23).name("CHAMBER.EXE").lay_out();
/// let name = Text::new(program_name(&file).unwrap());
/// assert_eq!(format!("{name}"), "CHAMBER.EXE");
/// assert_eq!(name, "CHAMBER.EXE");
/// assert_eq!(name.units().count(), 11);
/// ```
#[derive(Clone, Copy, Debug, PartialEq, Eq, Hash, Default)]
pub struct Text<'a>(&'a [u8]);

impl<'a> Text<'a> {
    /// The text in these bytes, as this crate hands out names and paths.
    pub const fn new(bytes: &'a [u8]) -> Text<'a> {
        Text(bytes)
    }

    /// The bytes as they stand, which is what the path hashes take.
    pub const fn bytes(self) -> &'a [u8] {
        self.0
    }

    /// The units as they stand.
    ///
    /// ```
    /// assert!(hivesaddle::Text::new(b"A\0\x00\xD8").units().eq([0x0041, 0xD800]));
    /// ```
    pub fn units(self) -> Units<'a> {
        Units(self.0.chunks_exact(2))
    }

    /// The characters, and in its place each unit that is none: a lone
    /// surrogate.
    ///
    /// ```
    /// use hivesaddle::Text;
    /// let given: Vec<_> = Text::new(b"A\0\x00\xD8").decode_utf16().collect();
    /// assert_eq!(given[0], Ok('A'));
    /// assert_eq!(given[1].clone().unwrap_err().unpaired_surrogate(), 0xD800);
    /// ```
    pub fn decode_utf16(self) -> DecodeUtf16<Units<'a>> {
        char::decode_utf16(self.units())
    }

    /// The text with U+FFFD for each unit that is none.
    ///
    /// ```
    /// use hivesaddle::Text;
    /// assert_eq!(Text::new(b"A\0\x00\xD8B\0").to_string_lossy(), "A\u{FFFD}B");
    /// ```
    #[cfg(feature = "alloc")]
    pub fn to_string_lossy(self) -> String {
        self.decode_utf16().map(|decoded| decoded.unwrap_or(REPLACEMENT_CHARACTER)).collect()
    }

    /// The text, if every unit is one.
    ///
    /// ```
    /// use hivesaddle::Text;
    /// assert_eq!(Text::new(b"A\0").try_to_string().unwrap(), "A");
    /// let error = Text::new(b"A\0\x00\xD8").try_to_string().unwrap_err();
    /// assert_eq!((error.place, error.unit), (1, 0xD800));
    /// assert_eq!(error.to_string(), "unit 1, 0xD800, is a lone surrogate");
    /// ```
    #[cfg(feature = "alloc")]
    pub fn try_to_string(self) -> Result<String, LoneSurrogate> {
        let mut text = String::with_capacity(self.0.len() / 2);
        let mut place = 0;
        for decoded in self.decode_utf16() {
            let character = decoded
                .map_err(|error| LoneSurrogate { place, unit: error.unpaired_surrogate() })?;
            place += character.len_utf16();
            text.push(character);
        }
        Ok(text)
    }
}

impl fmt::Display for Text<'_> {
    fn fmt(&self, f: &mut fmt::Formatter) -> fmt::Result {
        self.decode_utf16()
            .try_for_each(|decoded| f.write_char(decoded.unwrap_or(REPLACEMENT_CHARACTER)))
    }
}

/// Equal where they have the same units, so that a text with a lone surrogate
/// equals no `str`.
impl PartialEq<str> for Text<'_> {
    fn eq(&self, other: &str) -> bool {
        self.units().eq(other.encode_utf16())
    }
}

/// As with a `str`.
impl PartialEq<&str> for Text<'_> {
    fn eq(&self, other: &&str) -> bool {
        *self == **other
    }
}

/// The units of a [`Text`], see [`Text::units`].
#[derive(Clone, Debug)]
pub struct Units<'a>(core::slice::ChunksExact<'a, u8>);

impl Iterator for Units<'_> {
    type Item = u16;

    fn next(&mut self) -> Option<u16> {
        self.0.next().map(|unit| u16::from_le_bytes([unit[0], unit[1]]))
    }

    fn size_hint(&self) -> (usize, Option<usize>) {
        self.0.size_hint()
    }
}

impl ExactSizeIterator for Units<'_> {}
impl core::iter::FusedIterator for Units<'_> {}

/// A unit that is no text, see [`Text::try_to_string`].
#[derive(Clone, Copy, Debug, PartialEq, Eq)]
pub struct LoneSurrogate {
    /// Which of the units it is, from 0.
    pub place: usize,
    /// As it stands.
    pub unit: u16,
}

impl fmt::Display for LoneSurrogate {
    fn fmt(&self, f: &mut fmt::Formatter) -> fmt::Result {
        write!(f, "unit {}, {:#06X}, is a lone surrogate", self.place, self.unit)
    }
}

impl core::error::Error for LoneSurrogate {}
