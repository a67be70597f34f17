//! Refusals, and what they mean in words.

use core::fmt;

/// A numbered refusal, what it is about, and where in the file to look.
/// [`Refusal::words`] says what to do about each number.
///
/// Shown with `{}` it is one line, and it is an error, so that `?` hands it on.
///
/// ```
/// use hivesaddle::{read_file_alloc, TestFile};
/// // Two trace entries that lead to each other.
/// let ring = TestFile::new(17).trace(1, 8).trace(0, 8).lay_out();
/// let refusal = read_file_alloc(&ring).unwrap_err();
/// let line = "refused 13 0 at 0x98: the links from trace entry 0 lead back to it";
/// assert_eq!(refusal.to_string(), line);
///
/// fn runs(file: &[u8]) -> Result<u32, Box<dyn std::error::Error>> {
///     Ok(read_file_alloc(file)?.record.run_count)
/// }
/// assert_eq!(runs(&ring).unwrap_err().to_string(), line);
/// ```
#[derive(Clone, Copy, Debug, PartialEq, Eq)]
pub struct Refusal {
    /// The number of the check that was not passed.
    pub number: u32,
    /// The section, entry or volume at fault; 0 where there is none to name.
    pub index: u64,
    /// Where the field at fault stands in the file; 0 for 18, 19, 20, 23 and
    /// 25, which are about no field of a file.
    pub offset: u64,
}

impl Refusal {
    /// A refusal that is about no field of a file.
    pub(crate) fn bare(number: u32) -> Refusal {
        Refusal { number, index: 0, offset: 0 }
    }

    /// The line that the command `hivesaddle` prints for this refusal of these
    /// bytes. It is as `{}` shows the refusal, but for a compressed file, which
    /// has nothing at a place and is told what to do. Nothing is allocated.
    ///
    /// ```
    /// let packed = b"MAM\x04\0\0\0\0";
    /// let refusal = hivesaddle::read_file(packed, &mut []).unwrap_err();
    /// let line = "refused 1: compressed (MAM); unpack it first, with another tool";
    /// assert_eq!(refusal.line(packed).to_string(), line);
    /// ```
    pub fn line(&self, file: &[u8]) -> impl fmt::Display {
        Line { refusal: *self, meaning: self.meaning(file) }
    }

    /// All that there is to say about this refusal of these bytes. Of them only
    /// the first eight are looked at, to tell a compressed file and one that is
    /// no Prefetch file.
    ///
    /// ```
    /// // The declared size is below that of a head.
    /// let file = b"\x11\0\0\0SCCA\0\0\0\0\x09\0\0\0";
    /// let words = hivesaddle::read_file(file, &mut []).unwrap_err().words(file);
    /// assert_eq!(words.says.to_string(), "the declared size is impossible");
    /// assert_eq!((words.field, words.length), ("the declared size", 4));
    /// assert_eq!(words.advice, "the file is damaged: fetch it again");
    /// ```
    pub fn words(&self, file: &[u8]) -> RefusalWords {
        let meaning = self.meaning(file);
        let &Meaning { field, length, advice, .. } = meaning;
        RefusalWords { says: RefusalText { index: self.index, meaning }, field, length, advice }
    }

    fn meaning(&self, file: &[u8]) -> &'static Meaning {
        match self.number {
            1 if file.starts_with(b"MAM") => &COMPRESSED,
            1 if file.get(4..8) != Some(b"SCCA") => &NO_PREFETCH,
            _ => self.own_meaning(),
        }
    }

    /// The one that the number alone tells.
    fn own_meaning(&self) -> &'static Meaning {
        MEANINGS.iter().find(|meaning| meaning.number == self.number).unwrap_or(&UNKNOWN)
    }
}

impl fmt::Display for Refusal {
    fn fmt(&self, f: &mut fmt::Formatter) -> fmt::Result {
        Line { refusal: *self, meaning: self.own_meaning() }.fmt(f)
    }
}

impl core::error::Error for Refusal {}

/// What there is to say about a refusal, see [`Refusal::words`].
#[derive(Clone, Copy, Debug)]
#[non_exhaustive]
pub struct RefusalWords {
    /// What is wrong, and with which section, entry or volume.
    pub says: RefusalText,
    /// What stands at the offset.
    pub field: &'static str,
    /// The bytes of that field; sixteen stand for a longer one, and 0 where the
    /// refusal is about no field.
    pub length: usize,
    /// What to do. The `names` and `volumes` named there are commands, and
    /// functions of this crate.
    pub advice: &'static str,
}

/// What is wrong, to be shown with `{}`; see [`RefusalWords::says`].
#[derive(Clone, Copy, Debug)]
pub struct RefusalText {
    index: u64,
    meaning: &'static Meaning,
}

impl fmt::Display for RefusalText {
    fn fmt(&self, f: &mut fmt::Formatter) -> fmt::Result {
        let section = match self.meaning.number {
            5 | 6 => usize::try_from(self.index).ok().and_then(|index| SECTIONS.get(index)),
            _ => None,
        };
        for (i, part) in self.meaning.says.split("{}").enumerate() {
            match section {
                Some(name) if i > 0 => write!(f, "{}, {name},", self.index)?,
                None if i > 0 => write!(f, "{}", self.index)?,
                _ => {}
            }
            f.write_str(part)?;
        }
        Ok(())
    }
}

struct Line {
    refusal: Refusal,
    meaning: &'static Meaning,
}

impl fmt::Display for Line {
    fn fmt(&self, f: &mut fmt::Formatter) -> fmt::Result {
        let Refusal { number, index, offset } = self.refusal;
        let Meaning { length, advice, .. } = self.meaning;
        let says = RefusalText { index, meaning: self.meaning };
        if core::ptr::eq(self.meaning, &COMPRESSED) {
            write!(f, "refused {number}: {says}; {advice}")
        } else if *length == 0 {
            write!(f, "refused {number}: {says}")
        } else {
            write!(f, "refused {number} {index} at {offset:#X}: {says}")
        }
    }
}

/// By their numbers, which begin at 1.
const SECTIONS: [&str; 5] = ["", "the metrics", "the trace", "the strings", "the volumes"];

#[derive(Debug)]
struct Meaning {
    number: u32,
    /// With {} for the index, and for the name of the section where it counts
    /// those.
    says: &'static str,
    field: &'static str,
    length: usize,
    advice: &'static str,
}

const fn meaning(
    number: u32,
    says: &'static str,
    (field, length): (&'static str, usize),
    advice: &'static str,
) -> Meaning {
    Meaning { number, says, field, length, advice }
}

const SIZE: (&str, usize) = ("the declared size", 4);
const SECTION: (&str, usize) = ("where that section starts", 4);
const NAME: (&str, usize) = ("where the name of that entry starts in the strings", 4);
const ENTRY: (&str, usize) = ("that trace entry", 12);
const VOLUME: (&str, usize) = ("the entry of that volume", 16);
const NOWHERE: (&str, usize) = ("no field of a file", 0);

const VERSION: &str = "the version is not 17, 23, 26 or 30";
const NO_FILE: &str = "this is no Prefetch file";
const FETCH: &str = "the file is damaged: fetch it again";
const NAMES: &str = "the file is damaged: fetch it again; `names` still shows the sound names";
const LINKS: &str = "the file is damaged: fetch it again; `names` and `volumes` still show theirs";
const VOLUMES: &str =
    "the file is damaged: fetch it again; `volumes` still shows the sound volumes";
const CATALOGUE_LINE: &str = "a line is 26 digits 0-9 A-F and a line feed, or 24 in an old one, \
                              with a known version and a size that it can have";

/// Every number; include/hivesaddle.h has the rules.
static MEANINGS: [Meaning; 26] = [
    meaning(1, VERSION, ("the version", 4), "take another tool"),
    meaning(2, "no SCCA after the version", ("the signature", 4), NO_FILE),
    meaning(3, "the declared size is impossible", SIZE, FETCH),
    meaning(4, "the program name has no end", ("the program name", 16), FETCH),
    meaning(
        5,
        "section {} starts inside the head or ends behind the declared size",
        SECTION,
        FETCH,
    ),
    meaning(6, "section {} lies on another", SECTION, FETCH),
    meaning(
        7,
        "too few slots for the trace entries",
        ("the trace count", 4),
        "the file may be sound: call again with as many as `places` says",
    ),
    meaning(8, "more volumes than their section has room for", ("the volume count", 4), FETCH),
    meaning(9, "the name of metrics entry {} runs past the strings", NAME, NAMES),
    meaning(
        10,
        "the name of metrics entry {} has a zero inside it, or none behind it",
        NAME,
        NAMES,
    ),
    meaning(
        11,
        "trace entry {} leads to an entry that is not there",
        ("the next index in that entry", 4),
        LINKS,
    ),
    meaning(12, "two trace entries or more lead to trace entry {}", ENTRY, LINKS),
    meaning(13, "the links from trace entry {} lead back to it", ENTRY, LINKS),
    meaning(
        14,
        "something of volume {} runs past the volumes, or its references do not fit their size",
        VOLUME,
        VOLUMES,
    ),
    meaning(15, "a directory of volume {} does not end in a zero", VOLUME, VOLUMES),
    meaning(16, "the file ends too early", SIZE, "fetch the rest of it"),
    meaning(
        17,
        "the file goes on behind its declared size",
        SIZE,
        "see whether two files ran together",
    ),
    meaning(18, "not a catalogue line", NOWHERE, CATALOGUE_LINE),
    meaning(
        19,
        "fields that form no catalogue line, or an output below 27 bytes",
        NOWHERE,
        CATALOGUE_LINE,
    ),
    meaning(
        20,
        "the output is shorter than the file",
        NOWHERE,
        "call again with as many bytes as `Description::size` says",
    ),
    meaning(
        21,
        "a version 30 file whose metrics do not start at 304: this head form is not known",
        ("where the metrics start", 4),
        "the file may be sound: take another tool",
    ),
    meaning(22, "a line is no reading", NOWHERE, "a reading is 22 digits 0-9 A-F and a line feed"),
    meaning(
        23,
        "fewer places for the order than trace entries",
        NOWHERE,
        "the file is sound: call again with as many as `places` says",
    ),
    meaning(24, "a 1,025th stored hash", NOWHERE, "make a table of fewer programs"),
    meaning(
        25,
        "more numbers to swap than the list has",
        NOWHERE,
        "see what is counted: numbers, or bytes, two for each unit",
    ),
    meaning(
        26,
        "more than 1,048,576 lines, or more than 1,048,576 starts",
        NOWHERE,
        "take fewer; bytes behind the last line feed count as a line",
    ),
];

/// Refusal 1 of a file without the signature, as a text.
static NO_PREFETCH: Meaning = meaning(1, VERSION, ("the version", 4), NO_FILE);

/// Refusal 1 of a file that may be sound inside.
static COMPRESSED: Meaning =
    meaning(1, "compressed (MAM)", ("the letters", 3), "unpack it first, with another tool");

static UNKNOWN: Meaning =
    meaning(0, "no meaning is known", ("the field", 4), "ask who made this tool");

#[cfg(all(test, feature = "alloc"))]
mod tests {
    use super::*;
    use alloc::string::{String, ToString};

    fn said(number: u32, index: u64) -> String {
        Refusal { number, index, offset: 420 }.line(b"\x17\0\0\0SCCA").to_string()
    }

    #[test]
    fn words_name_what_the_index_counts() {
        assert_eq!(said(6, 3), "refused 6 3 at 0x1A4: section 3, the strings, lies on another");
        assert_eq!(
            said(5, 1),
            "refused 5 1 at 0x1A4: section 1, the metrics, starts inside the head or ends behind \
             the declared size"
        );
        assert_eq!(said(6, 9), "refused 6 9 at 0x1A4: section 9 lies on another");
        assert_eq!(
            said(13, 7),
            "refused 13 7 at 0x1A4: the links from trace entry 7 lead back to it"
        );
    }

    #[test]
    fn words_for_what_is_no_plain_prefetch_file() {
        let refusal = Refusal { number: 1, index: 0, offset: 0 };
        let packed = "refused 1: compressed (MAM); unpack it first, with another tool";
        assert_eq!(refusal.line(b"MAM\x04").to_string(), packed);
        assert_eq!(refusal.words(b"version 23\n").advice, "this is no Prefetch file");
        assert_eq!(refusal.words(b"\x18\0\0\0SCCA").advice, "take another tool");
        // Without the file there is no telling.
        let plain = "refused 1 0 at 0x0: the version is not 17, 23, 26 or 30";
        assert_eq!(refusal.to_string(), plain);
        assert_eq!(refusal.line(b"version 23\n").to_string(), plain);
    }

    #[test]
    fn every_number_has_words() {
        for number in 1..=26 {
            assert!(!said(number, 1).contains("no meaning"), "{number}");
            let refusal = Refusal { number, index: 1, offset: 420 };
            assert_eq!(refusal.to_string(), said(number, 1));
            let of_file = matches!(number, 1..=17 | 21);
            assert_eq!(said(number, 1).contains(" 1 at 0x1A4: "), of_file, "{number}");
        }
        assert_eq!(said(20, 0), "refused 20: the output is shorter than the file");
        assert_eq!(said(27, 9), "refused 27 9 at 0x1A4: no meaning is known");
    }
}
