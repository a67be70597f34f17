//! Test files described in plain text.

use crate::{read_file_alloc, Reference, Refusal, TestFile, TestVolume, NONE};
use alloc::string::{String, ToString};
use alloc::{format, vec::Vec};
use core::fmt;

/// What a text describes, see [`TestFile::from_description`].
#[derive(Clone, Debug)]
pub struct DescribedFile {
    /// The file, before bytes of it are changed.
    pub file: TestFile,
    /// Made also where the reader refuses it.
    pub odd: bool,
    changes: Vec<Change>,
}

/// What is done to the bytes of the file once it is laid out.
#[derive(Clone, Debug)]
enum Change {
    Bytes(usize, Vec<u8>),
    Length(usize),
}

/// A line that is no line of a description.
#[derive(Clone, Debug, PartialEq, Eq)]
pub struct DescriptionError {
    /// From 1; 0 where the text has nothing in it.
    pub line: usize,
    /// What is wrong with it.
    pub message: String,
}

impl fmt::Display for DescriptionError {
    fn fmt(&self, f: &mut fmt::Formatter) -> fmt::Result {
        match self.line {
            0 => write!(f, "{}", self.message),
            line => write!(f, "line {line}: {}", self.message),
        }
    }
}

impl core::error::Error for DescriptionError {}

impl TestFile {
    /// Reads a description. It has one thing on a line: a word, a blank, and what
    /// it says. Empty lines and lines that begin with # are passed over. Numbers
    /// are decimal, or hexadecimal after 0x. The first line says the version. What
    /// a file or a volume has one of is said once.
    ///
    /// ```text
    /// version 23
    /// name CMD.EXE
    /// hash 0x4A81B364              the stored hash, or:
    /// hash-of \DEVICE\..           the hash that the program with this path has
    /// run-time 133761942000000000  a FILETIME
    /// run-count 42
    /// file \DEVICE\..              a file that the program read
    /// chain 8 16 64                trace entries that lead to each other, by their second numbers
    /// volume \DEVICE\..            a volume; the next four words are about the last one
    /// serial 0x5C0A70E1
    /// created 129000000000000000   a FILETIME
    /// reference 40 1               a file reference: entry index, sequence number
    /// directory \DEVICE\..
    /// ```
    ///
    /// For odd files, as they stand in the file:
    ///
    /// ```text
    /// odd                          make the file also where the reader refuses it
    /// name-units 65 0xD800 0 66    the program name by its units
    /// metrics OFFSET LENGTH        a metrics entry: its name's place in the strings, its units
    /// trace NEXT NUMBER            a trace entry; NEXT is an entry or `end`
    /// strings-hex 41 00 00 00      bytes at the end of the strings so far
    /// volumes-hex 00 01 02         bytes at the end of the volumes section
    /// volume-count 3               another count than there are volumes
    /// bytes-at 0x4 58 59           other bytes at a place of the finished file
    /// file-length 200              the finished file cut there, or zeros added up to it
    /// ```
    ///
    /// A description that is at fault gives the line.
    ///
    /// ```
    /// use hivesaddle::{find_path, read_file, TestFile};
    /// let text = "version 17\nname CMD.EXE\nhash-of A\nfile A\nchain 3 1 4\n";
    /// let file = TestFile::from_description(text).unwrap().make().unwrap();
    /// let record = read_file(&file, &mut [0; 3]).unwrap();
    /// assert_eq!((record.metrics_count, record.chain_count), (1, 1));
    /// assert_eq!(find_path(&file).unwrap().entry, 0);
    ///
    /// let error = TestFile::from_description("version 17\nnaem CMD.EXE").unwrap_err();
    /// assert_eq!(error.to_string(), "line 2: no such word: `naem`");
    /// let error = TestFile::from_description("version 17\nhash 1\nhash-of A").unwrap_err();
    /// assert_eq!(error.to_string(), "line 3: the hash is said already");
    /// ```
    pub fn from_description(text: &str) -> Result<DescribedFile, DescriptionError> {
        let mut so_far: Option<Lines> = None;
        // Some editors put this mark before the text.
        let text = text.strip_prefix('\u{FEFF}').unwrap_or(text);
        for (i, line) in text.lines().enumerate() {
            let line = line.trim();
            if line.is_empty() || line.starts_with('#') {
                continue;
            }
            let (word, rest) = line.split_once(char::is_whitespace).unwrap_or((line, ""));
            let next = match so_far {
                None => first_line(word, rest.trim()),
                Some(lines) => lines.line(word, rest.trim()),
            };
            so_far = Some(next.map_err(|message| DescriptionError { line: i + 1, message })?);
        }
        let nothing = || DescriptionError { line: 0, message: "there is nothing in it".into() };
        so_far.map(|lines| lines.without_volume().described).ok_or_else(nothing)
    }
}

impl DescribedFile {
    /// The file, if the reader takes it or it is odd; else the reader's refusal.
    ///
    /// ```
    /// use hivesaddle::{read_file_alloc, TestFile};
    /// let made = |text| TestFile::from_description(text).unwrap().make();
    /// let refusal = made("version 17\ntrace 0 1").unwrap_err();
    /// assert_eq!((refusal.number, refusal.index, refusal.offset), (13, 0, 152));
    /// let file = made("version 17\ntrace 0 1\nodd").unwrap();
    /// assert_eq!(read_file_alloc(&file), Err(refusal));
    ///
    /// // Another signature, which no file that is laid out has.
    /// assert_eq!(made("version 17\nbytes-at 4 58").unwrap_err().number, 2);
    /// // Cut short, and a byte too long.
    /// assert_eq!(made("version 17\nfile-length 151").unwrap_err().number, 16);
    /// assert_eq!(made("version 17\nfile-length 153").unwrap_err().number, 17);
    ///
    /// // Versions that the writer does not write are odd, though the reader takes them.
    /// assert_eq!(made("version 26\nbytes-at 8 11").unwrap_err().number, 1);
    /// assert!(read_file_alloc(&made("version 26\nbytes-at 8 11\nodd").unwrap()).is_ok());
    /// ```
    pub fn make(&self) -> Result<Vec<u8>, Refusal> {
        if self.changes.is_empty() {
            return match self.file.write() {
                Err(_) if self.odd => Ok(self.file.lay_out()),
                written => written,
            };
        }
        if let (false, Some(refusal)) = (self.odd, self.file.version_refusal()) {
            return Err(refusal);
        }
        let mut bytes = self.file.lay_out();
        self.changes.iter().for_each(|change| change.apply(&mut bytes));
        match read_file_alloc(&bytes) {
            Err(refusal) if !self.odd => Err(refusal),
            _ => Ok(bytes),
        }
    }
}

impl Change {
    /// One byte more than a file can have, so that such a file can be made.
    const LARGEST: usize = 67_108_865;

    fn new(change: Change) -> Result<Change, String> {
        let end = match &change {
            Change::Bytes(at, bytes) => at.saturating_add(bytes.len()),
            Change::Length(length) => *length,
        };
        if end > Change::LARGEST {
            return Err(format!("a file of {end} bytes is not made, {} at most", Change::LARGEST));
        }
        Ok(change)
    }

    fn apply(&self, file: &mut Vec<u8>) {
        match self {
            Change::Length(length) => file.resize(*length, 0),
            Change::Bytes(at, bytes) => {
                let end = at + bytes.len();
                file.resize(file.len().max(end), 0);
                file[*at..end].copy_from_slice(bytes);
            }
        }
    }
}

/// What the lines so far come to.
struct Lines {
    described: DescribedFile,
    /// The last volume, as long as lines can be about it.
    volume: Option<TestVolume>,
    /// What is said of the file, and of this volume, and can't be said again.
    said: Vec<&'static str>,
    said_of_volume: Vec<&'static str>,
}

/// What a word says, if there is one of it in a file or in a volume.
fn once(word: &str) -> Option<&'static str> {
    Some(match word {
        "version" => "version",
        "name" | "name-units" => "name",
        "hash" | "hash-of" => "hash",
        "run-time" => "run time",
        "run-count" => "run count",
        "volume-count" => "volume count",
        "serial" => "serial number",
        "created" => "creation time",
        _ => return None,
    })
}

fn say(said: &mut Vec<&'static str>, word: &str) -> Result<(), String> {
    match once(word) {
        Some(thing) if said.contains(&thing) => Err(format!("the {thing} is said already")),
        thing => {
            said.extend(thing);
            Ok(())
        }
    }
}

fn first_line(word: &str, rest: &str) -> Result<Lines, String> {
    if word != "version" {
        return Err(format!("the first line says the version, as `version 23`, not `{word}`"));
    }
    let file = TestFile::new(number(rest)?);
    let described = DescribedFile { file, odd: false, changes: Vec::new() };
    let said = once(word).into_iter().collect();
    Ok(Lines { described, volume: None, said, said_of_volume: Vec::new() })
}

impl Lines {
    /// The last volume goes into the file once the next word is about another.
    fn without_volume(mut self) -> Lines {
        if let Some(volume) = self.volume.take() {
            self.described.file = self.described.file.volume(volume);
        }
        self
    }

    fn line(mut self, word: &str, rest: &str) -> Result<Lines, String> {
        if let "serial" | "created" | "reference" | "directory" = word {
            let volume = self.volume.as_mut().ok_or(format!("`{word}` comes below a volume"))?;
            say(&mut self.said_of_volume, word)?;
            of_volume(volume, word, rest)?;
            return Ok(self);
        }
        say(&mut self.said, word)?;
        self = self.without_volume();
        let Lines { described, volume, said_of_volume, .. } = &mut self;
        match word {
            "volume" => {
                said_of_volume.clear();
                *volume = Some(TestVolume { path: rest.to_string(), ..TestVolume::default() });
            }
            "odd" => described.odd = true,
            "bytes-at" => {
                let (at, hex) = two(rest, "an offset and bytes are wanted")?;
                described.changes.push(Change::new(Change::Bytes(number(at)?, bytes(hex)?))?);
            }
            "file-length" => described.changes.push(Change::new(Change::Length(number(rest)?))?),
            _ => self.described.file = of_file(self.described.file, word, rest)?,
        }
        Ok(self)
    }
}

fn of_volume(volume: &mut TestVolume, word: &str, rest: &str) -> Result<(), String> {
    match word {
        "serial" => volume.serial_number = number(rest)?,
        "created" => volume.creation_time = number(rest)?,
        "reference" => {
            let [entry_index, sequence_number]: [u64; 2] = numbers(rest)?;
            if entry_index >> 48 > 0 || sequence_number >> 16 > 0 {
                return Err("an entry index has 48 bits, a sequence number 16".to_string());
            }
            let sequence_number = sequence_number as u16;
            volume.references.push(Reference { entry_index, sequence_number });
        }
        _ => volume.directories.push(rest.to_string()),
    }
    Ok(())
}

fn of_file(file: TestFile, word: &str, rest: &str) -> Result<TestFile, String> {
    Ok(match word {
        "name" => file.name(rest),
        "name-units" => file.name_units(&list(rest)?),
        "hash" => file.hash(number(rest)?),
        "hash-of" => file.hash_of(rest),
        "run-time" => file.run_time(number(rest)?),
        "run-count" => file.run_count(number(rest)?),
        "file" => file.file(rest),
        "chain" => file.chain(&list(rest)?),
        "metrics" => {
            let [offset, length] = numbers(rest)?;
            file.metrics(offset, length)
        }
        "trace" => {
            let (next, blocks) = two(rest, "a next index, or `end`, and a number are wanted")?;
            let next = if next == "end" { NONE } else { number(next)? };
            file.trace(next, number(blocks)?)
        }
        "strings-hex" => file.strings(&bytes(rest)?),
        "volumes-hex" => file.volumes(&bytes(rest)?),
        "volume-count" => file.volume_count(number(rest)?),
        _ => return Err(format!("no such word: `{word}`")),
    })
}

/// The first word and what is behind it.
fn two<'a>(text: &'a str, wanted: &str) -> Result<(&'a str, &'a str), String> {
    let (first, behind) = text.split_once(char::is_whitespace).ok_or(wanted)?;
    Ok((first, behind.trim()))
}

/// Decimal, or hexadecimal after 0x, and small enough for its field.
fn number<T: TryFrom<u64>>(text: &str) -> Result<T, String> {
    let value = match text.strip_prefix("0x") {
        Some(digits) => u64::from_str_radix(digits, 16),
        None => text.parse(),
    };
    let value = value.map_err(|_| no_number(text))?;
    let bits = 8 * core::mem::size_of::<T>();
    T::try_from(value).map_err(|_| format!("{value} is more than {bits} bits hold"))
}

fn no_number(text: &str) -> String {
    let is_hexadecimal = text.bytes().all(|byte| byte.is_ascii_hexdigit())
        && text.bytes().any(|byte| byte.is_ascii_alphabetic());
    let hint = if is_hexadecimal { "; a hexadecimal number begins with 0x" } else { "" };
    format!("no number: `{text}`{hint}")
}

fn list<T: TryFrom<u64>>(text: &str) -> Result<Vec<T>, String> {
    text.split_whitespace().map(number).collect()
}

fn numbers<T: TryFrom<u64>>(text: &str) -> Result<[T; 2], String> {
    let list = list(text)?;
    let given = list.len();
    list.try_into().map_err(|_| format!("two numbers are wanted, and there are {given}"))
}

/// Pairs of hexadecimal digits, with or without blanks between them.
fn bytes(text: &str) -> Result<Vec<u8>, String> {
    let digits: Vec<char> = text.chars().filter(|c| !c.is_whitespace()).collect();
    let byte = |pair: &[char]| {
        let pair: String = pair.iter().collect();
        let good = pair.len() == 2 && pair.chars().all(|c| c.is_ascii_hexdigit());
        let value = if good { u8::from_str_radix(&pair, 16).ok() } else { None };
        value.ok_or(format!("no two hexadecimal digits: `{pair}`"))
    };
    digits.chunks(2).map(byte).collect()
}

#[cfg(test)]
mod tests {
    use super::*;

    fn error(lines: &str) -> Option<String> {
        let described = TestFile::from_description(&format!("version 23\n{lines}"));
        described.err().map(|error| error.to_string())
    }

    #[test]
    fn what_there_is_one_of_is_said_once() {
        let cases = [
            ("version 23", "line 2: the version is said already"),
            ("name A\nname-units 65", "line 3: the name is said already"),
            ("run-time 1\nrun-time 1", "line 3: the run time is said already"),
            ("run-count 1\nfile A\nrun-count 2", "line 4: the run count is said already"),
            ("volume A\nserial 1\nserial 1", "line 4: the serial number is said already"),
        ];
        for (lines, expected) in cases {
            assert_eq!(error(lines).as_deref(), Some(expected));
        }
        let two = "volume A\nserial 1\ncreated 1\nvolume B\nserial 1\ncreated 1";
        let changes = "odd\nodd\nfile A\nfile A\nbytes-at 0 01\nbytes-at 0 02";
        assert_eq!((error(two), error(changes)), (None, None));
    }

    #[test]
    fn what_is_no_number() {
        let cases = [
            ("4A81B364", "; a hexadecimal number begins with 0x"),
            ("", ""),
            ("0x", ""),
            ("12 3", ""),
            ("99999999999999999999", ""),
        ];
        for (text, hint) in cases {
            let expected = format!("line 2: no number: `{text}`{hint}");
            assert_eq!(error(&format!("hash {text}")), Some(expected));
        }
    }
}
