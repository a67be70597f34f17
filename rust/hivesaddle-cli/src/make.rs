//! `hivesaddle make`: a test file from a plain text description.

use crate::args::{Args, Known};
use crate::files::{Reader, Trouble};
use crate::outcome::{complain, failed, usage, Outcome};
use crate::output::{say, write_made};
use crate::text::{self, count};
use crate::{odd, refusal};
use hivesaddle::{
    read_file_alloc, DescribedFile, DescriptionError, FileContents, Refusal, TestFile,
};
use std::ffi::{OsStr, OsString};

pub const HELP: &str = r"usage: hivesaddle make DESCRIPTION FILE
       hivesaddle make --list [NUMBER ..]

Makes a test file of version 17 or 23 from a description in plain text, and says what is in it. A
FILE that is there already is written over, but no Prefetch file that Windows wrote; - is standard
output. A file that would be refused is not made, unless a line of the description is `odd`; with
that line files of versions 26 and 30 are made too, and of versions that nobody knows.

A description has one thing on a line: a word, a blank, and what it says. Empty lines and lines that
begin with # are passed over. Numbers are decimal, or hexadecimal after 0x. The first line says the
version. What a file or a volume has one of is said once.

  version 23
  name CMD.EXE
  hash 0x4A81B364              the stored hash, or:
  hash-of \DEVICE\..           the hash that the program with this path has
  run-time 133761942000000000  a FILETIME: tenths of microseconds since the start of 1601
  run-count 42
  file \DEVICE\..              a file that the program loaded
  chain 8 16 64                trace entries that lead to each other, by their second numbers: the
                               papers call it block load count, and in files that Windows wrote it
                               is a position, which rises along the chain
  volume \DEVICE\..            a volume; the next four words are about the last one
  serial 0x5C0A70E1
  created 129000000000000000   a FILETIME
  reference 40 1               a file reference: entry index, sequence number
  directory \DEVICE\..

For odd files, as they stand in the file:

  odd                          make the file also where it is refused
  name-units 65 0xD800 0 66    the program name by its UTF-16 units
  metrics OFFSET LENGTH        a metrics entry: its name's place in the strings, its units
  trace NEXT NUMBER            a trace entry; NEXT is an entry or `end`, which version 30 has not
  strings-hex 41 00 00 00      bytes at the end of the strings so far
  volumes-hex 00 01 02         bytes at the end of the volumes section
  volume-count 3               another count than there are volumes
  bytes-at 0x4 58 59           other bytes at a place of the finished file
  file-length 200              the finished file cut there, or zeros added up to it

  --list   instead of making a file, shows a description for each refusal that can be made, or for
           those whose numbers are given

Exit status: 0 the file is made; 1 it would be refused, and is not; 2 the description is at fault,
or something could not be read or written.

example: hivesaddle make --list 13 >ring.txt
         hivesaddle make ring.txt ring.pf
         hivesaddle check ring.pf
";

pub fn run(words: Vec<OsString>) -> Outcome {
    let args = match Args::split(words, Known { flags: &["list"], valued: &[] }) {
        Ok(args) => args,
        Err(message) => return usage("make", message),
    };
    match &args.operands[..] {
        numbers if args.has("list") => list(numbers),
        [description, file] => make(description, file),
        _ => usage("make", "a description and a file are wanted"),
    }
}

/// A blank line stands between two descriptions.
fn list(wanted: &[OsString]) -> Outcome {
    let mut numbers: Vec<u32> = odd::numbers().collect();
    if !wanted.is_empty() {
        numbers = wanted.iter().filter_map(|number| number.to_str()?.parse().ok()).collect();
    }
    let known: Vec<String> = numbers.iter().copied().filter_map(odd::description).collect();
    if known.len() < wanted.len() {
        let numbers: Vec<String> = odd::numbers().map(|number| number.to_string()).collect();
        return usage("make", format!("descriptions are there for {}", numbers.join(" ")));
    }
    say(known.join("\n").as_bytes())
}

fn make(description: &OsStr, path: &OsStr) -> Outcome {
    let described = read_text(description).and_then(|text| {
        // The error may have words of the text in it.
        let shown = |error: DescriptionError| text::shown_name(error.to_string().as_ref());
        TestFile::from_description(&text).map_err(shown)
    });
    match described.map(|described| described.make().map_err(|refusal| why(&described, refusal))) {
        Ok(Ok(file)) => match write_made(path, &file, &description.to_owned()) {
            // What it says would stand behind the file.
            Outcome::Done if path != "-" => say(summary(&file).as_bytes()),
            outcome => outcome,
        },
        Ok(Err(why)) => {
            complain(description, format!("no file made, as no line says `odd`: {why}"));
            Outcome::Refused
        }
        Err(message) => failed(description, message),
    }
}

/// The writer refuses versions that the reader knows.
fn why(described: &DescribedFile, refusal: Refusal) -> String {
    let laid_out = described.file.lay_out();
    let version = laid_out.first_chunk().map_or(0, |version| u32::from_le_bytes(*version));
    if refusal.number == 1 && version != 17 && version != 23 {
        return format!("refused 1: files of version 17 and 23 are made, and not of {version}");
    }
    refusal::line(&laid_out, refusal)
}

fn read_text(name: &OsStr) -> Result<String, String> {
    let mut reader = Reader::default();
    let bytes = match reader.read(name) {
        Ok(bytes) => bytes,
        // There is a better word for it.
        Err(Trouble::Empty) => &[],
        Err(trouble) => return Err(trouble.to_string()),
    };
    String::from_utf8(bytes.to_vec()).map_err(|_| "not a text in UTF-8".to_string())
}

fn summary(file: &[u8]) -> String {
    let bytes = count(file.len(), "byte");
    match read_file_alloc(file) {
        Err(refusal) => format!("{bytes}, {}\n", refusal::line(file, refusal)),
        Ok(FileContents { record, .. }) => {
            let files = count(record.metrics_count as usize, "file");
            let chains = count(record.chain_count as usize, "chain");
            let volumes = count(record.volume_count as usize, "volume");
            format!("{bytes}, {files}, {chains}, {volumes}\n")
        }
    }
}
