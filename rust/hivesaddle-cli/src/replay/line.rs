//! A line that should be digits and is not, and why.

use super::refused;
use crate::outcome::Outcome;
use std::ffi::OsStr;

/// Refuses a line. Of its bytes the first `most` are known, or none, and what
/// follows it may stand behind them.
pub fn refuse_line(name: &OsStr, line: u64, is_no: &str, bytes: &[u8], most: usize) -> Outcome {
    refuse(22, name, line, is_no, why(bytes, most))
}

/// As [`refuse_line`], for a line of the catalogue, of which all bytes are known.
pub fn refuse_catalogue_line(name: &OsStr, line: u64, bytes: &[u8]) -> Outcome {
    let rule = "catalogue line, 26 digits 0-9 A-F, or 24 in an old one, and a line feed, \
        with a known version and a size that it can have";
    refuse(18, name, line, rule, why(bytes, usize::MAX))
}

fn refuse(number: u32, name: &OsStr, line: u64, is_no: &str, why: Option<&str>) -> Outcome {
    let why = why.map_or(String::new(), |why| format!(": {why}"));
    refused(name, format_args!("refused {number}: line {line} is no {is_no}{why}"))
}

/// For what an editor does not show, or another program did.
fn why(bytes: &[u8], most: usize) -> Option<&'static str> {
    match bytes {
        [0xEF, 0xBB, 0xBF, ..] => {
            return Some("it begins with a byte order mark; save as text without one");
        }
        [0xFF, 0xFE, ..]
        | [0xFE, 0xFF, ..]
        | [b'0'..=b'f', 0, b'0'..=b'f', 0, ..]
        | [0, b'0'..=b'f', 0, b'0'..=b'f', ..] => {
            return Some("it is in UTF-16; save as ASCII");
        }
        [] => return None,
        _ => {}
    }
    let end = bytes.iter().position(|byte| *byte == b'\n');
    let digits = &bytes[..end.unwrap_or(bytes.len())];
    if end.is_some() && digits.ends_with(b"\r") {
        return Some("it ends in a carriage return, as Windows writes it; save with line ends LF");
    }
    if digits.ends_with(b" ") || digits.ends_with(b"\t") {
        return Some("it has blanks behind its digits");
    }
    if digits.iter().all(u8::is_ascii_hexdigit) && digits.iter().any(u8::is_ascii_lowercase) {
        return Some("it has lowercase digits");
    }
    let is_last = end.is_none() && bytes.len() < most;
    is_last.then_some("it is the last, and has no line feed behind it")
}

#[cfg(test)]
mod tests {
    use super::*;

    #[test]
    fn reasons() {
        let cases: [(&[u8], &str); 12] = [
            (b"\xEF\xBB\xBF00\r\n", "byte order mark"),
            (b"\xFF\xFE0\0", "UTF-16"),
            (b"\xFE\xFF\x000", "UTF-16"),
            (b"0\x001\x002\0", "UTF-16"),
            (b"\x000\x001\x002", "UTF-16"),
            (b"00FF\r\n00", "carriage return"),
            (b"\r\n", "carriage return"),
            (b"00ff\n00", "lowercase"),
            (b"00ff", "lowercase"),
            (b"00FF", "no line feed"),
            (b"00FF \n", "blanks"),
            (b"00FF\t\t\n00", "blanks"),
        ];
        for (bytes, expected) in cases {
            assert!(why(bytes, 28).is_some_and(|why| why.contains(expected)), "{bytes:?}");
        }
        let plain: [&[u8]; 6] = [b"", b"\n", b"00\n0\r\n", b"xff\n", b"\0\0\0\0\n", &[b'0'; 28]];
        for bytes in plain {
            assert_eq!(why(bytes, 28), None, "{bytes:?}");
        }
    }
}
