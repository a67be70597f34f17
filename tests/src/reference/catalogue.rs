//! The catalogue line: size 8 digits, stored hash 8, run count 8, version 2,
//! and a line feed. Old lines, with 6 digits for the size, are read too.

use super::layout::{least_head_end, LARGEST_SIZE};

/// The greatest size in an old line.
pub const OLD_LARGEST_SIZE: u64 = 16_777_215;

#[derive(Clone, Copy, Debug, PartialEq, Eq)]
pub struct Fields {
    pub size: u64,
    pub stored_hash: u64,
    pub run_count: u64,
    pub version: u64,
}

/// Size, stored hash, run count and version, or nothing where the bytes are
/// no line. The length tells a new line from an old one.
pub fn read(line: &[u8]) -> Option<Fields> {
    let (size_digits, largest) = match line.len() {
        27 => (8, LARGEST_SIZE),
        25 => (6, OLD_LARGEST_SIZE),
        _ => return None,
    };
    let (&last, digits) = line.split_last()?;
    let digits: Vec<u64> = digits.iter().map(|&byte| digit(byte)).collect::<Option<_>>()?;
    let (size, others) = digits.split_at(size_digits);
    let fields = Fields {
        size: number(size),
        stored_hash: number(&others[0..8]),
        run_count: number(&others[8..16]),
        version: number(&others[16..18]),
    };
    (last == b'\n' && good(&fields, largest)).then_some(fields)
}

/// The line, always a new one, or nothing where the fields can't form one.
pub fn write(fields: &Fields) -> Option<Vec<u8>> {
    let Fields { size, stored_hash, run_count, version } = fields;
    let line = format!("{size:08X}{stored_hash:08X}{run_count:08X}{version:02X}\n");
    good(fields, LARGEST_SIZE).then(|| line.into_bytes())
}

/// The version is one of four and the size lies between its H, the smallest
/// of its forms, and the limit.
fn good(fields: &Fields, largest: u64) -> bool {
    match least_head_end(fields.version as u32) {
        Some(head_end) => head_end <= fields.size && fields.size <= largest,
        None => false,
    }
}

fn digit(byte: u8) -> Option<u64> {
    b"0123456789ABCDEF".iter().position(|&digit| digit == byte).map(|place| place as u64)
}

/// Most significant digit first.
fn number(digits: &[u64]) -> u64 {
    digits.iter().fold(0, |number, digit| 16 * number + digit)
}

#[cfg(test)]
mod points {
    use super::*;

    #[test]
    fn the_line_of_the_paper() {
        let fields = Fields { size: 148, stored_hash: 65, run_count: 1, version: 17 };
        assert_eq!(read(b"000094000000410000000111\n"), Some(fields));
        assert_eq!(read(b"00000094000000410000000111\n"), Some(fields));
        assert_eq!(write(&fields).unwrap(), b"00000094000000410000000111\n");
    }

    #[test]
    fn lines_of_version_30() {
        let fields = Fields { size: 212, stored_hash: 65, run_count: 1, version: 30 };
        assert_eq!(read(b"0000D400000041000000011E\n"), Some(fields));
        assert_eq!(read(b"000000D400000041000000011E\n"), Some(fields));
        assert_eq!(write(&fields).unwrap(), b"000000D400000041000000011E\n");
        assert_eq!(read(b"0000D300000041000000011E\n"), None);
        assert_eq!(read(b"000000D300000041000000011E\n"), None);
    }
}
