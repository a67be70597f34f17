//! Named points of the year's table: rows by hand, temperatures and means at
//! their edges, bad lines, cuts, and lists of every length. `year_limits` has
//! those at the limits.

use crate::boundary::{compare_year, YearInput, YearLengths, YearOutputs};
use crate::generate::recordings::EDGES;
use crate::generate::years::{line, old_line};
use crate::random::Random;
use crate::reference::year::{starts_of, table, Readings, Refused, Row, Table};
use crate::tally::Tally;
use hivesaddle::raw::hs_year_table;
use std::ptr::{null, null_mut};

pub fn run(random: &mut Random, tally: &mut Tally) {
    let points = &mut Points { random, tally };
    points.by_hand();
    points.means();
    points.temperatures();
    points.what_a_reading_is();
    points.bad_lines();
    points.bad_bytes();
    points.cuts();
    points.answers_of_any_length();
    points.rows_and_out_of_any_length();
    points.limits();
    null_pointers(tally);
}

pub fn refused(number: u32, place: u64) -> Table {
    Err(Refused { number, place })
}

pub fn row(stored_hash: u32, lines: u64, run_counts: u64, readings: Option<Readings>) -> Row {
    Row { stored_hash, lines, run_counts, readings }
}

/// The remainder is what is left of the sum.
pub fn readings(count: u64, lowest: i64, highest: i64, sum: i64, mean: i64) -> Option<Readings> {
    let remainder = (sum - mean * count as i64) as u64;
    Some(Readings { count, lowest, highest, sum, mean, remainder })
}

/// Four numbers for each.
fn answers(bits: &[u16]) -> Vec<u64> {
    bits.iter().flat_map(|&bits| [1, 9, 2, bits.into()]).collect()
}

/// A line of one run for each.
pub fn lines_of(hashes: impl IntoIterator<Item = u32>) -> Vec<u8> {
    hashes.into_iter().flat_map(|hash| line(hash, 1)).collect()
}

/// Four good lines of both lengths.
fn four() -> [Vec<u8>; 4] {
    [line(5, 1), old_line(3, 2), old_line(5, 3), line(4, 4)]
}

pub struct Points<'a> {
    pub random: &'a mut Random,
    pub tally: &'a mut Tally,
}

impl Points<'_> {
    /// The library and the reference both have to give that table.
    pub fn check(&mut self, name: &str, input: YearInput, expected: Table) {
        let rows = expected.as_ref().map_or(2, Vec::len);
        let mut outputs = YearOutputs::new(self.random, YearLengths::of(rows + 1));
        let outcome = outputs.expected(&expected);
        self.tally.named(name, &outcome, &outputs.call(input));
        let given = table(input.lines, &starts_of(input.hashes, input.answers));
        self.tally.named(name, &expected, &given);
    }

    pub fn lines(&mut self, name: &str, lines: &[u8], expected: Table) {
        self.check(name, YearInput { lines, hashes: &[], answers: &[] }, expected);
    }

    /// Starts of one hash.
    fn row_of(&mut self, name: &str, answers: &[u64], readings: Option<Readings>) {
        let hashes = vec![6; answers.len().div_ceil(4)];
        let input = YearInput { lines: b"", hashes: &hashes, answers };
        self.check(name, input, Ok(vec![row(6, 0, 0, readings)]));
    }

    fn by_hand(&mut self) {
        self.lines("nothing", b"", Ok(vec![]));
        let lines = four().concat();
        let of_lines = [row(3, 1, 2, None), row(4, 1, 4, None), row(5, 2, 4, None)];
        self.lines("lines of both lengths", &lines, Ok(of_lines.to_vec()));
        let hashes = [u32::MAX, 4, 0, 5, 4];
        let answers = [answers(&[0xFF38]), vec![0; 4], answers(&[7, 5, 0x0514])].concat();
        let rows = vec![
            row(0, 0, 0, readings(1, 7, 7, 7, 7)),
            row(3, 1, 2, None),
            row(4, 1, 4, readings(1, 1_300, 1_300, 1_300, 1_300)),
            row(5, 2, 4, readings(1, 5, 5, 5, 5)),
            row(u32::MAX, 0, 0, readings(1, -200, -200, -200, -200)),
        ];
        let input = YearInput { lines: &lines, hashes: &hashes, answers: &answers };
        self.check("lines and starts", input, Ok(rows));
        let input = YearInput { lines: b"", hashes: &[8, 7], answers: &[0; 8] };
        let none = vec![row(7, 0, 0, None), row(8, 0, 0, None)];
        self.check("no reading at all", input, Ok(none));
        let unsigned = [0x8000_0000, 1, u32::MAX, 0x7FFF_FFFF];
        let rows = [1, 0x7FFF_FFFF, 0x8000_0000, u32::MAX].map(|hash| row(hash, 1, 1, None));
        self.lines("hashes are unsigned", &lines_of(unsigned), Ok(rows.to_vec()));
    }

    fn means(&mut self) {
        let cases: [(&[i16], i64); 12] = [
            (&[-4, -1], -3),
            (&[-1, -4], -3),
            (&[-5, 0], -3),
            (&[5, 0], 2),
            (&[-1, 0, 0], -1),
            (&[-2, 0, 0], -1),
            (&[-3, 0, 0], -1),
            (&[-4, 0, 0], -2),
            (&[1, -1], 0),
            (&[i16::MIN, i16::MAX], -1),
            (&[i16::MIN, i16::MIN, i16::MIN + 1], -32_768),
            (&[i16::MAX, i16::MAX, i16::MAX - 1], 32_766),
        ];
        for (tenths, mean) in cases {
            let bits: Vec<u16> = tenths.iter().map(|&tenths| tenths as u16).collect();
            let all = || tenths.iter().map(|&tenths| i64::from(tenths));
            let (lowest, highest) = (all().min().unwrap_or(0), all().max().unwrap_or(0));
            let expected = readings(bits.len() as u64, lowest, highest, all().sum(), mean);
            self.row_of(&format!("mean of {tenths:?}"), &answers(&bits), expected);
        }
        let five = Readings { count: 2, lowest: -4, highest: -1, sum: -5, mean: -3, remainder: 1 };
        self.row_of("-5 over 2", &answers(&[0xFFFC, 0xFFFF]), Some(five));
    }

    /// Each edge alone, beside each other, and with bits above the sixteen.
    fn temperatures(&mut self) {
        let tenths = [32_767, -32_768, -1, 0, -200, 1_300];
        for (first, a) in EDGES.into_iter().zip(tenths) {
            for above in [0, 0x1_0000, 0xFFFF_FFFF_FFFF_0000, 1 << 63, 0x8000_8000_0000] {
                let answer = [1, 9, 2, u64::from(first) | above];
                self.row_of(&format!("{first:04X}"), &answer, readings(1, a, a, a, a));
            }
            for (second, b) in EDGES.into_iter().zip(tenths) {
                let name = format!("{first:04X} and {second:04X}");
                let mean = (a + b).div_euclid(2);
                let expected = readings(2, a.min(b), a.max(b), a + b, mean);
                self.row_of(&name, &answers(&[first, second]), expected);
            }
        }
    }

    /// The first number alone says whether there is one.
    fn what_a_reading_is(&mut self) {
        for is_there in [1, 2, 1 << 16, 1 << 32, 1 << 63, u64::MAX] {
            self.row_of("a reading", &[is_there, 0, 0, 5], readings(1, 5, 5, 5, 5));
            self.row_of(
                "none beside it",
                &[is_there, 0, 0, 5, 0, 1, 1, 6],
                readings(1, 5, 5, 5, 5),
            );
        }
        self.row_of("none with numbers", &[0, 1, 1, 5], None);
        self.row_of("none with numbers, twice", &[0, 1, 1, 5, 0, u64::MAX, 7, 8], None);
    }

    /// A line put before each of the four, and behind them.
    fn bad_lines(&mut self) {
        for line in &bad_kinds() {
            for before in 0..=4 {
                let (front, back) = (&four()[..before].concat(), &four()[before..].concat());
                let lines = [front, line.as_bytes(), back].concat();
                let input = YearInput { lines: &lines, hashes: &[1; 3], answers: &[1; 12] };
                let name = format!("{line:?} behind {before}");
                self.check(&name, input, refused(18, before as u64 + 1));
            }
        }
    }

    /// Every byte at every place of a line of each length, between two others.
    fn bad_bytes(&mut self) {
        for sound in [line(5, 0x89AB_CDEF), old_line(5, 0x0123_4567)] {
            for at in 0..sound.len() {
                for byte in 0..=255 {
                    let mut middle = sound.clone();
                    middle[at] = byte;
                    let lines = [line(3, 1), middle, old_line(4, 2)].concat();
                    let is_digit = byte.is_ascii_digit() || (b'A'..=b'F').contains(&byte);
                    let may_be_good = if at + 1 == sound.len() { byte == b'\n' } else { is_digit };
                    let expected = match may_be_good {
                        true => table(&lines, &[]),
                        false => refused(18, 2),
                    };
                    self.lines(&format!("byte {byte} at {at}"), &lines, expected);
                }
            }
        }
    }

    /// An empty rest is no line, any other is a bad one.
    fn cuts(&mut self) {
        let lines = four().concat();
        let ends = [0, 27, 52, 77, 104];
        for length in 0..=lines.len() {
            let whole = ends.iter().filter(|&&end| end != 0 && end <= length).count();
            let expected = match ends.contains(&length) {
                true => table(&four()[..whole].concat(), &[]),
                false => refused(18, whole as u64 + 1),
            };
            self.tally.named("a cut", &ends.contains(&length), &expected.is_ok());
            self.lines(&format!("cut at {length}"), &lines[..length], expected);
        }
    }

    /// For five starts, each length to past their answers, with no number 0.
    fn answers_of_any_length(&mut self) {
        let hashes = [3, 1, 2, 1, 3];
        let all: Vec<u64> = (0..30).map(|i| 0xABCD_0000 + 65_536 - 7 * i).collect();
        for length in 0..=30 {
            let answers = &all[..length];
            let input = YearInput { lines: &line(3, 4), hashes: &hashes, answers };
            let expected = table(input.lines, &starts_of(&hashes, answers));
            let readings = |row: &Row| row.readings.map_or(0, |readings| readings.count);
            let count: Option<u64> =
                expected.as_ref().ok().map(|rows| rows.iter().map(readings).sum());
            let known = length.div_ceil(4).min(5) as u64;
            self.tally.named("readings that are there", &Some(known), &count);
            self.check(&format!("{length} answers"), input, expected);
        }
        let cut = [1, 9, 2, 5, 1, 9, 2];
        self.row_of("a temperature past the end is 0", &cut, readings(2, 0, 5, 5, 2));
    }

    /// Each length of both lists, for a table and for a refusal of each kind.
    fn rows_and_out_of_any_length(&mut self) {
        let lines = four().concat();
        let full = lines_of(0..1_025);
        for lines in [&lines[..], &lines[..103], &full, &[]] {
            let input = YearInput { lines, hashes: &[9], answers: &[1, 2, 3, 0xFFFF] };
            let expected = table(lines, &starts_of(input.hashes, input.answers));
            for rows in 0..50 {
                for out in 0..5 {
                    let lengths = YearLengths { rows, out };
                    compare_year(self.random, self.tally, &expected, input, lengths);
                }
            }
        }
    }
}

/// Each is no line for a reason of its own.
fn bad_kinds() -> Vec<String> {
    let digits = "0000009400000041000000011111111";
    let lengths = (0..=30).filter(|count| ![24, 26].contains(count));
    let mut bad: Vec<String> = lengths.map(|count| format!("{}\n", &digits[..count])).collect();
    for good in ["00000094000000410000000111\n", "000094000000410000000111\n"] {
        bad.push(good.replace('\n', "\r\n"));
        for other in [" ", "\0", "a", "f", "G", "@", "/", ":", "`", "+", "\r", "\t", "x"] {
            bad.push(good.replacen('0', other, 1));
            bad.push(good.replacen('4', other, 2));
            bad.push(good.replacen("11\n", &format!("1{other}\n"), 1));
        }
        // A size below that of the version, and no such version.
        bad.push(good.replacen("94", "93", 1));
        bad.push(good.replacen("11\n", "12\n", 1));
        bad.push(good.replacen("11\n", "1E\n", 1));
    }
    bad.push("04000001000000410000000111\n".to_string());
    bad.push("000000D300000041000000011E\n".to_string());
    bad.push("0000D300000041000000011E\n".to_string());
    bad.push("0000D400000041000000011e\n".to_string());
    bad.push("0".repeat(10_000) + "\n");
    bad
}

/// Lists of length 0 may have any pointer.
fn null_pointers(tally: &mut Tally) {
    let nothing =
        unsafe { hs_year_table(null(), 0, null(), 0, null(), 0, null_mut(), 0, null_mut(), 0) };
    tally.named("null pointers", &0, &nothing);
    let (feed, hash) = (b'\n', 5);
    let mut out = [7; 2];
    let place = out.as_mut_ptr();
    let refused = unsafe { hs_year_table(&feed, 1, &hash, 1, null(), 0, null_mut(), 0, place, 2) };
    tally.named("null pointers and a bad line", &(18, [1, 0]), &(refused, out));
    let place = out.as_mut_ptr();
    let given = unsafe { hs_year_table(null(), 0, &hash, 1, null(), 0, null_mut(), 0, place, 2) };
    tally.named("null pointers and a start", &(0, [0, 1]), &(given, out));
}
