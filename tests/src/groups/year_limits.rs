//! Named points of the year's table at its limits: 1,024 hashes, 1,048,576
//! lines, as many starts, which refusal comes first, and the greatest sums.

use super::year_points::{lines_of, readings, refused, row, Points};
use crate::boundary::YearInput;
use crate::generate::years::{line, old_line};
use crate::reference::year::{Row, Table};

const MOST: usize = 1_048_576;
const HASHES: u32 = 1_024;

impl Points<'_> {
    pub fn limits(&mut self) {
        self.hashes_by_lines();
        self.hashes_by_starts();
        self.bad_line_or_hash();
        self.feeds_alone();
        self.most_lines();
        self.most_starts();
        self.most_of_both();
    }

    fn both(&mut self, name: &str, lines: &[u8], hashes: &[u32], expected: Table) {
        self.check(name, YearInput { lines, hashes, answers: &[] }, expected);
    }

    fn hashes_by_lines(&mut self) {
        let rows = |twice: u32| -> Table {
            Ok((0..HASHES).map(|hash| count_row(hash, 1 + u64::from(hash == twice))).collect())
        };
        self.lines("1,024 hashes", &lines_of(0..HASHES), rows(HASHES));
        self.lines("1,024 hashes, falling", &lines_of((0..HASHES).rev()), rows(HASHES));
        self.lines("1,025 hashes", &lines_of(0..HASHES + 1), refused(24, 1_025));
        let falling = lines_of((0..HASHES + 1).rev());
        self.lines("1,025 hashes, falling", &falling, refused(24, 1_025));
        for known in [0, 1, 511, 512, 1_022, 1_023] {
            let again = lines_of((0..HASHES).chain([known]));
            self.lines("a hash already there", &again, rows(known));
            let then_new = lines_of((0..HASHES).chain([known, HASHES]));
            self.lines("and then a new one", &then_new, refused(24, 1_026));
            // Before, between and behind those there, so that each could be moved.
            for new in [0, 2 * known + 1, 2 * HASHES + 1] {
                let even = (1..=HASHES).map(|hash| 2 * hash);
                let lines = lines_of(even.chain([2 * known + 2, new]));
                self.lines("a new one at any place", &lines, refused(24, 1_026));
            }
        }
    }

    fn hashes_by_starts(&mut self) {
        for by_lines in [0, 1, 512, 1_023, 1_024] {
            let lines = lines_of(0..by_lines);
            let starts: Vec<u32> = (by_lines..HASHES + 1).collect();
            let rows = (0..HASHES).map(|hash| count_row(hash, u64::from(hash < by_lines)));
            let fitting = &starts[..starts.len() - 1];
            self.both("1,024 hashes of both", &lines, fitting, Ok(rows.clone().collect()));
            self.both("1,025 hashes of both", &lines, &starts, refused(24, 1_025));
            let mut again = fitting.to_vec();
            again.extend([0, 1_023, 5]);
            self.both("starts already there", &lines, &again, Ok(rows.collect()));
            again.extend([7, u32::MAX, u32::MAX - 1]);
            self.both("places go on", &lines, &again, refused(24, 1_029));
        }
        let twice = lines_of((0..HASHES).chain(0..HASHES));
        self.both("behind 2,048 lines", &twice, &[HASHES], refused(24, 2_049));
        self.both("the third start", &twice, &[3, 4, HASHES], refused(24, 2_051));
    }

    /// The first at fault answers, whichever it is.
    fn bad_line_or_hash(&mut self) {
        let (full, new, bad) = (lines_of(0..HASHES), line(HASHES, 1), b"bad\n".to_vec());
        let with = |more: &[&[u8]]| [&full[..], &more.concat()].concat();
        self.lines("18 first", &with(&[&bad, &new]), refused(18, 1_025));
        self.lines("24 first", &with(&[&new, &bad]), refused(24, 1_025));
        self.lines("24 before a rest", &with(&[&new, b"0"]), refused(24, 1_025));
        let lines = with(&[&old_line(5, 1), &bad, &new]);
        self.lines("18 behind one already there", &lines, refused(18, 1_026));
        // A hash is only one where the line is good.
        let cut = with(&[&new[..new.len() - 1]]);
        self.lines("a new one without its line feed", &cut, refused(18, 1_025));
        self.both("18 before starts", &with(&[&bad]), &[HASHES], refused(18, 1_025));
        let first = [&bad[..], &full, &new].concat();
        self.both("18 at the first", &first, &[HASHES], refused(18, 1));
    }

    /// 26 is looked at before any line is.
    fn feeds_alone(&mut self) {
        let feeds = vec![b'\n'; MOST + 1];
        self.lines("1,048,577 empty lines", &feeds, refused(26, 0));
        self.lines("1,048,576 empty lines", &feeds[1..], refused(18, 1));
        let mut rest = feeds.clone();
        rest[MOST] = b'0';
        self.lines("1,048,576 empty lines and a rest", &rest, refused(26, 0));
        self.lines("1,048,575 empty lines and a rest", &rest[1..], refused(18, 1));
        rest.extend(b"0000");
        self.lines("a longer rest", &rest, refused(26, 0));
        self.lines("one long line", &vec![b'0'; 2 * MOST], refused(18, 1));
    }

    fn most_lines(&mut self) {
        let mut lines = lines_of((0..MOST as u32).map(|i| i * 7 % HASHES));
        let rows = (0..HASHES).map(|hash| count_row(hash, 1_024)).collect();
        self.lines("1,048,576 lines", &lines, Ok(rows));
        let length = lines.len();
        self.lines("the last is cut", &lines[..length - 1], refused(18, MOST as u64));
        lines.push(b'0');
        self.lines("a rest behind them", &lines, refused(26, 0));
        lines[length] = b'\n';
        self.lines("an empty line behind them", &lines, refused(26, 0));
        lines.truncate(length);
        lines.extend(line(5, 1));
        self.lines("1,048,577 lines", &lines, refused(26, 0));
        lines[0] = b'x';
        self.lines("26 before 18", &lines, refused(26, 0));
        lines[0] = b'0';
        lines.truncate(length - 27);
        lines.extend(line(HASHES, 1));
        self.lines("a new hash in the last", &lines, refused(24, MOST as u64));
        self.both("26 before 24", &lines, &vec![1; MOST + 1], refused(26, 0));
    }

    fn most_starts(&mut self) {
        let mut hashes: Vec<u32> = (0..MOST as u32 + 1).map(|i| i * 5 % HASHES).collect();
        let rows: Vec<Row> = (0..HASHES).map(|hash| count_row(hash, 0)).collect();
        self.both("1,048,576 starts", b"", &hashes[1..], Ok(rows));
        self.both("1,048,577 starts", b"", &hashes, refused(26, 0));
        self.both("and a bad line", b"bad\n", &hashes, refused(26, 0));
        self.both("1,048,576 and a bad line", b"bad\n", &hashes[1..], refused(18, 1));
        hashes[MOST] = HASHES;
        self.both("a new hash in the last", b"", &hashes[1..], refused(24, MOST as u64));
        let lines = lines_of([1, 2, 3]);
        let last = MOST as u64 + 3;
        self.both("and behind three lines", &lines, &hashes[1..], refused(24, last));
        self.both("26 before 24", &lines, &hashes, refused(26, 0));
    }

    /// The greatest run counts, and the least and greatest temperatures.
    fn most_of_both(&mut self) {
        let lines = line(9, u32::MAX).repeat(MOST);
        let count = MOST as u64;
        for (bits, tenths) in [(0x8000, -32_768), (0x7FFF, 32_767), (0xFFFF, -1), (0, 0)] {
            let answers = [1, 0, 0, bits].repeat(MOST);
            let hashes = vec![9; MOST];
            let sum = tenths * MOST as i64;
            let of_starts = readings(count, tenths, tenths, sum, tenths);
            let expected = row(9, count, 4_503_599_626_321_920, of_starts);
            let input = YearInput { lines: &lines, hashes: &hashes, answers: &answers };
            self.check("the greatest sums", input, Ok(vec![expected]));
            let mut last = hashes.clone();
            last[MOST - 1] = 8;
            let others = readings(count - 1, tenths, tenths, sum - tenths, tenths);
            let alone = row(8, 0, 0, readings(1, tenths, tenths, tenths, tenths));
            let expected = vec![alone, Row { readings: others, ..expected }];
            let input = YearInput { hashes: &last, ..input };
            self.check("all but the last", input, Ok(expected));
        }
        let full = lines_of((0..MOST as u32).map(|i| i % HASHES));
        let mut starts = vec![3; MOST];
        starts[MOST - 1] = HASHES;
        self.both("the last place of all", &full, &starts, refused(24, 2 * count));
    }
}

/// Lines of one run each, and no reading.
fn count_row(stored_hash: u32, lines: u64) -> Row {
    row(stored_hash, lines, lines, None)
}
