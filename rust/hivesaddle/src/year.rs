//! The table at year's end, of catalogue lines and program starts.

use crate::raw::*;
use crate::{Reading, Refusal};
use core::fmt;

#[cfg(feature = "alloc")]
use alloc::{vec, vec::Vec};

/// Numbers of a row, as [`year_table_into`] writes it.
pub const YEAR_ROW_LENGTH: usize = HS_YEAR_ROW_LENGTH;
/// The most lines that a table is made of.
pub const YEAR_MOST_LINES: usize = HS_YEAR_MOST_LINES;
/// The most starts that a table is made of, however many lines there are.
pub const YEAR_MOST_STARTS: usize = HS_YEAR_MOST_STARTS;
/// The most rows that a table has.
pub const YEAR_MOST_ROWS: usize = HS_YEAR_MOST_ROWS;

/// A program start, with what [`crate::replay()`] answered for it.
#[derive(Clone, Copy, Debug, PartialEq, Eq, Hash)]
pub struct YearStart {
    /// The stored hash of the program's file.
    pub stored_hash: u32,
    /// Its reading, if there is one.
    pub answer: Option<Reading>,
}

/// What the year's table says of one stored hash.
#[derive(Clone, Copy, Debug, PartialEq, Eq, Hash)]
pub struct YearRow {
    /// The hash that the row is about.
    pub stored_hash: u32,
    /// Catalogue lines with that hash.
    pub lines: u64,
    /// Their run counts added up.
    pub run_counts: u64,
    /// Over the readings of its starts; none where no start has one.
    pub readings: Option<Readings>,
}

/// The readings of a row, in tenths of a degree. There is one at least.
#[derive(Clone, Copy, Debug, PartialEq, Eq, Hash)]
pub struct Readings {
    /// How many there are.
    pub count: u64,
    /// The coldest.
    pub lowest: i16,
    /// The warmest.
    pub highest: i16,
    /// All of them added up.
    pub sum: i64,
    /// The sum divided by the count, rounded down, below zero too.
    pub mean: i64,
    /// The sum less mean times count: from 0 to one below the count.
    pub remainder: u64,
}

impl YearRow {
    /// The row in nine numbers, as [`year_table_into`] leaves them. None where
    /// there are fewer or more.
    ///
    /// ```
    /// use hivesaddle::{Readings, YearRow};
    /// let below = |tenths: i64| tenths as u64;
    /// let row = YearRow::from_numbers(&[65, 3, 7, 2, below(-4), below(-1), below(-5), below(-3), 1]);
    /// let readings =
    ///     Readings { count: 2, lowest: -4, highest: -1, sum: -5, mean: -3, remainder: 1 };
    /// assert_eq!(row.unwrap().readings, Some(readings));
    /// assert_eq!(YearRow::from_numbers(&[65, 3, 7, 0, 0, 0, 0, 0, 0]).unwrap().readings, None);
    /// ```
    pub fn from_numbers(numbers: &[u64]) -> Option<YearRow> {
        let numbers: &[u64; YEAR_ROW_LENGTH] = numbers.try_into().ok()?;
        let readings = Readings {
            count: numbers[HS_YEAR_READINGS],
            lowest: numbers[HS_YEAR_LOWEST] as i16,
            highest: numbers[HS_YEAR_HIGHEST] as i16,
            sum: numbers[HS_YEAR_SUM] as i64,
            mean: numbers[HS_YEAR_MEAN] as i64,
            remainder: numbers[HS_YEAR_REMAINDER],
        };
        Some(YearRow {
            stored_hash: numbers[HS_YEAR_HASH] as u32,
            lines: numbers[HS_YEAR_LINES],
            run_counts: numbers[HS_YEAR_RUN_COUNTS],
            readings: (readings.count != 0).then_some(readings),
        })
    }
}

/// Why there is no table.
///
/// ```
/// let refusal = hivesaddle::year_table(b"no line\n", &[]).unwrap_err();
/// assert_eq!(refusal.to_string(), "refused 18: line 1 is no catalogue line");
/// ```
#[derive(Clone, Copy, Debug, PartialEq, Eq)]
pub struct YearRefusal {
    /// 18, a line is no catalogue line; 24, a 1,025th stored hash; 26, more
    /// lines or starts than allowed.
    pub number: u32,
    /// The first line or start at fault, from 1, starts numbered on after the
    /// lines; 0 for 26.
    pub place: u64,
}

impl fmt::Display for YearRefusal {
    fn fmt(&self, f: &mut fmt::Formatter) -> fmt::Result {
        let YearRefusal { number, place } = self;
        match number {
            18 => write!(f, "refused 18: line {place} is no catalogue line"),
            24 => write!(f, "refused 24: line or start {place} brings a 1,025th stored hash"),
            // 26 is about no place.
            _ => Refusal::bare(*number).fmt(f),
        }
    }
}

impl core::error::Error for YearRefusal {}

/// A row for each stored hash of the lines or starts, in rising order of the
/// hashes. Any order of the same lines and of the same starts gives the same
/// table.
///
/// The lines are as [`crate::catalogue_read`] takes them, new ones and old, one
/// behind the other. There are at most 1,048,576 of them, as many starts, and
/// 1,024 hashes. Bytes behind the last line feed are a bad line. A start without
/// a reading makes a row too.
///
/// This allocates: 36 bytes for each start, and 72 for each row that there can
/// be. [`year_table_into`] is the same with borrowed buffers.
///
/// ```
/// use hivesaddle::{year_table, Reading, Readings, YearRefusal, YearRow, YearStart};
/// // Two files with the hash 65, run 2 and 5 times; the second line is an old one.
/// let lines = b"00000094000000410000000211\n\
///               0000D400000041000000051E\n";
/// let start = |tenths: i16| YearStart {
///     stored_hash: 65,
///     answer: Some(Reading { time: 5, board: 3, temperature: tenths }),
/// };
/// let starts = [start(-4), start(-1), YearStart { stored_hash: 7, answer: None }];
/// let readings = Readings { count: 2, lowest: -4, highest: -1, sum: -5, mean: -3, remainder: 1 };
/// let rows = vec![
///     YearRow { stored_hash: 7, lines: 0, run_counts: 0, readings: None },
///     YearRow { stored_hash: 65, lines: 2, run_counts: 7, readings: Some(readings) },
/// ];
/// assert_eq!(year_table(lines, &starts), Ok(rows));
///
/// // The last line has lost its line feed.
/// let refusal = YearRefusal { number: 18, place: 2 };
/// assert_eq!(year_table(&lines[..51], &starts), Err(refusal));
/// ```
#[cfg(feature = "alloc")]
pub fn year_table(lines: &[u8], starts: &[YearStart]) -> Result<Vec<YearRow>, YearRefusal> {
    let hashes: Vec<u32> = starts.iter().map(|start| start.stored_hash).collect();
    let answers: Vec<u64> = starts.iter().flat_map(|start| Reading::answer(start.answer)).collect();
    // No more rows than there are lines and starts.
    let most = (lines.len() / HS_CATALOGUE_OLD_LINE_LENGTH + starts.len()).min(YEAR_MOST_ROWS);
    let mut rows = vec![0; YEAR_ROW_LENGTH * most];
    let count = year_table_into(lines, &hashes, &answers, &mut rows)?;
    let rows = rows.chunks_exact(YEAR_ROW_LENGTH).take(count);
    Ok(rows.filter_map(YearRow::from_numbers).collect())
}

/// As [`year_table`], without a heap. Start k has the hash `hashes[k]` and the
/// answer at 4k in `answers`, a list as [`crate::replay_into`] leaves it. A
/// number past its end counts as 0.
///
/// `rows` takes nine numbers for each row, see [`YearRow::from_numbers`]: as many
/// whole rows as fit. All else of it stays as it was, and all of it after a
/// refusal. Gives how many rows the table has, however many fit;
/// [`YEAR_MOST_ROWS`] are enough for every table.
///
/// ```
/// use hivesaddle::{year_table_into, YearRow};
/// let line = b"00000094000000410000000211\n";
/// let mut rows = [7; 12];
/// let answers = [1, 5, 3, 0xFF38, 0, 0, 0, 0];
/// assert_eq!(year_table_into(line, &[65, 66], &answers, &mut rows), Ok(2));
/// // One whole row fits.
/// let row = YearRow::from_numbers(&rows[..9]).unwrap();
/// assert_eq!((row.stored_hash, row.run_counts, row.readings.unwrap().mean), (65, 2, -200));
/// assert_eq!(rows[9..], [7; 3]);
/// ```
pub fn year_table_into(
    lines: &[u8],
    hashes: &[u32],
    answers: &[u64],
    rows: &mut [u64],
) -> Result<usize, YearRefusal> {
    let mut out = [0; 2];
    // SAFETY: each list is a slice with its length, and those written are borrowed as mut.
    let number = unsafe {
        hs_year_table(
            lines.as_ptr(),
            lines.len(),
            hashes.as_ptr(),
            hashes.len(),
            answers.as_ptr(),
            answers.len(),
            rows.as_mut_ptr(),
            rows.len(),
            out.as_mut_ptr(),
            out.len(),
        )
    };
    let [place, count] = out;
    match number {
        0 => Ok(count as usize),
        18 | 24 | 26 => Err(YearRefusal { number, place }),
        other => unreachable!("no such answer: {other}"),
    }
}
