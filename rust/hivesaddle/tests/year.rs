//! The year's table through the safe calls, with tables by hand.

use hivesaddle::*;

fn line(stored_hash: u32, run_count: u32) -> String {
    format!("00000094{stored_hash:08X}{run_count:08X}11\n")
}

fn old_line(stored_hash: u32, run_count: u32) -> String {
    format!("0000D4{stored_hash:08X}{run_count:08X}1E\n")
}

/// A line of one run for each.
fn lines(hashes: impl IntoIterator<Item = u32>) -> Vec<u8> {
    hashes.into_iter().map(|hash| line(hash, 1)).collect::<String>().into_bytes()
}

fn start(stored_hash: u32, temperature: i16) -> YearStart {
    YearStart { stored_hash, answer: Some(Reading { time: 9, board: 2, temperature }) }
}

fn without_reading(stored_hash: u32) -> YearStart {
    YearStart { stored_hash, answer: None }
}

fn refused(number: u32, place: u64) -> Result<Vec<YearRow>, YearRefusal> {
    Err(YearRefusal { number, place })
}

/// The readings of the only row.
fn over(temperatures: &[i16]) -> Readings {
    let starts: Vec<YearStart> = temperatures.iter().map(|&tenths| start(1, tenths)).collect();
    let rows = year_table(b"", &starts).unwrap();
    assert_eq!(rows.len(), 1);
    rows[0].readings.unwrap()
}

#[test]
fn rows_in_rising_order() {
    let lines = [line(u32::MAX, 1), old_line(3, 5), line(3, u32::MAX), line(0x8000_0000, 0)];
    let starts = [start(3, -200), without_reading(2), start(3, 1_300), start(0, 7)];
    let row = |stored_hash, lines, run_counts, readings| YearRow {
        stored_hash,
        lines,
        run_counts,
        readings,
    };
    let readings = |count, lowest, highest, sum, mean| {
        Some(Readings { count, lowest, highest, sum, mean, remainder: 0 })
    };
    let expected = vec![
        row(0, 0, 0, readings(1, 7, 7, 7, 7)),
        row(2, 0, 0, None),
        row(3, 2, 4_294_967_300, readings(2, -200, 1_300, 1_100, 550)),
        row(0x8000_0000, 1, 0, None),
        row(u32::MAX, 1, 1, None),
    ];
    assert_eq!(year_table(lines.concat().as_bytes(), &starts), Ok(expected.clone()));
    let (mut turned, mut starts) = (lines, starts);
    turned.reverse();
    starts.reverse();
    assert_eq!(year_table(turned.concat().as_bytes(), &starts), Ok(expected));
}

#[test]
fn nothing_in_the_year() {
    assert_eq!(year_table(b"", &[]), Ok(vec![]));
    let none = YearRow { stored_hash: 5, lines: 0, run_counts: 0, readings: None };
    assert_eq!(year_table(b"", &[without_reading(5)]), Ok(vec![none]));
}

#[test]
fn means_are_rounded_down() {
    let cases: [(&[i16], i64, u64); 9] = [
        (&[-4, -1], -3, 1),
        (&[4, 1], 2, 1),
        (&[-1, 0, 0], -1, 2),
        (&[-2, 0, 0], -1, 1),
        (&[-3, 0, 0], -1, 0),
        (&[1, 0, 0], 0, 1),
        (&[0, 0], 0, 0),
        (&[i16::MIN, i16::MAX], -1, 1),
        (&[i16::MIN], -32_768, 0),
    ];
    for (temperatures, mean, remainder) in cases {
        let readings = over(temperatures);
        assert_eq!((readings.mean, readings.remainder), (mean, remainder), "{temperatures:?}");
        assert_eq!(readings.lowest, *temperatures.iter().min().unwrap());
        assert_eq!(readings.highest, *temperatures.iter().max().unwrap());
        assert_eq!(readings.count, temperatures.len() as u64);
        assert_eq!(readings.sum, mean * readings.count as i64 + remainder as i64);
    }
}

#[test]
fn the_first_at_fault_answers() {
    let full = lines(0..1_024);
    assert_eq!(year_table(&full, &[]).unwrap().len(), 1_024);
    assert_eq!(year_table(&full, &[start(1_023, 1)]).unwrap().len(), 1_024);
    assert_eq!(year_table(&full, &[start(5, 1), start(1_024, 1)]), refused(24, 1_026));
    assert_eq!(year_table(&full, &[without_reading(1_024)]), refused(24, 1_025));
    let bad = b"no line\n";
    let one_more = lines([1_024]);
    assert_eq!(year_table(&[&full[..], bad, &one_more].concat(), &[]), refused(18, 1_025));
    assert_eq!(year_table(&[&full[..], &one_more, bad].concat(), &[]), refused(24, 1_025));
    assert_eq!(year_table(&[&full[..], b"0"].concat(), &[start(1_024, 1)]), refused(18, 1_025));
}

#[test]
fn more_lines_or_starts_than_allowed() {
    let starts = vec![without_reading(5); YEAR_MOST_STARTS + 1];
    assert_eq!(year_table(b"no line\n", &starts), refused(26, 0));
    assert_eq!(year_table(b"no line\n", &starts[1..]), refused(18, 1));
    assert_eq!(year_table(b"", &starts[1..]).unwrap().len(), 1);
    let feeds = vec![b'\n'; YEAR_MOST_LINES];
    assert_eq!(year_table(&feeds, &[]), refused(18, 1));
    // The rest is one more.
    assert_eq!(year_table(&[&feeds[..], b"0"].concat(), &[]), refused(26, 0));
    assert_eq!(year_table(&[&feeds[..], b"\n"].concat(), &[]), refused(26, 0));
}

#[test]
fn borrowed_lists_of_any_length() {
    let (lines, hashes) = (lines([3, 1, 2]), [2, 4]);
    let answers = [1, 0, 0, 0xFFFF_FFFF_0000_FF38, 1, 0, 0, 5];
    let mut whole = [0; 36];
    assert_eq!(year_table_into(&lines, &hashes, &answers, &mut whole), Ok(4));
    for length in 0..40 {
        let mut rows = vec![7; length];
        assert_eq!(year_table_into(&lines, &hashes, &answers, &mut rows), Ok(4));
        let written = (length / 9 * 9).min(36);
        assert_eq!(rows[..written], whole[..written]);
        assert!(rows[written..].iter().all(|&number| number == 7));
    }
    // What is past the end counts as 0: the temperature, then the reading.
    for (length, reading) in [(8, Some(5)), (7, Some(0)), (5, Some(0)), (4, None), (0, None)] {
        let mut rows = [7; 36];
        year_table_into(&lines, &hashes, &answers[..length], &mut rows).unwrap();
        let readings = YearRow::from_numbers(&rows[27..]).unwrap().readings;
        assert_eq!(readings.map(|readings| readings.lowest), reading, "{length}");
    }
    let mut rows = [7; 36];
    let refusal = YearRefusal { number: 18, place: 1 };
    assert_eq!(year_table_into(b"\n", &hashes, &answers, &mut rows), Err(refusal));
    assert_eq!(rows, [7; 36]);
}
