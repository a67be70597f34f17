//! Program starts, a line of digits each.

use crate::outcome::Outcome;
use crate::replay::{has_no_lines, refuse_line, Input};
use hivesaddle::Start;
use std::ffi::OsStr;

/// A line of 18 digits, run time and board, or of 26, with the stored hash of
/// the program's file behind them.
#[derive(Clone, Copy, Debug, PartialEq, Eq)]
pub struct StartLine {
    pub start: Start,
    pub stored_hash: Option<u32>,
}

/// One byte more than the longest line, so that a longer one is seen to be.
const MOST: usize = 28;

/// All starts of a file, of any number.
pub fn read(name: &OsStr) -> Result<Vec<StartLine>, Outcome> {
    let mut input = Input::open(name)?;
    let (mut starts, mut line) = (Vec::new(), Vec::new());
    loop {
        input.line(MOST as u64, &mut line)?;
        if line.is_empty() {
            break;
        }
        match start(&line) {
            Some(start) => starts.push(start),
            None => return Err(no_start(name, starts.len() + 1, &line)),
        }
    }
    input.end()?;
    if starts.is_empty() {
        has_no_lines(name);
    }
    Ok(starts)
}

fn no_start(name: &OsStr, number: usize, line: &[u8]) -> Outcome {
    let rule = "start, 18 or 26 digits 0-9 A-F and a line feed";
    refuse_line(name, number as u64, rule, line, MOST)
}

fn start(line: &[u8]) -> Option<StartLine> {
    let digits = line.strip_suffix(b"\n")?;
    let is_digit = |byte: &u8| matches!(byte, b'0'..=b'9' | b'A'..=b'F');
    let digits = digits.iter().all(is_digit).then_some(digits)?;
    let text = std::str::from_utf8(digits).ok()?;
    let stored_hash = match text.len() {
        18 => None,
        26 => Some(u32::from_str_radix(&text[18..], 16).ok()?),
        _ => return None,
    };
    let time = u64::from_str_radix(&text[..16], 16).ok()?;
    let board = u8::from_str_radix(&text[16..18], 16).ok()?;
    Some(StartLine { start: Start { time, board }, stored_hash })
}

/// The line of 26 digits for a start, without its line feed.
pub fn line(start: Start, stored_hash: u32) -> String {
    format!("{:016X}{:02X}{stored_hash:08X}", start.time, start.board)
}

#[cfg(test)]
mod tests {
    use super::*;

    #[test]
    fn lines_of_both_lengths() {
        let at = Start { time: 0x01DC_8388_D369_F600, board: 0xFE };
        let with = |stored_hash| Some(StartLine { start: at, stored_hash });
        assert_eq!(start(b"01DC8388D369F600FE\n"), with(None));
        assert_eq!(start(b"01DC8388D369F600FE978DAB15\n"), with(Some(0x978D_AB15)));
        assert_eq!(line(at, 0x978D_AB15), "01DC8388D369F600FE978DAB15");
    }

    #[test]
    fn all_else_is_no_start() {
        let bad = [
            "\n",
            "01DC8388D369F600FE",
            "01DC8388D369F600FE\r\n",
            "01dc8388D369F600FE\n",
            "+1DC8388D369F600FE\n",
            "01DC8388D369F600FE978DAB1\n",
            "01DC8388D369F600FE978DAB15",
            "01DC8388D369F600FE978DAB150\n",
        ];
        for line in bad {
            assert_eq!(start(line.as_bytes()), None, "{line:?}");
        }
    }
}
