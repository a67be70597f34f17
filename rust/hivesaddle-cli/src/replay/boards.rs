//! Which boards a recording has readings of, so that a wrong board number among
//! the starts is not taken for a board that nobody looked at.

use crate::outcome::complain;
use hivesaddle::Start;
use std::collections::BTreeSet;
use std::ffi::OsStr;

/// Bytes of a reading's line, and where its board stands, two digits.
const LINE: usize = 23;
const PLACE: usize = 16;
/// Boards that are named.
const MOST: usize = 16;

/// What has come of a recording whose lines are all readings.
#[derive(Default)]
pub struct Boards {
    digits: BTreeSet<[u8; 2]>,
    /// How much of the next line has come, and the first digit of its board.
    begun: usize,
    first: u8,
}

impl Boards {
    pub fn feed(&mut self, piece: &[u8]) {
        // The second digit may stand in the next piece.
        if self.begun == PLACE + 1 {
            self.digits.extend(piece.first().map(|&second| [self.first, second]));
        }
        let mut last = None;
        for at in ((PLACE + LINE - self.begun) % LINE..piece.len()).step_by(LINE) {
            self.first = piece[at];
            let digits = piece.get(at + 1).map(|&second| [self.first, second]);
            // Boards follow each other for long stretches.
            if digits != last {
                self.digits.extend(digits);
                last = digits;
            }
        }
        self.begun = (self.begun + piece.len()) % LINE;
    }

    fn numbers(&self) -> BTreeSet<u8> {
        let number =
            |digits: &[u8; 2]| u8::from_str_radix(std::str::from_utf8(digits).ok()?, 16).ok();
        self.digits.iter().filter_map(number).collect()
    }

    /// Names the boards of the starts that have no reading at all.
    pub fn warn(&self, recording: &OsStr, starts: &[Start]) {
        let there = self.numbers();
        let wanted: BTreeSet<u8> = starts.iter().map(|start| start.board).collect();
        let missing: BTreeSet<u8> = wanted.difference(&there).copied().collect();
        if !missing.is_empty() {
            let (missing, there) = (named(&missing), named(&there));
            complain(
                recording,
                format_args!("has no reading of {missing}, which has starts; it has {there}"),
            );
        }
    }
}

fn named(boards: &BTreeSet<u8>) -> String {
    let numbers: Vec<String> = boards.iter().take(MOST).map(u8::to_string).collect();
    let more = if boards.len() > MOST { " .." } else { "" };
    let board = if boards.len() == 1 { "board" } else { "boards" };
    format!("{board} {}{more}", numbers.join(", "))
}

#[cfg(test)]
mod tests {
    use super::*;

    #[test]
    fn in_pieces_of_any_length() {
        let line = |board: u8| format!("0000000000000005{board:02X}FF38\n");
        let recording: String = [3, 3, 255, 7, 0].map(line).concat();
        for length in 1..=recording.len() {
            let mut boards = Boards::default();
            recording.as_bytes().chunks(length).for_each(|piece| boards.feed(piece));
            assert_eq!(boards.numbers(), BTreeSet::from([0, 3, 7, 255]), "{length}");
        }
    }

    #[test]
    fn names() {
        assert_eq!(named(&BTreeSet::from([3])), "board 3");
        assert_eq!(named(&BTreeSet::from([7, 3])), "boards 3, 7");
        assert!(named(&(0..=255).collect()).ends_with("14, 15 .."));
    }
}
