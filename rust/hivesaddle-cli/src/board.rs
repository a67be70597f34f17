//! `BOARD=FOLDER`: files, and the board that they were taken from.

use crate::args::input_once;
use crate::text;
use std::ffi::{OsStr, OsString};

/// Files named on the command line, with their board where it is said.
#[derive(Clone, Debug, PartialEq, Eq)]
pub struct Source {
    pub board: Option<u8>,
    pub name: OsString,
}

/// A number and `=` before a name is a board. Anything else is a plain name, and
/// so is `./3=x`.
pub fn source(operand: &OsStr) -> Result<Source, String> {
    let parts = operand.to_str().and_then(|operand| operand.split_once('='));
    let is_number =
        |digits: &str| !digits.is_empty() && digits.bytes().all(|byte| byte.is_ascii_digit());
    match parts.filter(|parts| is_number(parts.0)) {
        None => Ok(Source { board: None, name: operand.to_owned() }),
        Some((board, name)) => match board.parse() {
            Ok(board) if !name.is_empty() => Ok(Source { board: Some(board), name: name.into() }),
            _ => Err(no_board(operand)),
        },
    }
}

/// All of them; standard input once.
pub fn sources(operands: &[OsString]) -> Result<Vec<Source>, String> {
    let sources: Vec<Source> =
        operands.iter().map(|operand| source(operand)).collect::<Result<_, String>>()?;
    input_once(sources.iter().map(|source| &source.name))?;
    Ok(sources)
}

/// As [`sources`], where each has to have a board.
pub fn sources_of_boards(operands: &[OsString]) -> Result<Vec<Source>, String> {
    let sources = sources(operands)?;
    match sources.iter().position(|source| source.board.is_none()) {
        Some(i) => Err(no_board(&operands[i])),
        None => Ok(sources),
    }
}

fn no_board(operand: &OsStr) -> String {
    let operand = text::shown_name(operand);
    format!("{operand} is not BOARD=FILE with a board from 0 to 255, as in 3=FOLDER")
}

#[cfg(test)]
mod tests {
    use super::*;

    #[test]
    fn boards_and_plain_names() {
        let of = |text: &str| source(text.as_ref()).ok().map(|s| (s.board, s.name));
        assert_eq!(of("3=x"), Some((Some(3), "x".into())));
        assert_eq!(of("003=a=b"), Some((Some(3), "a=b".into())));
        for plain in ["x", "./3=x", "=x", "+3=x", "a=b", "-"] {
            assert_eq!(of(plain), Some((None, plain.into())));
        }
        assert_eq!((of("256=x"), of("3=")), (None, None));
    }
}
