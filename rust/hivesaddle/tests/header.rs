//! The crate's constants are those of the C header: the same names with the
//! same numbers, and none that only one of them has. The comparison in `tests/`
//! and the fuzzer's judge take theirs from the crate, the fuzzer's harness and
//! the C examples from the header.

use std::collections::BTreeMap;

const HEADER: &str = include_str!("../../../include/hivesaddle.h");
const CRATE: &str = include_str!("../src/constants.rs");

type Constants = BTreeMap<&'static str, u64>;

#[test]
fn header_and_crate_have_the_same_constants() {
    let (header, own) = (of_header(), of_crate());
    assert!(header.len() > 13, "the header's constants are not found: {header:?}");
    assert_eq!(header, own);
}

/// `HS_X = 1` of an enum, and `#define HS_X 1`.
fn of_header() -> Constants {
    HEADER
        .lines()
        .filter_map(|line| match line.strip_prefix("#define ") {
            Some(defined) => defined.split_once(' '),
            None => line.trim_start().split_once(" = "),
        })
        .filter(|(name, _)| name.starts_with("HS_"))
        .map(|(name, value)| (name, number(value)))
        .collect()
}

/// `pub const HS_X: type = 1;`
fn of_crate() -> Constants {
    CRATE
        .lines()
        .filter_map(|line| line.strip_prefix("pub const ")?.split_once(": "))
        .map(|(name, rest)| (name, number(rest.split_once(" = ").expect("a value").1)))
        .collect()
}

/// The digits that the text starts with.
fn number(text: &str) -> u64 {
    let digits = text.find(|c: char| !c.is_ascii_digit()).unwrap_or(text.len());
    text[..digits].parse().unwrap_or_else(|_| panic!("no number: {text}"))
}
