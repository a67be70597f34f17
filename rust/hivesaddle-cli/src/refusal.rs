//! The readers' refusals in words, which the crate has.

use hivesaddle::{Refusal, RefusalWords};

/// As `refused 12 3 at 0x1A4: two trace entries or more lead to trace entry 3`.
/// The command meets no others, and has no words for them.
pub fn line(file: &[u8], refusal: Refusal) -> String {
    let Refusal { number, index, offset } = refusal;
    match number {
        1..=17 | 21 => refusal.line(file).to_string(),
        _ => format!("refused {number} {index} at {offset:#X}: no meaning is known"),
    }
}

pub fn words(file: &[u8], refusal: Refusal) -> RefusalWords {
    refusal.words(file)
}

#[cfg(test)]
mod tests {
    use super::*;

    fn said(number: u32, index: u64) -> String {
        line(b"\x17\0\0\0SCCA", Refusal { number, index, offset: 420 })
    }

    #[test]
    fn words_name_what_the_index_counts() {
        assert_eq!(said(6, 3), "refused 6 3 at 0x1A4: section 3, the strings, lies on another");
        assert_eq!(
            said(13, 7),
            "refused 13 7 at 0x1A4: the links from trace entry 7 lead back to it"
        );
    }

    #[test]
    fn words_for_what_is_no_plain_prefetch_file() {
        let refusal = Refusal { number: 1, index: 0, offset: 0 };
        let packed = "refused 1: compressed (MAM); unpack it first, with another tool";
        assert_eq!(line(b"MAM\x04", refusal), packed);
        assert_eq!(words(b"version 23\n", refusal).advice, "this is no Prefetch file");
        assert_eq!(words(b"\x18\0\0\0SCCA", refusal).advice, "take another tool");
    }

    #[test]
    fn every_refusal_of_the_reader_has_words() {
        for number in (1..=17).chain([21]) {
            assert!(!said(number, 1).contains("no meaning"));
        }
        assert_eq!(said(18, 9), "refused 18 9 at 0x1A4: no meaning is known");
    }
}
