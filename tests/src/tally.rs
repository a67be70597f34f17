//! Counts the comparisons of a group and shows the first that fail.

use std::fmt::Debug;

/// Failing inputs shown for each group.
const SHOWN: u64 = 5;
/// Bytes of one failing input shown.
const HEX_LIMIT: usize = 4096;

pub struct Tally {
    pub group: &'static str,
    pub passed: u64,
    pub failed: u64,
}

impl Tally {
    pub fn new(group: &'static str) -> Tally {
        Tally { group, passed: 0, failed: 0 }
    }

    /// One comparison. The input is only put into words where it failed.
    pub fn same<T: PartialEq + Debug + ?Sized>(
        &mut self,
        what: &str,
        expected: &T,
        given: &T,
        input: impl FnOnce() -> String,
    ) {
        if expected == given {
            self.passed += 1;
            return;
        }
        self.failed += 1;
        if self.failed <= SHOWN {
            // in one piece, since groups run beside each other
            println!(
                "FAILED {}: {what}\n  expected {}\n  given    {}\n  input    {}",
                self.group,
                cut(format!("{expected:?}")),
                cut(format!("{given:?}")),
                input()
            );
        }
    }

    /// A named case with an answer that the papers give as a number.
    pub fn named<T: PartialEq + Debug + ?Sized>(&mut self, name: &str, expected: &T, given: &T) {
        self.same(name, expected, given, || name.to_string());
    }

    /// Something that has to hold.
    pub fn holds(&mut self, what: &str, holds: bool, input: impl FnOnce() -> String) {
        self.same(what, &true, &holds, input);
    }
}

/// How often each kind of case has come up, of the kinds that have to.
pub struct Kinds {
    group: &'static str,
    counts: Vec<(String, u64)>,
}

impl Kinds {
    pub fn new(group: &'static str, kinds: &[&str]) -> Kinds {
        Kinds { group, counts: kinds.iter().map(|kind| (kind.to_string(), 0)).collect() }
    }

    /// The same kind for each of these.
    pub fn with_each(mut self, kind: &str, each: impl IntoIterator<Item = u64>) -> Kinds {
        self.counts.extend(each.into_iter().map(|one| (format!("{kind} {one}"), 0)));
        self
    }

    /// One more, where it is of that kind.
    pub fn note(&mut self, kind: &str, is_so: bool) {
        let known = self.counts.iter_mut().find(|(name, _)| name == kind);
        known.unwrap_or_else(|| panic!("no kind {kind}")).1 += u64::from(is_so);
    }

    pub fn note_each(&mut self, kind: &str, one: u64) {
        self.note(&format!("{kind} {one}"), true);
    }

    /// Each kind has to have come up so often.
    pub fn report(&self, tally: &mut Tally, least: u64) {
        let shown = self.counts.iter().map(|(name, count)| format!("{name}: {count}"));
        println!("{}: {}", self.group, shown.collect::<Vec<String>>().join(", "));
        for (name, count) in &self.counts {
            let what = format!("{}: {name} has come up often", self.group);
            tally.named(&what, &true, &(*count >= least));
        }
    }
}

fn cut(mut text: String) -> String {
    if text.len() > 2 * HEX_LIMIT {
        text.truncate(2 * HEX_LIMIT);
        text.push_str("...");
    }
    text
}

/// The bytes as hex, with their number in front.
pub fn hex(bytes: &[u8]) -> String {
    let mut text = format!("{} bytes ", bytes.len());
    for byte in bytes.iter().take(HEX_LIMIT) {
        text.push_str(&format!("{byte:02x}"));
    }
    if bytes.len() > HEX_LIMIT {
        text.push_str("...");
    }
    text
}

/// A list of 32-bit numbers as hex, with their count in front.
pub fn hex_numbers(numbers: &[u32]) -> String {
    let mut text = format!("{} numbers", numbers.len());
    for number in numbers.iter().take(HEX_LIMIT / 4) {
        text.push_str(&format!(" {number:08x}"));
    }
    if numbers.len() > HEX_LIMIT / 4 {
        text.push_str(" ...");
    }
    text
}
