//! Files that are made to be slow: many entries name the same text, or many
//! volumes list the same directories, and each is looked at anew.

use crate::{age, head};
use hivesaddle::cost;
use std::fmt;

/// From how often on bytes that are looked at again are odd.
const FOLD: u64 = 16;
/// As many bytes as nobody has to wait for.
const QUICK: u64 = 268_435_456;

/// What makes a file slow, how often its bytes are looked at, and how long that
/// takes.
#[derive(Clone, Copy, Debug, PartialEq, Eq)]
pub struct Slow {
    what: &'static str,
    fold: u64,
    nanoseconds: u64,
}

impl Slow {
    /// None where a file is as quick as its size says. It is known without
    /// reading the file.
    pub fn of(file: &[u8]) -> Option<Slow> {
        let [strings, volumes] = [head::strings_size(file), head::volumes_size(file)];
        // No name and no volume costs more than its section has, so that of most
        // files it is known without a look at their entries.
        let names_at_most = head::metrics_count(file) * strings;
        if names_at_most.max(head::volume_count(file) * volumes) <= QUICK {
            return None;
        }
        let cost = cost(file)?;
        Slow::from([("names", cost.names, strings), ("directories", cost.directories, volumes)])
    }

    /// Of names and of directories: bytes that are looked at, and that are there.
    fn from(parts: [(&'static str, u64, u64); 2]) -> Option<Slow> {
        let overlaps = parts.iter().any(|(_, cost, size)| *cost > FOLD * size);
        let is_long = parts.iter().any(|(_, cost, _)| *cost > QUICK);
        if !(overlaps && is_long) {
            return None;
        }
        let fold = |part: &(&str, u64, u64)| part.1 / part.2.max(1);
        let [names, directories] = &parts;
        let worst = if fold(names) >= fold(directories) { names } else { directories };
        // As they were measured.
        let nanoseconds = names.1 + 2 * directories.1;
        Some(Slow { what: worst.0, fold: fold(worst), nanoseconds })
    }
}

impl fmt::Display for Slow {
    fn fmt(&self, f: &mut fmt::Formatter) -> fmt::Result {
        let Slow { what, fold, nanoseconds } = self;
        let time = age::shown(nanoseconds / 100);
        write!(f, "odd: its {what} overlap {fold}-fold; reading it would take about {time}")
    }
}

#[cfg(test)]
mod tests {
    use super::*;

    fn said(names: (u64, u64), directories: (u64, u64)) -> Option<String> {
        let slow = Slow::from([
            ("names", names.0, names.1),
            ("directories", directories.0, directories.1),
        ]);
        slow.map(|slow| slow.to_string())
    }

    #[test]
    fn bounds() {
        let size = QUICK / FOLD;
        assert_eq!(said((QUICK, 1), (0, 0)), None);
        assert_eq!(said((QUICK + 1, size + 1), (0, 0)), None);
        let about = "reading it would take about 1s";
        let expected =
            |what: &str, fold: u64| Some(format!("odd: its {what} overlap {fold}-fold; {about}"));
        assert_eq!(said((QUICK + 1, size), (0, 0)), expected("names", 16));
        assert_eq!(said((0, 0), (QUICK + 1, 1_000)), expected("directories", 268_435));
        // One overlaps and the other is long.
        assert_eq!(said((17, 1), (QUICK + 1, size + 1)), expected("names", 17));
    }

    #[test]
    fn times() {
        let hour = 3_600_000_000_000;
        let said = |names, directories| said((names, 1), (directories, 1)).unwrap();
        assert!(said(hour, 0).ends_with("about 1h 0m"));
        assert!(said(0, hour / 2 + 30_000_000_000).ends_with("about 1h 1m"));
    }
}
