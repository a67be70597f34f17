//! FILETIMEs: hundreds of nanoseconds since the start of 1601, UTC.

use hivesaddle::FileTime;
use std::time::SystemTime;

/// As ISO 8601, `2026-11-16T17:01:42.1234567Z`; none for 0, which Windows writes
/// where there is no time.
pub fn iso(filetime: u64) -> Option<String> {
    FileTime::new(filetime).map(|time| time.to_string())
}

/// The start of 1970 as a FILETIME.
const UNIX: u64 = 116_444_736_000_000_000;

/// Whole seconds since the start of 1970; 0 for what was before.
pub fn unix_seconds(filetime: u64) -> u64 {
    filetime.saturating_sub(UNIX) / 10_000_000
}

/// A time of this system as a FILETIME; none before 1970.
pub fn filetime(time: SystemTime) -> Option<u64> {
    let since = time.duration_since(SystemTime::UNIX_EPOCH).ok()?;
    u64::try_from(since.as_nanos() / 100).ok()?.checked_add(UNIX)
}

#[cfg(test)]
mod tests {
    use super::*;

    /// Days since the start of 1601, and the time of day in hundreds of nanoseconds.
    fn at(days: u64, ticks: u64) -> String {
        iso(days * 864_000_000_000 + ticks).unwrap()
    }

    #[test]
    fn times_that_are_known() {
        assert_eq!(iso(0), None);
        assert_eq!(iso(1).unwrap(), "1601-01-01T00:00:00.0000001Z");
        assert_eq!(iso(116_444_736_000_000_000).unwrap(), "1970-01-01T00:00:00.0000000Z");
        assert_eq!(iso(133_761_942_000_000_000).unwrap(), "2024-11-16T01:30:00.0000000Z");
        // What .NET shows for the largest that fits 63 bits.
        assert_eq!(iso(i64::MAX as u64).unwrap(), "30828-09-14T02:48:05.4775807Z");
        assert_eq!(iso(u64::MAX).unwrap(), "60056-05-28T05:36:10.9551615Z");
    }

    #[test]
    fn other_clocks() {
        let seconds = [0, UNIX, UNIX + 9_999_999, UNIX + 10_000_000].map(unix_seconds);
        assert_eq!(seconds, [0, 0, 0, 1]);
        assert_eq!(filetime(SystemTime::UNIX_EPOCH), Some(UNIX));
    }

    #[test]
    fn leap_days_and_ends_of_years() {
        let last = 863_999_999_999;
        assert_eq!(at(364, last), "1601-12-31T23:59:59.9999999Z");
        assert_eq!(at(365, 0), "1602-01-01T00:00:00.0000000Z");
        // 1604 has a leap day, 1700 has none, 2000 has one.
        assert_eq!(at(3 * 365 + 59, 0), "1604-02-29T00:00:00.0000000Z");
        assert_eq!(at(36_217, last), "1700-02-28T23:59:59.9999999Z");
        assert_eq!(at(36_218, 0), "1700-03-01T00:00:00.0000000Z");
        assert_eq!(at(145_790, 0), "2000-02-29T00:00:00.0000000Z");
        assert_eq!(at(146_096, last), "2000-12-31T23:59:59.9999999Z");
        assert_eq!(at(146_097, 0), "2001-01-01T00:00:00.0000000Z");
    }
}
