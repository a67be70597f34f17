//! FILETIMEs as times and as dates.

use core::fmt;
use core::num::NonZeroU64;

#[cfg(feature = "std")]
use std::time::{Duration, SystemTime};

/// Hundreds of nanoseconds in a second.
const SECOND: u64 = 10_000_000;

/// A FILETIME: hundreds of nanoseconds since the start of 1601, UTC. It is never
/// 0, which Windows writes where there is no time, so an `Option` of it takes no
/// more room.
///
/// Shown with `{}` it is a date and time of ISO 8601, with all seven digits
/// behind the seconds. The last year is 60056, and has five digits.
///
/// ```
/// use hivesaddle::FileTime;
/// let time = FileTime::new(133_761_942_000_000_000).unwrap();
/// assert_eq!(time.to_string(), "2024-11-16T01:30:00.0000000Z");
/// assert_eq!(FileTime::new(0), None);
/// ```
#[derive(Clone, Copy, Debug, PartialEq, Eq, PartialOrd, Ord, Hash)]
pub struct FileTime(NonZeroU64);

impl FileTime {
    /// The time in a field as it stands, such as those of [`crate::Record`] and
    /// [`crate::Volume`]; none for 0.
    pub const fn new(filetime: u64) -> Option<FileTime> {
        match NonZeroU64::new(filetime) {
            Some(ticks) => Some(FileTime(ticks)),
            None => None,
        }
    }

    /// The FILETIME as it stands.
    pub const fn ticks(self) -> u64 {
        self.0.get()
    }

    /// The same as a time of this system. None where the system has no such
    /// time; Linux has all of them.
    ///
    /// ```
    /// use hivesaddle::FileTime;
    /// use std::time::{Duration, UNIX_EPOCH};
    /// let time = |filetime| FileTime::new(filetime).unwrap().system_time();
    /// let start_of_1970 = 116_444_736_000_000_000;
    /// assert_eq!(time(start_of_1970), Some(UNIX_EPOCH));
    /// assert_eq!(time(start_of_1970 + 1), Some(UNIX_EPOCH + Duration::from_nanos(100)));
    /// assert_eq!(time(start_of_1970 - 1), Some(UNIX_EPOCH - Duration::from_nanos(100)));
    /// ```
    #[cfg(feature = "std")]
    pub fn system_time(self) -> Option<SystemTime> {
        /// The start of 1970.
        const UNIX: u64 = 11_644_473_600 * SECOND;
        let ticks = self.ticks().abs_diff(UNIX);
        // Below 1,000,000,000 nanoseconds, which 32 bits hold.
        let apart = Duration::new(ticks / SECOND, (ticks % SECOND) as u32 * 100);
        match self.ticks() < UNIX {
            true => SystemTime::UNIX_EPOCH.checked_sub(apart),
            false => SystemTime::UNIX_EPOCH.checked_add(apart),
        }
    }
}

impl fmt::Display for FileTime {
    fn fmt(&self, f: &mut fmt::Formatter) -> fmt::Result {
        let (seconds, ticks) = (self.ticks() / SECOND, self.ticks() % SECOND);
        let (year, month, day) = date(seconds / 86_400);
        let (hour, minute, second) = (seconds / 3_600 % 24, seconds / 60 % 60, seconds % 60);
        write!(f, "{year}-{month:02}-{day:02}T{hour:02}:{minute:02}:{second:02}.{ticks:07}Z")
    }
}

/// Year, month and day of a day counted from the start of 1601. The calendar
/// repeats after 400 years, and 1601 begins such a span.
fn date(days: u64) -> (u64, u64, u64) {
    const FOUR_CENTURIES: u64 = 146_097;
    let mut year = 1601 + 400 * (days / FOUR_CENTURIES);
    let mut left = days % FOUR_CENTURIES;
    while left >= days_of_year(year) {
        left -= days_of_year(year);
        year += 1;
    }
    let mut month = 1;
    while left >= days_of_month(year, month) {
        left -= days_of_month(year, month);
        month += 1;
    }
    (year, month, left + 1)
}

fn is_leap(year: u64) -> bool {
    year % 4 == 0 && (year % 100 != 0 || year % 400 == 0)
}

fn days_of_year(year: u64) -> u64 {
    if is_leap(year) {
        366
    } else {
        365
    }
}

fn days_of_month(year: u64, month: u64) -> u64 {
    match month {
        2 if is_leap(year) => 29,
        2 => 28,
        4 | 6 | 9 | 11 => 30,
        _ => 31,
    }
}

#[cfg(all(test, feature = "std"))]
mod tests {
    use super::*;
    use std::string::{String, ToString};

    fn iso(filetime: u64) -> String {
        FileTime::new(filetime).unwrap().to_string()
    }

    /// Days since the start of 1601, and the time of day in hundreds of nanoseconds.
    fn at(days: u64, ticks: u64) -> String {
        iso(days * 864_000_000_000 + ticks)
    }

    #[test]
    fn times_that_are_known() {
        assert_eq!(iso(1), "1601-01-01T00:00:00.0000001Z");
        assert_eq!(iso(116_444_736_000_000_000), "1970-01-01T00:00:00.0000000Z");
        assert_eq!(iso(133_761_942_000_000_000), "2024-11-16T01:30:00.0000000Z");
        // What .NET shows for the largest that fits 63 bits.
        assert_eq!(iso(i64::MAX as u64), "30828-09-14T02:48:05.4775807Z");
        assert_eq!(iso(u64::MAX), "60056-05-28T05:36:10.9551615Z");
    }

    #[test]
    fn leap_days_and_ends_of_years() {
        let last = 863_999_999_999;
        assert_eq!(at(364, last), "1601-12-31T23:59:59.9999999Z");
        assert_eq!(at(365, 0), "1602-01-01T00:00:00.0000000Z");
        // 1604 has a leap day, 1700 has none, 2000 has one.
        assert_eq!(at(3 * 365 + 59, 0), "1604-02-29T00:00:00.0000000Z");
        assert_eq!(at(36_217, last), "1700-02-28T23:59:59.9999999Z");
        assert_eq!(at(36_218, 0), "1700-03-01T00:00:00.0000000Z");
        assert_eq!(at(145_790, 0), "2000-02-29T00:00:00.0000000Z");
        assert_eq!(at(146_096, last), "2000-12-31T23:59:59.9999999Z");
        assert_eq!(at(146_097, 0), "2001-01-01T00:00:00.0000000Z");
    }

    #[test]
    fn times_of_the_system() {
        let unix = SystemTime::UNIX_EPOCH;
        let time = |filetime| FileTime::new(filetime).unwrap().system_time().unwrap();
        let first = unix - Duration::from_secs(11_644_473_600);
        assert_eq!(time(1), first + Duration::from_nanos(100));
        assert_eq!(time(SECOND), first + Duration::from_secs(1));
        let last = Duration::new(u64::MAX / SECOND, (u64::MAX % SECOND) as u32 * 100);
        assert_eq!(time(u64::MAX), first + last);
    }
}
