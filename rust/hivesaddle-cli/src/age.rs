//! How old a reading is at a start, in hundreds of nanoseconds as FILETIMEs are.

const SECOND: u64 = 10_000_000;
pub const HOUR: u64 = 3_600 * SECOND;

/// The units, with their seconds.
const UNITS: [(char, u64); 4] = [('d', 86_400), ('h', 3_600), ('m', 60), ('s', 1)];

/// As `90m`: a number, and s, m, h or d.
pub fn parse(text: &str) -> Result<u64, String> {
    let wrong = || format!("--within is followed by a number and s, m, h or d, not by {text}");
    let unit = UNITS.iter().find(|(letter, _)| text.ends_with(*letter)).ok_or_else(wrong)?;
    let digits = &text[..text.len() - 1];
    // A plus sign would pass as part of a number.
    let digits = digits.bytes().all(|byte| byte.is_ascii_digit()).then_some(digits);
    let number: u64 = digits.and_then(|digits| digits.parse().ok()).ok_or_else(wrong)?;
    // More than there are FILETIMEs is any age.
    Ok(number.saturating_mul(unit.1).saturating_mul(SECOND))
}

/// Whole seconds, the last one begun.
pub fn seconds(age: u64) -> u64 {
    age.div_ceil(SECOND)
}

/// As `3d 4h`: its two greatest units.
pub fn shown(age: u64) -> String {
    let seconds = seconds(age);
    let first = UNITS.iter().position(|(_, unit)| *unit <= seconds).unwrap_or(UNITS.len() - 1);
    let part = |i: usize| {
        let above = i.checked_sub(1).map_or(seconds, |above| seconds % UNITS[above].1);
        format!("{}{}", above / UNITS[i].1, UNITS[i].0)
    };
    match first + 1 < UNITS.len() {
        true => format!("{} {}", part(first), part(first + 1)),
        false => part(first),
    }
}

#[cfg(test)]
mod tests {
    use super::*;

    #[test]
    fn ages() {
        assert_eq!(parse("90m"), Ok(90 * 60 * SECOND));
        assert_eq!((parse("1h"), parse("0s"), parse("2d")), (Ok(HOUR), Ok(0), Ok(48 * HOUR)));
        assert_eq!(parse("99999999999999d"), Ok(u64::MAX));
        for wrong in ["", "h", "5", "+5h", "5 h", "1.5h", "5w"] {
            assert!(parse(wrong).is_err(), "{wrong}");
        }
        let shown = [0, 1, 59, 60, 3_599, 3_600, 90_000].map(|s: u64| shown(s * SECOND));
        assert_eq!(shown, ["0s", "1s", "59s", "1m 0s", "59m 59s", "1h 0m", "1d 1h"]);
        assert_eq!(super::shown(SECOND + 1), "2s");
    }
}
