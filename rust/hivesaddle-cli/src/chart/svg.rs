//! The loading chart as a picture. Places are per cent of the width, and texts
//! keep their size, so that it can be read on a wide screen and on a narrow one.

use super::rows::{has_chains, Chart, Row};
use crate::text::xml_text;
use std::fmt::Write;

/// Where the first row begins.
const TOP: u64 = 92;
/// A line of text, and the map below it.
const ROW: u64 = 36;
/// Below the last row: the caption.
const BELOW: u64 = 112;
/// Parts of a map that are told apart.
const PARTS: u64 = 400;
/// Characters of a name's end that fit a narrow screen.
const LABEL: usize = 40;
/// Characters of a name that are kept to be read by pointing at it.
const FULL: usize = 512;

const STYLE: &str = "\
text{font:12px system-ui,sans-serif;fill:#5b6270}\
.title{font-size:18px;font-weight:600;fill:#1b1f27}\
.name{font:11px ui-monospace,Menlo,Consolas,monospace;fill:#1b1f27}\
.left{font-style:italic}\
.count{font-variant-numeric:tabular-nums;text-anchor:end}\
.paper{fill:#fff}.ground{fill:#8a92a0;fill-opacity:.14}.marks{fill:#2f6db5}\
@media(prefers-color-scheme:dark){text{fill:#a3abb8}.title,.name{fill:#e8ebf0}\
.paper{fill:#14171c}.marks{fill:#6ea8e8}}";

/// The picture of a file with this program name, fit to show.
pub fn svg(chart: &Chart, program: &str) -> String {
    let height = TOP + ROW * chart.rows.len() as u64 + BELOW;
    let title = xml_text(&shortened(program, FULL));
    let mut out = format!(
        "<svg xmlns=\"http://www.w3.org/2000/svg\" width=\"100%\" height=\"{height}\" \
         role=\"img\" aria-labelledby=\"t\">\n\
         <title id=\"t\">Loading chart of {title}</title>\n<style>{STYLE}</style>\n\
         <rect class=\"paper\" width=\"100%\" height=\"100%\"/>\n\
         <text class=\"title\" x=\"12\" y=\"30\">{title}</text>\n\
         <text x=\"12\" y=\"52\">{}</text>\n",
        counts(chart),
    );
    if !chart.start.is_empty() {
        let start = xml_text(&end_of(&chart.start, LABEL));
        let _ = writeln!(out, "<text x=\"12\" y=\"72\">all in {start}</text>");
    }
    for (i, row) in chart.rows.iter().enumerate() {
        push_row(&mut out, &chart.start, row, TOP + ROW * i as u64);
    }
    push_caption(&mut out, chart, height);
    out.push_str("</svg>\n");
    out
}

fn counts(chart: &Chart) -> String {
    let record = &chart.record;
    let files = several(record.metrics_count.into(), "file", "files");
    let mut entries = several(record.trace_count.into(), "trace entry", "trace entries");
    if has_chains(record) {
        entries += &format!(" in {}", several(record.chain_count.into(), "chain", "chains"));
    }
    format!("Version {} \u{B7} {files} \u{B7} {entries}", record.version)
}

/// A number of things, one or more.
pub fn several(count: u64, one: &str, more: &str) -> String {
    format!("{} {}", grouped(count), if count == 1 { one } else { more })
}

/// A number with a comma before each three digits.
pub fn grouped(number: u64) -> String {
    let digits = number.to_string();
    let mut text = String::new();
    for (i, digit) in digits.chars().enumerate() {
        if i > 0 && (digits.len() - i) % 3 == 0 {
            text.push(',');
        }
        text.push(digit);
    }
    text
}

fn push_row(out: &mut String, start: &str, row: &Row, top: u64) {
    let entries = several(row.entries as u64, "trace entry", "trace entries");
    let full = xml_text(&shortened(&row.name, FULL));
    let (kind, end) = match row.positions {
        Some(_) => ("", row.name.strip_prefix(start).unwrap_or(&row.name)),
        None => (" left", &*row.name),
    };
    let label = xml_text(&end_of(end, LABEL));
    let greatest = row.positions.iter().flatten().max();
    let to = greatest.map_or(String::new(), |last| format!(", up to {}", grouped((*last).into())));
    let base = top + 13;
    let _ = write!(
        out,
        "<g><title>{full}: {entries}{to}</title>\
         <text class=\"name{kind}\" x=\"12\" y=\"{base}\">{label}</text>\
         <svg x=\"-12\" width=\"100%\"><text class=\"count\" x=\"100%\" y=\"{base}\">{}</text></svg>",
        grouped(row.entries as u64),
    );
    if let (Some(positions), Some(&last)) = (&row.positions, greatest) {
        let path: String = marks(positions, last).into_iter().map(mark).collect();
        let map = top + 19;
        let _ = write!(
            out,
            "<svg x=\"1%\" width=\"98%\" y=\"{map}\" height=\"9\" viewBox=\"0 0 {PARTS} 9\" \
             preserveAspectRatio=\"none\"><rect class=\"ground\" width=\"{PARTS}\" height=\"9\"/>\
             <path class=\"marks\" d=\"{path}\"/></svg>",
        );
    }
    out.push_str("</g>\n");
}

fn mark((from, to): (u64, u64)) -> String {
    let width = to - from;
    format!("M{from} 0h{width}v9h-{width}z")
}

/// The parts of the map in which entries lie, those next to each other as one.
/// The row's greatest position lies in its last part.
fn marks(positions: &[u32], last: u32) -> Vec<(u64, u64)> {
    let part = |position: u32| u64::from(position) * (PARTS - 1) / u64::from(last.max(1));
    let mut parts: Vec<u64> = positions.iter().map(|&position| part(position)).collect();
    parts.sort_unstable();
    let mut marks: Vec<(u64, u64)> = Vec::new();
    for part in parts {
        match marks.last_mut() {
            Some((_, end)) if part <= *end => *end = (*end).max(part + 1),
            _ => marks.push((part, part + 1)),
        }
    }
    marks
}

const CAPTION: [&str; 4] = [
    "A row is a file that the program loaded, with its",
    "number of trace entries. The map shows where in the",
    "file they lie, each row on a scale of its own: from 0",
    "to the greatest position of that row.",
];
const CHAINS: &str = "The first chain is the first file's, and so on.";
const NO_CHAINS: &str = "Version 30 has no chains: each file names its entries.";

fn push_caption(out: &mut String, chart: &Chart, height: u64) {
    let order = if has_chains(&chart.record) { CHAINS } else { NO_CHAINS };
    for (i, line) in CAPTION.into_iter().chain([order]).enumerate() {
        let y = height - BELOW + 26 + 17 * i as u64;
        let _ = writeln!(out, "<text x=\"12\" y=\"{y}\">{line}</text>");
    }
}

/// At most so many characters: of a longer text its start and, as a path says
/// most there, more of its end.
fn shortened(text: &str, most: usize) -> String {
    let count = text.chars().count();
    if count <= most {
        return text.to_string();
    }
    let start = most / 3;
    let end = most - start - 1;
    let first = text.chars().take(start);
    first.chain(['\u{2026}']).chain(text.chars().skip(count - end)).collect()
}

/// Of a longer text its end alone.
fn end_of(text: &str, most: usize) -> String {
    let count = text.chars().count();
    if count <= most {
        return text.to_string();
    }
    std::iter::once('\u{2026}').chain(text.chars().skip(count - most + 1)).collect()
}

#[cfg(test)]
mod tests {
    use super::*;

    #[test]
    fn a_map_from_0_to_the_greatest_position() {
        assert_eq!(marks(&[0], 0), [(0, 1)]);
        assert_eq!(marks(&[7], 7), [(399, 400)]);
        assert_eq!(marks(&[0, 399, 200, 201], 399), [(0, 1), (200, 202), (399, 400)]);
        assert_eq!(marks(&[u32::MAX, 0, u32::MAX], u32::MAX), [(0, 1), (399, 400)]);
        let all: Vec<u32> = (0..1_000_000).collect();
        assert_eq!(marks(&all, 999_999), [(0, 400)]);
        assert_eq!(mark((3, 5)), "M3 0h2v9h-2z");
    }

    #[test]
    fn long_names() {
        assert_eq!(shortened("abcdefghij", 10), "abcdefghij");
        assert_eq!(shortened("abcdefghijk", 10), "abc\u{2026}fghijk");
        assert_eq!(end_of("abcdefghij", 10), "abcdefghij");
        assert_eq!(end_of("abcdefghijk", 10), "\u{2026}cdefghijk");
        assert_eq!(grouped(0), "0");
        assert_eq!(grouped(u64::MAX), "18,446,744,073,709,551,615");
    }
}
