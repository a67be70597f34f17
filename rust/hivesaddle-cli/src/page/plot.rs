//! The plot of the year's page: for each program a line from the lowest reading
//! to the highest, with the mean on it. Places are per cent of the width, so that
//! it fits a wide page and a narrow one.

use super::{key, tenths};
use crate::replay::degrees;
use crate::text::xml_text;
use crate::year::Line;
use hivesaddle::Readings;
use std::fmt::Write;

/// From tenths of a degree to per cent of the axis.
struct Axis {
    from: i64,
    to: i64,
    step: i64,
}

impl Axis {
    /// Some room around all readings, and a tick every 1, 2 or 5 and zeros, so
    /// that there are seven at most.
    fn around(lowest: i64, highest: i64) -> Axis {
        let room = (highest - lowest) / 50 + 1;
        let (from, to) = (lowest - room, highest + room);
        let mut steps = (0..5).flat_map(|zeros| [1, 2, 5].map(|digit| digit * 10i64.pow(zeros)));
        let step = steps.find(|step| (to - from) / step < 7).unwrap_or(10_000);
        Axis { from, to, step }
    }

    fn place(&self, tenths: i64) -> String {
        let place = 100.0 * (tenths - self.from) as f64 / (self.to - self.from) as f64;
        format!("{place:.2}%")
    }

    fn ticks(&self) -> impl Iterator<Item = (i64, &'static str)> + '_ {
        let first = -(-self.from).div_euclid(self.step) * self.step;
        let ticks = (first..=self.to).step_by(self.step as usize);
        ticks.map(|tenths| (tenths, if tenths == 0 { " class=\"zero\"" } else { "" }))
    }

    /// Whole degrees where all ticks are whole.
    fn label(&self, tenths: i64) -> String {
        match self.step % 10 {
            0 => (tenths / 10).to_string(),
            _ => degrees(tenths),
        }
    }
}

/// Rows from which on the axis stands below them too.
const LONG: usize = 20;

/// Nothing where no program has a reading.
pub fn plot(lines: &[Line], name: impl Fn(u32) -> String) -> String {
    let read: Vec<(&Line, Readings)> =
        lines.iter().filter_map(|line| Some((line, line.row.readings?))).collect();
    let is_long = read.len() >= LONG;
    let lowest = read.iter().map(|(_, readings)| readings.lowest).min();
    let highest = read.iter().map(|(_, readings)| readings.highest).max();
    let Some((lowest, highest)) = lowest.zip(highest) else {
        return String::new();
    };
    let axis = Axis::around(lowest.into(), highest.into());
    let mut out = String::from("<div class=\"plot\">\n");
    push_grid(&mut out, &axis);
    push_axis(&mut out, &axis, "axis");
    out.push_str("<ol>\n");
    for (line, readings) in read {
        push_row(&mut out, &axis, line, &name(line.row.stored_hash), &readings);
    }
    out.push_str("</ol>\n");
    if is_long {
        push_axis(&mut out, &axis, "axis below");
    }
    out.push_str("</div>\n");
    out
}

fn push_grid(out: &mut String, axis: &Axis) {
    out.push_str("<svg class=\"grid\" aria-hidden=\"true\">");
    for (tenths, class) in axis.ticks() {
        let x = axis.place(tenths);
        let _ = write!(out, "<line{class} x1=\"{x}\" x2=\"{x}\" y2=\"100%\"/>");
    }
    out.push_str("</svg>\n");
}

fn push_axis(out: &mut String, axis: &Axis, class: &str) {
    let _ = write!(out, "<div class=\"{class}\"><svg aria-hidden=\"true\">");
    let last = axis.ticks().last().map(|(tenths, _)| tenths);
    for (tenths, class) in axis.ticks() {
        // The unit stands once, where it is read last.
        let unit = if Some(tenths) == last { " \u{B0}C" } else { "" };
        let (x, label) = (axis.place(tenths), axis.label(tenths) + unit);
        let _ = write!(out, "<text{class} x=\"{x}\" y=\"18\">{label}</text>");
    }
    out.push_str("</svg></div>\n");
}

fn push_row(out: &mut String, axis: &Axis, line: &Line, name: &str, readings: &Readings) {
    let tenths = tenths(readings);
    let [low, mean, high] = tenths.map(|tenths| axis.place(tenths));
    let [lowest, middle, highest] = tenths.map(degrees);
    let (key, hash) = (key(line), line.row.stored_hash);
    let name = xml_text(name);
    let blank = if name.is_empty() { "" } else { " " };
    let board = line.board.map_or(String::new(), |board| format!("board {board} "));
    let _ = writeln!(
        out,
        "<li data-row=\"{key}\"><span title=\"{board}{name}\">{board}{name}{blank}\
         <span class=\"hash\">{hash:08X}</span></span>\
         <svg role=\"img\"><title>lowest {lowest}, mean {middle}, highest {highest}</title>\
         <line class=\"range\" x1=\"{low}\" x2=\"{high}\" y1=\"50%\" y2=\"50%\"/>\
         <circle class=\"mean\" cx=\"{mean}\" cy=\"50%\" r=\"4.5\"/></svg></li>"
    );
}

#[cfg(test)]
mod tests {
    use super::*;

    fn labels(lowest: i64, highest: i64) -> Vec<String> {
        let axis = Axis::around(lowest, highest);
        axis.ticks().map(|(tenths, _)| axis.label(tenths)).collect()
    }

    #[test]
    fn axes() {
        assert_eq!(labels(-205, 215), ["-20", "-10", "0", "10", "20"]);
        assert_eq!(labels(7, 7), ["0.6", "0.7", "0.8"]);
        assert_eq!(labels(-5, -5), ["-0.6", "-0.5", "-0.4"]);
        assert_eq!(labels(-2, 2), ["-0.3", "-0.2", "-0.1", "0.0", "0.1", "0.2", "0.3"]);
        assert_eq!(labels(601, 639), ["60", "61", "62", "63", "64"]);
        let widest = ["-3000", "-2000", "-1000", "0", "1000", "2000", "3000"];
        assert_eq!(labels(i16::MIN.into(), i16::MAX.into()), widest);
    }

    #[test]
    fn places() {
        let axis = Axis::around(-196, 196);
        let places = [-204, -196, 0, 102, 204].map(|tenths| axis.place(tenths));
        assert_eq!(places, ["0.00%", "1.96%", "50.00%", "75.00%", "100.00%"]);
    }
}
