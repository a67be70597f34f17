//! The year's page: one file that needs no other, with the table and a plot.

mod plot;

use crate::age::{self, HOUR};
use crate::chart::{grouped, several};
use crate::replay::degrees;
use crate::text::xml_text;
use crate::time;
use crate::year::Line;
use hivesaddle::Readings;
use std::collections::BTreeSet;
use std::fmt::Write;

pub struct Page<'a> {
    pub lines: &'a [Line],
    /// The name of a hash, fit to show; empty where none is known.
    pub name: &'a dyn Fn(u32) -> String,
    /// The first and the last start.
    pub times: Option<(u64, u64)>,
}

const STYLE: &str = include_str!("page/page.css");
const SCRIPT: &str = include_str!("page/page.js");

/// Nothing is fetched, and nothing may be.
const HEAD: &str = "\
<!DOCTYPE html>
<html lang=\"en\">
<head>
<meta charset=\"utf-8\">
<meta name=\"viewport\" content=\"width=device-width, initial-scale=1\">
<meta http-equiv=\"Content-Security-Policy\" \
content=\"default-src 'none'; style-src 'unsafe-inline'; script-src 'unsafe-inline'\">
<title>The year: programs and temperatures</title>
";

const KEY: &str = "\
<p class=\"soft key\"><svg aria-hidden=\"true\"><line class=\"range\" x1=\"4%\" x2=\"96%\" \
y1=\"50%\" y2=\"50%\"/><circle class=\"mean\" cx=\"45%\" cy=\"50%\" r=\"4.5\"/></svg> \
From the lowest reading to the highest at a program's starts, in \u{B0}C; the dot is the mean. \
The <a href=\"#table\">table</a> has the numbers, and the plot is in its order.</p>
";

const MEAN: &str = "\
<p class=\"soft\">Lowest, mean and highest are in \u{B0}C, over the readings at the program's \
starts: for each start, the last reading of its board up to then. Readings counts the starts that \
have one; two starts may have the same. The mean is their sum divided by their number, rounded \
down to a tenth of a degree, below zero too. Files and runs are those of the catalogue. Oldest is \
the greatest age that a reading had at its start. A program without a reading shows none.</p>
";

impl Page<'_> {
    pub fn html(&self) -> String {
        let mut out = String::from(HEAD);
        let _ = writeln!(out, "<style>\n{STYLE}</style>\n</head>\n<body>");
        self.push_summary(&mut out);
        self.push_plot(&mut out);
        self.push_table(&mut out);
        let _ = writeln!(out, "<script>\n{SCRIPT}</script>");
        out.push_str("</body>\n</html>\n");
        out
    }

    fn push_summary(&self, out: &mut String) {
        let starts = match self.times.map(|(first, last)| (date(first), date(last))) {
            Some((first, last)) if first == last => format!("Starts on {first}, UTC"),
            Some((first, last)) => format!("Starts from {first} to {last}, UTC"),
            None => "No starts".to_string(),
        };
        let rows = || self.lines.iter().map(|line| &line.row);
        let programs: BTreeSet<u32> = rows().map(|row| row.stored_hash).collect();
        let readings = rows().filter_map(|row| row.readings).map(|r| r.count).sum();
        let counts = [
            ("Programs", programs.len() as u64),
            ("Files", rows().map(|row| row.lines).sum()),
            ("Runs", rows().map(|row| row.run_counts).sum()),
            ("Starts with a reading", readings),
        ];
        let _ = writeln!(out, "<h1>The year: programs and temperatures</h1>");
        let _ = writeln!(out, "<p class=\"soft\">{starts}</p>\n<dl class=\"counts\">");
        for (title, count) in counts {
            let _ = writeln!(out, "<div><dt>{title}</dt><dd>{}</dd></div>", grouped(count));
        }
        out.push_str("</dl>\n");
    }

    fn push_plot(&self, out: &mut String) {
        let without = self.lines.iter().filter(|line| line.row.readings.is_none()).count();
        out.push_str("<h2>How cold and how warm</h2>\n");
        if without == self.lines.len() {
            out.push_str("<p class=\"soft\">No program has a reading.</p>\n");
            return;
        }
        out.push_str(KEY);
        if without > 0 {
            let programs = several(without as u64, "program", "programs");
            let only = format!("Only in the table: {programs} without a reading.");
            let _ = writeln!(out, "<p class=\"soft\">{only}</p>");
        }
        self.push_late(out);
        out.push_str(&plot::plot(self.lines, self.name));
    }

    /// An old reading may say little about a start.
    fn push_late(&self, out: &mut String) {
        let late = self.lines.iter().filter(|line| line.oldest > Some(HOUR)).count();
        if late > 0 {
            let rows = several(late as u64, "row has", "rows have");
            let said = format!("{rows} a reading that was older than an hour at its start.");
            let _ = writeln!(out, "<p class=\"late\">{said}</p>");
        }
    }

    fn push_table(&self, out: &mut String) {
        let named = |line: &Line| !(self.name)(line.row.stored_hash).is_empty();
        let columns = Columns {
            is_named: self.lines.iter().any(named),
            has_boards: self.lines.iter().any(|line| line.board.is_some()),
        };
        let _ = write!(out, "<h2 id=\"table\">Programs</h2>\n{MEAN}");
        out.push_str("<div class=\"scroll\" tabindex=\"0\" role=\"region\" ");
        out.push_str("aria-labelledby=\"table\">\n<table>\n<thead><tr>");
        if columns.has_boards {
            out.push_str("<th scope=\"col\">Board</th>");
        }
        if columns.is_named {
            out.push_str("<th scope=\"col\" class=\"text\">Program</th>");
        }
        out.push_str("<th scope=\"col\" class=\"text\">Hash</th>");
        // A narrow screen shows the first columns.
        for title in ["Lowest", "Mean", "Highest", "Files", "Runs", "Readings", "Oldest"] {
            let _ = write!(out, "<th scope=\"col\">{title}</th>");
        }
        out.push_str("</tr></thead>\n<tbody>\n");
        for line in self.lines {
            self.push_row(out, line, &columns);
        }
        out.push_str("</tbody>\n</table>\n</div>\n");
    }

    fn push_row(&self, out: &mut String, line: &Line, columns: &Columns) {
        let row = &line.row;
        let _ = write!(out, "<tr data-row=\"{}\">", key(line));
        if let (true, Some(board)) = (columns.has_boards, line.board) {
            let _ = write!(out, "<td data-n=\"{board}\">{board}</td>");
        }
        if columns.is_named {
            let name = xml_text(&(self.name)(row.stored_hash));
            let _ = write!(out, "<th scope=\"row\" class=\"text\">{name}</th>");
        }
        let _ = write!(out, "<td class=\"text hash\">{:08X}</td>", row.stored_hash);
        match row.readings {
            Some(readings) => tenths(&readings).map(|tenths| {
                let _ = write!(out, "<td data-n=\"{tenths}\">{}</td>", degrees(tenths));
            }),
            None => [(); 3].map(|()| out.push_str(NONE)),
        };
        let readings = row.readings.map_or(0, |readings| readings.count);
        for count in [row.lines, row.run_counts, readings] {
            let _ = write!(out, "<td data-n=\"{count}\">{}</td>", grouped(count));
        }
        match line.oldest {
            Some(age) => {
                let late = if age > HOUR { " class=\"late\"" } else { "" };
                let _ = write!(out, "<td data-n=\"{age}\"{late}>{}</td>", age::shown(age));
            }
            None => out.push_str(NONE),
        }
        out.push_str("</tr>\n");
    }
}

const NONE: &str = "<td class=\"soft\">none</td>";

/// Which columns the table has besides those that it always has.
struct Columns {
    is_named: bool,
    has_boards: bool,
}

/// What a row of the table and its row of the plot have in common.
fn key(line: &Line) -> String {
    let board = line.board.map_or(String::new(), |board| format!("{board}-"));
    format!("{board}{:08X}", line.row.stored_hash)
}

/// Lowest, mean and highest.
pub fn tenths(readings: &Readings) -> [i64; 3] {
    [readings.lowest.into(), readings.mean, readings.highest.into()]
}

/// The day of a FILETIME that is not 0.
fn date(filetime: u64) -> String {
    let iso = time::iso(filetime).unwrap_or_default();
    iso.split('T').next().unwrap_or_default().to_string()
}
