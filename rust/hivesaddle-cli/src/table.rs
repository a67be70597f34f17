//! Rows of cells, written as they come: aligned on a terminal, with tabs in a
//! pipe, as CSV or as JSON.

mod fit;

use crate::args::Args;
use crate::text;
use fit::cut;
pub use fit::Fit;
use hivesaddle::Reference;
use std::ffi::OsStr;
use std::io::{self, IsTerminal, Write};

#[derive(Clone, Copy, Debug, PartialEq, Eq)]
pub enum Style {
    Aligned,
    Tabs,
    Csv,
    Json,
}

impl Style {
    /// As the options say, or else as standard output is.
    pub fn of(args: &Args) -> Result<Style, String> {
        match (args.has("csv"), args.has("json")) {
            (true, true) => Err("--csv and --json exclude each other".to_string()),
            (true, false) => Ok(Style::Csv),
            (false, true) => Ok(Style::Json),
            (false, false) if io::stdout().is_terminal() => Ok(Style::Aligned),
            (false, false) => Ok(Style::Tabs),
        }
    }

    /// Read by programs and not by people.
    pub fn is_for_programs(self) -> bool {
        matches!(self, Style::Csv | Style::Json)
    }
}

#[derive(Clone, Debug, Default, PartialEq, Eq)]
pub enum Cell {
    /// Blank, and null in JSON.
    #[default]
    Empty,
    Number(u64),
    /// A number with digits behind its point, which the text has.
    Decimal(String),
    /// Text that is fit to show.
    Words(String),
    /// UTF-16 as it stands in a file, low byte first.
    Units(Vec<u8>),
    /// Eight digits. In CSV 0x stands before them, so that no spreadsheet takes
    /// them for a number.
    Hash(u32),
    /// An array in JSON.
    List(Vec<Cell>),
}

impl Cell {
    /// The name of a file on this system.
    pub fn name(name: &OsStr) -> Cell {
        match name.to_str() {
            Some(name) if name.bytes().all(text::is_plain) => Cell::words(name),
            Some(name) => Cell::Units(text::utf16(name)),
            None => Cell::Words(text::shown_name(name)),
        }
    }

    pub fn words(text: impl Into<String>) -> Cell {
        Cell::Words(text.into())
    }

    /// A text of a file, or none.
    pub fn units(bytes: Option<&[u8]>) -> Cell {
        bytes.map_or(Cell::Empty, |bytes| Cell::Units(bytes.to_vec()))
    }

    /// As 40-1: entry index and sequence number.
    pub fn reference(reference: Reference) -> Cell {
        Cell::Words(format!("{}-{}", reference.entry_index, reference.sequence_number))
    }

    pub fn shown(&self) -> String {
        match self {
            Cell::Empty => String::new(),
            Cell::Number(number) => number.to_string(),
            Cell::Decimal(text) | Cell::Words(text) => text.clone(),
            Cell::Units(bytes) => text::shown(bytes),
            Cell::Hash(hash) => format!("{hash:08X}"),
            Cell::List(cells) => Cell::joined(cells, Cell::shown, "; "),
        }
    }

    fn joined(cells: &[Cell], of: impl Fn(&Cell) -> String, between: &str) -> String {
        cells.iter().map(of).collect::<Vec<String>>().join(between)
    }

    fn csv(&self) -> String {
        match self {
            Cell::Empty | Cell::Number(_) | Cell::Decimal(_) => self.shown(),
            Cell::Words(text) => text::csv_field(text),
            Cell::Units(bytes) => text::csv_field(&text::shown(bytes)),
            Cell::Hash(hash) => format!("0x{hash:08X}"),
            Cell::List(cells) => text::csv_field(&Cell::joined(cells, Cell::unguarded, "; ")),
        }
    }

    /// As in CSV, inside a field that is guarded as a whole.
    fn unguarded(&self) -> String {
        match self {
            Cell::Hash(_) => self.csv(),
            _ => self.shown(),
        }
    }

    fn json(&self) -> String {
        match self {
            Cell::Empty => "null".to_string(),
            Cell::Number(_) | Cell::Decimal(_) => self.shown(),
            Cell::Words(text) => text::json_string(text),
            Cell::Units(bytes) => text::json_units(text::units(bytes)),
            Cell::Hash(_) => text::json_string(&self.shown()),
            Cell::List(cells) => format!("[{}]", Cell::joined(cells, Cell::json, ", ")),
        }
    }

    fn is_number(&self) -> bool {
        matches!(self, Cell::Number(_) | Cell::Decimal(_))
    }
}

/// A table under way. The titles are also the keys of JSON.
pub struct Table<W: Write> {
    out: W,
    style: Style,
    titles: &'static [&'static str],
    /// The titles as JSON has them.
    keys: Vec<String>,
    /// Rows that wait to be aligned with those that follow.
    block: Vec<Vec<Cell>>,
    widths: Vec<usize>,
    fit: Option<Fit>,
    started: bool,
}

/// As many rows as are aligned together. A column that has once been wide stays
/// so, and what is held does not grow with the number of rows.
const BLOCK: usize = 256;

impl<W: Write> Table<W> {
    pub fn new(out: W, style: Style, titles: &'static [&'static str]) -> Table<W> {
        let widths = titles.iter().map(|title| text::width(title)).collect();
        let keys = titles.iter().map(|title| text::json_string(title)).collect();
        Table { out, style, titles, keys, block: Vec::new(), widths, fit: None, started: false }
    }

    /// On a terminal, with each row on one line.
    pub fn fitted(self, fit: Option<Fit>) -> Table<W> {
        Table { fit, ..self }
    }

    /// As many cells as there are titles.
    pub fn row(&mut self, cells: Vec<Cell>) -> io::Result<()> {
        self.start()?;
        match self.style {
            Style::Aligned => {
                self.block.push(cells);
                if self.block.len() == BLOCK {
                    self.write_block()?;
                }
                Ok(())
            }
            Style::Tabs => self.joined(cells.iter().map(Cell::shown), "\t"),
            Style::Csv => self.joined(cells.iter().map(Cell::csv), ","),
            Style::Json => self.object(&cells),
        }
    }

    /// Titles stand above the first row; JSON has them in every row. In a pipe
    /// there are none, so that each line is a row.
    fn start(&mut self) -> io::Result<()> {
        let first = !std::mem::replace(&mut self.started, true);
        match self.style {
            Style::Aligned if first => {
                self.block.push(self.titles.iter().map(|&title| Cell::words(title)).collect());
                Ok(())
            }
            Style::Csv if first => self.joined(self.titles.iter().map(|t| t.to_string()), ","),
            Style::Json => self.out.write_all(if first { b"[\n" } else { b",\n" }),
            _ => Ok(()),
        }
    }

    fn joined(&mut self, cells: impl Iterator<Item = String>, between: &str) -> io::Result<()> {
        let line = cells.collect::<Vec<String>>().join(between);
        writeln!(self.out, "{line}")
    }

    fn object(&mut self, cells: &[Cell]) -> io::Result<()> {
        let mut line = String::from("{");
        for (i, (key, cell)) in self.keys.iter().zip(cells).enumerate() {
            line.extend([if i > 0 { ", " } else { "" }, key, ": ", &cell.json()]);
        }
        line.push('}');
        self.out.write_all(line.as_bytes())
    }

    fn write_block(&mut self) -> io::Result<()> {
        let rows = std::mem::take(&mut self.block);
        let rows: Vec<Vec<(String, bool)>> = rows
            .iter()
            .map(|row| row.iter().map(|cell| (cell.shown(), cell.is_number())).collect())
            .collect();
        for row in &rows {
            for ((cell, _), width) in row.iter().zip(&mut self.widths) {
                *width = text::width(cell).max(*width);
            }
        }
        let all = || self.widths.iter().copied().map(Some).collect();
        let limits: Vec<Option<usize>> = self.fit.map_or_else(all, |fit| fit.limits(&self.widths));
        for row in &rows {
            let mut line = String::new();
            for ((text, is_number), limit) in row.iter().zip(&limits) {
                let Some(limit) = *limit else { continue };
                let text = cut(text, limit);
                let blanks = " ".repeat(limit - text::width(&text).min(limit));
                let (left, right) = if *is_number { (&*blanks, "") } else { ("", &*blanks) };
                line.extend([left, &text, right, "  "]);
            }
            writeln!(self.out, "{}", line.trim_end())?;
        }
        Ok(())
    }

    /// Writes what there is, aligned or not with what follows.
    pub fn flush(&mut self) -> io::Result<()> {
        self.write_block()?;
        self.out.flush()
    }

    /// Writes what is left.
    pub fn end(mut self) -> io::Result<()> {
        match self.style {
            // A table without rows: the titles alone, or an empty array.
            Style::Csv if !self.started => self.start()?,
            Style::Json if !self.started => self.out.write_all(b"[]\n")?,
            Style::Json => self.out.write_all(b"\n]\n")?,
            _ => self.write_block()?,
        }
        self.out.flush()
    }
}

#[cfg(test)]
mod tests {
    use super::*;

    const TITLES: &[&str] = &["name", "runs", "path"];

    fn table(style: Style, rows: Vec<Vec<Cell>>) -> String {
        let mut out = Vec::new();
        let mut table = Table::new(&mut out, style, TITLES);
        rows.into_iter().for_each(|row| table.row(row).unwrap());
        table.end().unwrap();
        String::from_utf8(out).unwrap()
    }

    fn rows() -> Vec<Vec<Cell>> {
        vec![
            vec![Cell::words("A"), Cell::Number(7), Cell::units(Some(b"\x1B\0,\0"))],
            vec![Cell::words("\u{65E5}\u{672C}BC"), Cell::Number(12_345), Cell::Empty],
            vec![Cell::words("-A"), Cell::Decimal("-0.5".to_string()), Cell::words("x")],
        ]
    }

    #[test]
    fn a_terminal_has_columns() {
        let expected = "\
name    runs   path
A           7  \\u{1B},
\u{65E5}\u{672C}BC  12345
-A       -0.5  x
";
        assert_eq!(table(Style::Aligned, rows()), expected);
    }

    #[test]
    fn pipes_and_programs() {
        let expected = "A\t7\t\\u{1B},\n\u{65E5}\u{672C}BC\t12345\t\n-A\t-0.5\tx\n";
        assert_eq!(table(Style::Tabs, rows()), expected);
        let expected = "name,runs,path\nA,7,\"\\u{1B},\"\n\u{65E5}\u{672C}BC,12345,\n'-A,-0.5,x\n";
        assert_eq!(table(Style::Csv, rows()), expected);
        let expected = "[\n{\"name\": \"A\", \"runs\": 7, \"path\": \"\\u001b,\"},\n\
             {\"name\": \"\u{65E5}\u{672C}BC\", \"runs\": 12345, \"path\": null},\n\
             {\"name\": \"-A\", \"runs\": -0.5, \"path\": \"x\"}\n]\n";
        assert_eq!(table(Style::Json, rows()), expected);
    }

    #[test]
    fn without_rows() {
        assert_eq!(table(Style::Aligned, Vec::new()), "");
        assert_eq!(table(Style::Tabs, Vec::new()), "");
        assert_eq!(table(Style::Csv, Vec::new()), "name,runs,path\n");
        assert_eq!(table(Style::Json, Vec::new()), "[]\n");
    }

    #[test]
    fn a_narrow_terminal_has_fewer_columns() {
        let lines = |width: usize| {
            let mut out = Vec::new();
            let fit = Some(Fit { width, order: &[1, 0] });
            let mut table = Table::new(&mut out, Style::Aligned, TITLES).fitted(fit);
            let path = Cell::words(r"\DISK\FOLDER\A-LONG-NAME.EXE");
            table.row(vec![Cell::words("A"), Cell::Number(7), path]).unwrap();
            table
                .row(vec![Cell::words("B"), Cell::Number(7), Cell::words("x".repeat(30))])
                .unwrap();
            table.end().unwrap();
            String::from_utf8(out).unwrap().lines().map(String::from).collect::<Vec<String>>()
        };
        assert_eq!(lines(42)[1], r"A        7  \DISK\FOLDER\A-LONG-NAME.EXE");
        assert_eq!(lines(34)[1], "A        7  \u{2026}OLDER\\A-LONG-NAME.EXE");
        assert_eq!(lines(34)[2], format!("B        7  {}\u{2026}", "x".repeat(21)));
        assert_eq!(lines(31)[0], "name  path");
        assert_eq!(lines(20)[1], "\u{2026}DER\\A-LONG-NAME.EXE");
        assert!(lines(20).iter().all(|line| line.chars().count() <= 20));
    }

    /// One that is not among those that may be left out.
    #[test]
    fn the_first_column_is_cut() {
        let first = |width: usize, name: &str| {
            let mut out = Vec::new();
            let fit = Some(Fit { width, order: &[1] });
            let mut table = Table::new(&mut out, Style::Aligned, TITLES).fitted(fit);
            let path = Cell::words(r"\DISK\FOLDER\A-LONG-NAME.EXE");
            table.row(vec![Cell::words(name), Cell::Number(7), path]).unwrap();
            table.end().unwrap();
            String::from_utf8(out).unwrap().lines().nth(1).unwrap().to_string()
        };
        assert_eq!(first(20, "A"), "A     \u{2026}LONG-NAME.EXE");
        assert_eq!(first(30, "folder/file.pf"), "\u{2026}r/file.pf  \u{2026}R\\A-LONG-NAME.EXE");
    }

    /// A wide row widens those that follow it, and not those long before it.
    #[test]
    fn rows_are_aligned_in_blocks() {
        let row = |name: &str| vec![Cell::words(name), Cell::Number(1), Cell::Empty];
        let mut rows = vec![row("A"); BLOCK];
        rows.extend([row("A-LONG-NAME"), row("B")]);
        let text = table(Style::Aligned, rows);
        let lines: Vec<&str> = text.lines().collect();
        assert_eq!(lines.len(), BLOCK + 3);
        assert_eq!(lines[1], "A        1");
        assert_eq!(lines[BLOCK + 1..], ["A-LONG-NAME     1", "B               1"]);
    }
}
