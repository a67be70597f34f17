//! What the year's table is made of.

use crate::age::{self, HOUR};
use crate::files::{Reader, Trouble};
use crate::outcome::{complain, failed, Outcome};
use crate::output::{is_among, one};
use crate::pulls::{joined, Once, Pull};
use crate::replay::{answers, has_no_lines, refuse_catalogue_line, refused};
use crate::starts::lines::{self, StartLine};
use hivesaddle::{year_table, Reading, Start, YearRefusal, YearRow, YearStart, YEAR_MOST_LINES};
use std::collections::{BTreeMap, BTreeSet, HashMap};
use std::ffi::OsStr;

/// The catalogue and the starts.
pub struct Inputs<'a> {
    /// The names of their two files; none where they are made of pulls.
    files: Option<[&'a OsStr; 2]>,
    lines: Vec<u8>,
    /// The board of each line, where they are made of pulls.
    boards: Vec<u8>,
    starts: Vec<Start>,
    /// One for each start.
    hashes: Vec<u32>,
}

/// A row of the year's table.
pub struct Line {
    /// Where there is a table for each board.
    pub board: Option<u8>,
    pub row: YearRow,
    /// How old a reading was at its start, the greatest of the row.
    pub oldest: Option<u64>,
}

impl<'a> Inputs<'a> {
    pub fn read(catalogue: &'a OsStr, starts_file: &'a OsStr) -> Result<Inputs<'a>, Outcome> {
        let lines = match Reader::default().read(catalogue) {
            Ok(lines) => lines.to_vec(),
            // No lines are a catalogue too.
            Err(Trouble::Empty) => {
                has_no_lines(catalogue);
                Vec::new()
            }
            Err(trouble) => return Err(failed(catalogue, trouble)),
        };
        let read = lines::read(starts_file)?;
        let starts = read.iter().map(|line| line.start).collect();
        let hashes = hashes(starts_file, &read)?;
        let files = Some([catalogue, starts_file]);
        Ok(Inputs { files, lines, boards: Vec::new(), starts, hashes })
    }

    /// What `catalogue` and `starts` would write.
    pub fn of_pulls(pulls: Vec<Pull>) -> Inputs<'a> {
        let (mut starts, mut hashes, mut once) = (Vec::new(), Vec::new(), Once::default());
        for pull in &pulls {
            let new = once.new_starts(pull);
            hashes.extend(new.iter().map(|_| pull.record.stored_hash));
            starts.extend(new);
        }
        once.say("year".as_ref());
        let kept = joined(pulls, "year".as_ref());
        let lines = kept.iter().flat_map(Pull::line).collect();
        let boards = kept.iter().filter_map(|pull| pull.board).collect();
        Inputs { files: None, lines, boards, starts, hashes }
    }

    /// The first start and the last. A time of 0 is none.
    pub fn times(&self) -> Option<(u64, u64)> {
        let times = self.starts.iter().map(|start| start.time).filter(|time| *time != 0);
        times.clone().min().zip(times.max())
    }

    /// A refusal of the table does not depend on the readings, so it comes before
    /// a long recording is gone through.
    pub fn table(
        &self,
        recording: &OsStr,
        within: u64,
        by_board: bool,
    ) -> Result<Vec<Line>, Outcome> {
        let none = vec![None; self.starts.len()];
        let rows = self.table_of(&self.lines, self.year_starts(&none))?;
        if let Some([catalogue, starts]) = self.files {
            self.look_at_order(&rows, catalogue, starts)?;
            self.warn_of_repeats(&rows, catalogue, starts);
        }
        let answers = answers(recording, &self.starts, within)?;
        let table = match by_board {
            true => self.table_by_board(&answers)?,
            false => self.table_with(&answers, None)?,
        };
        warn_of_age(recording, &table);
        Ok(table)
    }

    fn table_by_board(&self, answers: &[Option<Reading>]) -> Result<Vec<Line>, Outcome> {
        let starts = self.starts.iter().map(|start| start.board);
        let boards: BTreeSet<u8> = starts.chain(self.boards.iter().copied()).collect();
        let mut table = Vec::new();
        for board in boards {
            table.extend(self.table_with(answers, Some(board))?);
        }
        Ok(table)
    }

    /// Of all boards, or of one.
    fn table_with(
        &self,
        answers: &[Option<Reading>],
        board: Option<u8>,
    ) -> Result<Vec<Line>, Outcome> {
        let is_of = |start: &Start| board.is_none_or(|board| board == start.board);
        let mut oldest: BTreeMap<u32, u64> = BTreeMap::new();
        let mut starts = Vec::new();
        for (start, answer) in self.starts.iter().zip(self.year_starts(answers)) {
            if !is_of(start) {
                continue;
            }
            if let Some(reading) = answer.answer {
                let age = oldest.entry(answer.stored_hash).or_default();
                *age = (*age).max(start.time - reading.time);
            }
            starts.push(answer);
        }
        let rows = match board {
            None => self.table_of(&self.lines, starts)?,
            Some(board) => self.table_of(&self.lines_of(board), starts)?,
        };
        let line =
            |row: YearRow| Line { board, oldest: oldest.get(&row.stored_hash).copied(), row };
        Ok(rows.into_iter().map(line).collect())
    }

    /// Made of pulls, so that all lines have one length.
    fn lines_of(&self, board: u8) -> Vec<u8> {
        let lines = self.lines.split_inclusive(|byte| *byte == b'\n').zip(&self.boards);
        lines.filter(|(_, of)| **of == board).flat_map(|(line, _)| line.to_vec()).collect()
    }

    fn year_starts(&self, answers: &[Option<Reading>]) -> Vec<YearStart> {
        let start = |(&stored_hash, &answer)| YearStart { stored_hash, answer };
        self.hashes.iter().zip(answers).map(start).collect()
    }

    fn table_of(&self, lines: &[u8], starts: Vec<YearStart>) -> Result<Vec<YearRow>, Outcome> {
        year_table(lines, &starts).map_err(|refusal| match self.files {
            Some([catalogue, starts]) => self.refuse(refusal, catalogue, starts),
            None => refused("year".as_ref(), too_many(refusal)),
        })
    }

    /// Catalogue lines have as many digits as starts. Given in place of them they
    /// are told apart only by hashes that the catalogue does not have.
    fn look_at_order(
        &self,
        rows: &[YearRow],
        catalogue: &OsStr,
        starts_file: &OsStr,
    ) -> Result<(), Outcome> {
        // Of an empty catalogue it is said that it is empty.
        if self.lines.is_empty() || self.starts.is_empty() {
            return Ok(());
        }
        if is_among(starts_file, one(&catalogue.to_owned())) {
            return Err(failed(starts_file, format_args!("is the catalogue too; {ORDER}")));
        }
        let missing: BTreeSet<u32> =
            rows.iter().filter(|row| row.lines == 0).map(|row| row.stored_hash).collect();
        let count = self.hashes.iter().filter(|hash| missing.contains(hash)).count();
        let said = match count {
            0 => return Ok(()),
            1 => "1 start is of a hash".to_string(),
            _ => format!("{count} starts are of hashes"),
        };
        complain(starts_file, format_args!("{said} that no catalogue line has; {ORDER}"));
        // Where these are all, it is hardly a file of starts.
        if count < self.hashes.len() {
            Ok(())
        } else {
            Err(Outcome::Failed)
        }
    }

    /// Pulls that were not joined count double in silence, so it is said.
    fn warn_of_repeats(&self, rows: &[YearRow], catalogue: &OsStr, starts_file: &OsStr) {
        let mut seen: HashMap<(Start, u32), bool> = HashMap::new();
        let mut boards: BTreeMap<u32, BTreeSet<u8>> = BTreeMap::new();
        for (&start, &hash) in self.starts.iter().zip(&self.hashes) {
            seen.entry((start, hash)).and_modify(|again| *again = true).or_insert(false);
            boards.entry(hash).or_default().insert(start.board);
        }
        match seen.values().filter(|again| **again).count() {
            0 => {}
            1 => complain(starts_file, format_args!("1 start stands more than once{ONCE}")),
            count => {
                complain(starts_file, format_args!("{count} starts stand more than once{ONCE}"))
            }
        }
        let has_more = |row: &&YearRow| {
            boards.get(&row.stored_hash).is_some_and(|boards| row.lines > boards.len() as u64)
        };
        let more: Vec<&YearRow> = rows.iter().filter(has_more).collect();
        if let Some(first) = more.first() {
            let hash = first.stored_hash;
            let said = match more.len() {
                1 => format!("{hash:08X} has more lines than boards among its starts"),
                count => format!(
                    "{count} hashes have more lines than boards among their starts, \
                     {hash:08X} the first"
                ),
            };
            complain(catalogue, format_args!("{said}{JOINED}"));
        }
    }

    /// Says which line of which file is at fault. Starts are numbered on after
    /// the lines.
    fn refuse(&self, refusal: YearRefusal, catalogue: &OsStr, starts_file: &OsStr) -> Outcome {
        let lines = self.line_count() as u64;
        let (file, line) = match refusal.place.checked_sub(lines) {
            Some(place) if place > 0 => (starts_file, place),
            _ => (catalogue, refusal.place),
        };
        match refusal.number {
            18 => refuse_catalogue_line(file, line, self.line(line)),
            24 => refused(file, format_args!("refused 24: line {line} brings a {FEWER}")),
            _ => {
                let too_many = lines > YEAR_MOST_LINES as u64;
                let file = if too_many { catalogue } else { starts_file };
                refused(file, "refused 26: more than 1,048,576 lines; make a table of fewer")
            }
        }
    }

    /// A line of the catalogue, from 1, with its line feed if it has one.
    fn line(&self, number: u64) -> &[u8] {
        let mut lines = self.lines.split_inclusive(|byte| *byte == b'\n');
        lines.nth(number as usize - 1).unwrap_or_default()
    }

    /// Bytes behind the last line feed are a line.
    fn line_count(&self) -> usize {
        let is_unended = self.lines.last().is_some_and(|byte| *byte != b'\n');
        self.lines.iter().filter(|byte| **byte == b'\n').count() + usize::from(is_unended)
    }
}

const ORDER: &str = "are the files in the order CATALOGUE STARTS RECORDING?";
const FEWER: &str = "1,025th program; make a table of fewer";
const ONCE: &str = ", all of which count; hivesaddle starts writes each once";
const JOINED: &str = ": unless Windows began a file anew, these are pulls that were not joined; \
    see hivesaddle help catalogue";

fn too_many(refusal: YearRefusal) -> &'static str {
    match refusal.number {
        24 => "refused 24: more than 1,024 programs; make a table of fewer boards",
        _ => "refused 26: more than 1,048,576 files or starts; make a table of fewer boards",
    }
}

fn warn_of_age(recording: &OsStr, table: &[Line]) {
    let late = table.iter().filter(|line| line.oldest > Some(HOUR)).count();
    let oldest = table.iter().filter_map(|line| line.oldest).max();
    if let (1.., Some(oldest)) = (late, oldest) {
        let rows = if late == 1 { "1 row has".to_string() } else { format!("{late} rows have") };
        let age = age::shown(oldest);
        let said = format!("{rows} a reading older than an hour at its start, {age} at most");
        complain(recording, format_args!("{said}; --within 1h leaves such readings out"));
    }
}

/// The hash of each start, which a line of 18 digits does not have.
fn hashes(name: &OsStr, starts: &[StartLine]) -> Result<Vec<u32>, Outcome> {
    let hash = |(i, start): (usize, &StartLine)| {
        start.stored_hash.ok_or_else(|| {
            let (line, rule) = (i + 1, "hivesaddle starts writes lines of 26 digits");
            refused(name, format_args!("line {line} is a start without its stored hash; {rule}"))
        })
    };
    starts.iter().enumerate().map(hash).collect()
}
