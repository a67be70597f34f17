//! The rows of a loading chart: how many trace entries each file has, and where
//! in the file they lie.
//!
//! The papers call the number that is read here the block load count. In files
//! that Windows wrote it rises along every chain: it is a position, and no sum of
//! positions means anything.

use crate::head::{self, number};
use crate::text;
use hivesaddle::{entry_name, read_file_alloc, walk, Record, Refusal, NONE};
use std::ops::Range;

/// Files with a row of their own. All further ones share a row.
const MOST_ROWS: usize = 1_000;

pub struct Chart {
    pub record: Record,
    /// What all names of files begin with, up to a backslash.
    pub start: String,
    pub rows: Vec<Row>,
}

pub struct Row {
    /// Of a file, its whole name.
    pub name: String,
    pub entries: usize,
    /// Of a file; what is left has no map, as it is of several.
    pub positions: Option<Vec<u32>>,
}

impl Chart {
    pub fn of(file: &[u8]) -> Result<Chart, Refusal> {
        let contents = read_file_alloc(file)?;
        let (record, mut predecessors) = (contents.record, contents.predecessors);
        let mut order = vec![0; predecessors.len()];
        walk(file, &mut predecessors, &mut order)?;
        let claims = if has_chains(&record) {
            chains(&order, &predecessors, record.metrics_count as usize)
        } else {
            order = (0..record.trace_count).collect();
            named_ranges(file, &record)
        };
        let trace = Trace::of(file, &record);
        let positions: Vec<u32> = order.iter().map(|&entry| trace.position(entry)).collect();
        let rows = rows(file, &claims, &positions);
        Ok(Chart { record, start: common_start(&rows), rows })
    }
}

/// The trace entries of version 30 have no next index.
pub fn has_chains(record: &Record) -> bool {
    record.version != 30
}

/// The trace array of an accepted file.
struct Trace<'a> {
    entries: &'a [u8],
    length: usize,
    position_at: usize,
}

impl<'a> Trace<'a> {
    fn of(file: &'a [u8], record: &Record) -> Trace<'a> {
        let (length, position_at) = if has_chains(record) { (12, 4) } else { (8, 0) };
        Trace { entries: head::trace(file), length, position_at }
    }

    fn position(&self, entry: u32) -> u32 {
        number(self.entries, entry as usize * self.length + self.position_at)
    }
}

/// The first chain is that of the first file, and so on. So a file's chain is
/// told by its place in the walk, and some may have none.
fn chains(order: &[u32], predecessors: &[u32], files: usize) -> Vec<Range<usize>> {
    let is_head = |place: &usize| predecessors[order[*place] as usize] == NONE;
    let heads: Vec<usize> = (0..order.len()).filter(is_head).collect();
    let head = |chain: usize| heads.get(chain).copied().unwrap_or(order.len());
    (0..files).map(|file| head(file)..head(file + 1)).collect()
}

/// Without chains there are the start and the count in each metrics entry, and
/// these are whatever the file says.
fn named_ranges(file: &[u8], record: &Record) -> Vec<Range<usize>> {
    let trace_count = u64::from(record.trace_count);
    let metrics = head::metrics(file);
    let range = |entry: usize| {
        let [start, count] = [0, 4].map(|field| u64::from(number(metrics, 32 * entry + field)));
        let end = (start + count).min(trace_count);
        start.min(end) as usize..end as usize
    };
    (0..record.metrics_count as usize).map(range).collect()
}

/// A row for each file, and one for what no file has.
fn rows(file: &[u8], claims: &[Range<usize>], positions: &[u32]) -> Vec<Row> {
    let (own, further) = claims.split_at(claims.len().min(MOST_ROWS));
    let mut rows: Vec<Row> = own
        .iter()
        .enumerate()
        .map(|(i, places)| Row {
            name: text::shown(entry_name(file, i as u64).unwrap_or_default()),
            entries: places.len(),
            positions: Some(positions[places.clone()].to_vec()),
        })
        .collect();
    let mut left = |name: String, ranges: &[Range<usize>]| {
        let entries = ranges.iter().map(Range::len).sum();
        rows.push(Row { name, entries, positions: None });
    };
    if !further.is_empty() {
        left(format!("{} further files", further.len()), &joined(further));
    }
    let unclaimed = gaps(&joined(claims), positions.len());
    if !unclaimed.is_empty() {
        left("no file".to_string(), &unclaimed);
    }
    rows
}

/// What the names of all files begin with, their last part left whole.
fn common_start(rows: &[Row]) -> String {
    let mut names = rows.iter().filter(|row| row.positions.is_some()).map(|row| row.name.as_str());
    let Some(first) = names.next() else {
        return String::new();
    };
    let length = names.fold(first.len(), |length, name| {
        let same = first.bytes().zip(name.bytes()).take_while(|(a, b)| a == b).count();
        length.min(same)
    });
    let is_end = |at: &usize| first.as_bytes()[at - 1] == b'\\';
    let length = (1..=length).rev().find(is_end).unwrap_or(0);
    first.get(..length).unwrap_or_default().to_string()
}

/// In rising order, and none on another or next to one.
fn joined(ranges: &[Range<usize>]) -> Vec<Range<usize>> {
    let mut rising: Vec<Range<usize>> =
        ranges.iter().filter(|range| !range.is_empty()).cloned().collect();
    rising.sort_by_key(|range| range.start);
    let mut joined: Vec<Range<usize>> = Vec::new();
    for range in rising {
        match joined.last_mut() {
            Some(last) if range.start <= last.end => last.end = last.end.max(range.end),
            _ => joined.push(range),
        }
    }
    joined
}

/// What lies between joined ranges, and behind them.
fn gaps(joined: &[Range<usize>], length: usize) -> Vec<Range<usize>> {
    let starts = std::iter::once(0).chain(joined.iter().map(|range| range.end));
    let ends = joined.iter().map(|range| range.start).chain(std::iter::once(length));
    starts.zip(ends).map(|(start, end)| start..end).filter(|gap| !gap.is_empty()).collect()
}

#[cfg(test)]
mod tests {
    use super::*;
    use hivesaddle::TestFile;

    fn chart(file: TestFile) -> Chart {
        Chart::of(&file.write().unwrap()).unwrap()
    }

    fn shape(chart: &Chart) -> Vec<String> {
        let map = |row: &Row| row.positions.as_ref().map_or("-".into(), |map| format!("{map:?}"));
        chart.rows.iter().map(|row| format!("{} {} {}", row.name, row.entries, map(row))).collect()
    }

    #[test]
    fn a_chain_for_each_file() {
        let file = TestFile::new(23).file("A").file("B").chain(&[8, 16]).chain(&[u32::MAX]);
        assert_eq!(shape(&chart(file)), ["A 2 [8, 16]", "B 1 [4294967295]"]);
    }

    #[test]
    fn the_walk_orders_the_entries() {
        // The chains 1 and 2 -> 0.
        let file = TestFile::new(17).file("A").file("B");
        let chart = chart(file.trace(NONE, 1).trace(NONE, 10).trace(0, 100));
        assert_eq!(shape(&chart), ["A 1 [10]", "B 2 [100, 1]"]);
    }

    #[test]
    fn files_without_a_chain_and_chains_without_a_file() {
        let few = chart(TestFile::new(23).file("A").file("B").chain(&[1]));
        assert_eq!(shape(&few), ["A 1 [1]", "B 0 []"]);
        let many = chart(TestFile::new(23).file("A").chain(&[1]).chain(&[2, 3]).chain(&[4]));
        assert_eq!(shape(&many), ["A 1 [1]", "no file 3 -"]);
        assert!(chart(TestFile::new(23)).rows.is_empty());
    }

    #[test]
    fn further_files_share_a_row() {
        let file = (0..1_003).fold(TestFile::new(17), |file, i| file.file("F").chain(&[i]));
        let chart = chart(file.chain(&[7]));
        assert_eq!(shape(&chart)[1_000..], ["3 further files 3 -", "no file 1 -"]);
    }

    #[test]
    fn version_30_has_the_ranges_that_its_entries_name() {
        let file = TestFile::new(30).file("A").file("B").file("C").chain(&[1, 2]).chain(&[4, 8]);
        let mut file = file.chain(&[16]).lay_out();
        let shape = |file: &[u8]| shape(&Chart::of(file).unwrap());
        assert_eq!(shape(&file), ["A 2 [1, 2]", "B 2 [4, 8]", "C 1 [16]"]);
        // Of B all from entry 4 on, however many, and of C some that are not there.
        let mut set = |at: usize, number: u32| {
            file[at..at + 4].copy_from_slice(&number.to_le_bytes());
        };
        for (at, number) in [(336, 4), (340, u32::MAX), (368, u32::MAX), (372, u32::MAX)] {
            set(at, number);
        }
        assert_eq!(shape(&file), ["A 2 [1, 2]", "B 1 [16]", "C 0 []", "no file 2 -"]);
    }

    #[test]
    fn what_all_names_begin_with() {
        let start = |names: &[&str]| {
            chart(names.iter().fold(TestFile::new(17), |file, name| file.file(name))).start
        };
        assert_eq!(start(&[r"\A\B\C.EXE", r"\A\B\CD.DLL", r"\A\BX\D"]), r"\A\");
        assert_eq!(start(&[r"\A\B\C.EXE"]), r"\A\B\");
        assert_eq!(start(&["A", r"\A"]), "");
        assert_eq!(start(&["\\\u{E9}\\A", "\\\u{E8}\\A"]), "\\");
        assert_eq!(start(&[]), "");
    }
}
