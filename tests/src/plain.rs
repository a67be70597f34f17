//! The whole-file reader as one would write it by hand to be quick: nothing is
//! allocated and no section is looked at more often than the checks need. It
//! is what the benchmarks hold the library to.

pub mod replay;
pub mod search;
pub mod walk;
pub mod writer;
pub mod year;

use hivesaddle::{Record, Refusal};

const END: u32 = u32::MAX;
const LARGEST_SIZE: usize = 67_108_864;
/// With a next index.
const TRACE_ENTRY: usize = 12;

struct Layout {
    run_time: usize,
    time_count: usize,
    run_count: usize,
    head_end: usize,
    metrics_entry: usize,
    name_offset: usize,
    trace_entry: usize,
    has_next: bool,
    volume_entry: usize,
}

const LAYOUT_17: Layout = Layout {
    run_time: 120,
    time_count: 1,
    run_count: 144,
    head_end: 148,
    metrics_entry: 20,
    name_offset: 8,
    trace_entry: TRACE_ENTRY,
    has_next: true,
    volume_entry: 40,
};
const LAYOUT_23: Layout = Layout {
    run_time: 128,
    time_count: 1,
    run_count: 152,
    head_end: 156,
    metrics_entry: 32,
    name_offset: 12,
    trace_entry: TRACE_ENTRY,
    has_next: true,
    volume_entry: 104,
};
const LAYOUT_26: Layout = Layout { time_count: 8, run_count: 208, head_end: 212, ..LAYOUT_23 };
const LAYOUT_30: Layout = Layout { trace_entry: 8, has_next: false, volume_entry: 96, ..LAYOUT_26 };
/// Where version 30 has its metrics array.
const START_30: usize = 304;

pub fn read_file(file: &[u8], predecessors: &mut [u32]) -> Result<Record, Refusal> {
    predecessors.fill(END);
    let answer = read(file, predecessors);
    if answer.is_err() {
        predecessors.fill(END);
    }
    answer
}

fn refused<T>(number: u32, index: usize, offset: usize) -> Result<T, Refusal> {
    Err(Refusal { number, index: index as u64, offset: offset as u64 })
}

/// The bytes that a check has to have.
fn need(file: &[u8], required: usize) -> Result<(), Refusal> {
    match file.len() < required {
        true => refused(16, 0, 12),
        false => Ok(()),
    }
}

fn read(file: &[u8], predecessors: &mut [u32]) -> Result<Record, Refusal> {
    let layout = layout(file)?;
    let size = declared_size(file, layout)?;
    let name_units = program_name(file)?;
    form(file)?;
    need(file, layout.head_end)?;
    let sections = sections(file, layout, size)?;
    let [metrics, trace, strings, volumes] = &sections;
    let trace_count = number(file, 96);
    let volume_count = number(file, 112);
    if layout.has_next && predecessors.len() < trace_count {
        return refused(7, 0, 96);
    }
    if volume_count * layout.volume_entry > volumes.length {
        return refused(8, 0, 112);
    }
    if metrics.length > 0 {
        names(file, layout, metrics, strings)?;
    }
    let chain_count = match layout.has_next {
        true => links(file, trace, &mut predecessors[..trace_count])?,
        false => 0,
    };
    if volume_count > 0 {
        all_volumes(file, volumes, layout, volume_count)?;
    }
    whole(file, size)?;
    let run_times = run_times(file, layout);
    let mut record = Record::new(number(file, 0) as u32);
    record.declared_size = size as u32;
    record.name_units = name_units;
    record.stored_hash = number(file, 76) as u32;
    record.run_time = run_times[0];
    record.run_times = run_times;
    record.time_count = layout.time_count as u32;
    record.run_count = number(file, layout.run_count) as u32;
    record.metrics_count = number(file, 88) as u32;
    record.trace_count = trace_count as u32;
    record.volume_count = volume_count as u32;
    record.chain_count = chain_count;
    Ok(record)
}

fn layout(file: &[u8]) -> Result<&'static Layout, Refusal> {
    need(file, 4)?;
    let layout = match number(file, 0) {
        17 => &LAYOUT_17,
        23 => &LAYOUT_23,
        26 => &LAYOUT_26,
        30 => &LAYOUT_30,
        _ => return refused(1, 0, 0),
    };
    need(file, 8)?;
    match &file[4..8] {
        b"SCCA" => Ok(layout),
        _ => refused(2, 0, 4),
    }
}

fn declared_size(file: &[u8], layout: &Layout) -> Result<usize, Refusal> {
    need(file, 16)?;
    let size = number(file, 12);
    match (layout.head_end..=LARGEST_SIZE).contains(&size) {
        true => Ok(size),
        false => refused(3, 0, 12),
    }
}

fn program_name(file: &[u8]) -> Result<u32, Refusal> {
    need(file, 76)?;
    match file[16..76].chunks_exact(2).position(is_zero) {
        Some(units) => Ok(units as u32),
        None => refused(4, 0, 16),
    }
}

/// Check 21, behind 3: the one form of version 30 has the smallest H.
fn form(file: &[u8]) -> Result<(), Refusal> {
    if number(file, 0) != 30 {
        return Ok(());
    }
    need(file, 88)?;
    match number(file, 84) {
        START_30 => Ok(()),
        _ => refused(21, 0, 84),
    }
}

fn run_times(file: &[u8], layout: &Layout) -> [u64; 8] {
    let mut times = [0; 8];
    for (i, time) in times[..layout.time_count].iter_mut().enumerate() {
        *time = u64::from_le_bytes(array(file, layout.run_time + 8 * i));
    }
    times
}

fn whole(file: &[u8], size: usize) -> Result<(), Refusal> {
    match file.len().cmp(&size) {
        std::cmp::Ordering::Less => refused(16, 0, 12),
        std::cmp::Ordering::Equal => Ok(()),
        std::cmp::Ordering::Greater => refused(17, 0, 12),
    }
}

#[derive(Clone, Copy)]
struct Section {
    start: usize,
    length: usize,
}

impl Section {
    fn end(&self) -> usize {
        self.start + self.length
    }

    fn bytes<'a>(&self, file: &'a [u8]) -> Result<&'a [u8], Refusal> {
        if self.length == 0 {
            return Ok(&[]);
        }
        need(file, self.end())?;
        Ok(&file[self.start..self.end()])
    }

    fn touches(&self, other: &Section) -> bool {
        let apart = self.end() <= other.start || other.end() <= self.start;
        self.length > 0 && other.length > 0 && !apart
    }
}

/// Checks 5 and 6.
fn sections(file: &[u8], layout: &Layout, size: usize) -> Result<[Section; 4], Refusal> {
    let sections = [
        Section { start: number(file, 84), length: number(file, 88) * layout.metrics_entry },
        Section { start: number(file, 92), length: number(file, 96) * layout.trace_entry },
        Section { start: number(file, 100), length: number(file, 104) },
        Section { start: number(file, 108), length: number(file, 116) },
    ];
    let outside = |s: &Section| s.length > 0 && (s.start < layout.head_end || s.end() > size);
    if let Some(place) = sections.iter().position(outside) {
        return refused(5, place + 1, 84 + 8 * place);
    }
    for place in 1..4 {
        if sections[..place].iter().any(|lower| lower.touches(&sections[place])) {
            return refused(6, place + 1, 84 + 8 * place);
        }
    }
    Ok(sections)
}

/// Checks 9 and 10, with at least one entry.
fn names(
    file: &[u8],
    layout: &Layout,
    metrics: &Section,
    strings: &Section,
) -> Result<(), Refusal> {
    let entries = metrics.bytes(file)?.chunks_exact(layout.metrics_entry);
    let field = |i: usize| metrics.start + i * layout.metrics_entry + layout.name_offset;
    let range = |entry: &[u8]| {
        let offset = number(entry, layout.name_offset);
        let units = number(entry, layout.name_offset + 4);
        (offset, offset + 2 * units + 2)
    };
    if let Some(i) = entries.clone().position(|entry| range(entry).1 > strings.length) {
        return refused(9, i, field(i));
    }
    let strings = strings.bytes(file)?;
    for (i, entry) in entries.enumerate() {
        let (start, end) = range(entry);
        let (units, last) = strings[start..end].split_at(end - start - 2);
        if !is_zero(last) || units.chunks_exact(2).any(is_zero) {
            return refused(10, i, field(i));
        }
    }
    Ok(())
}

/// Checks 11 to 13 and the chain count. The table is filled with the end and
/// has one slot for each entry.
fn links(file: &[u8], trace: &Section, table: &mut [u32]) -> Result<u32, Refusal> {
    let refused = |number, entry| refused(number, entry, trace.start + TRACE_ENTRY * entry);
    let trace = trace.bytes(file)?;
    let mut shared = END;
    for (entry, bytes) in trace.chunks_exact(TRACE_ENTRY).enumerate() {
        let link = u32::from_le_bytes(array(bytes, 0));
        if link == END {
            continue;
        }
        let Some(place) = table.get_mut(link as usize) else {
            return refused(11, entry);
        };
        if *place != END {
            shared = shared.min(link);
        }
        *place = entry as u32;
    }
    if shared != END {
        return refused(12, shared as usize);
    }
    let (chains, visited) = walk(trace, table);
    match visited == table.len() {
        true => Ok(chains),
        false => refused(13, least_on_a_ring(trace, table)),
    }
}

fn next(trace: &[u8], entry: usize) -> u32 {
    u32::from_le_bytes(array(trace, TRACE_ENTRY * entry))
}

/// The chains, and the entries on them. No entry is named twice, so what is
/// not on a chain is on a cycle.
fn walk(trace: &[u8], table: &[u32]) -> (u32, usize) {
    let (mut chains, mut visited) = (0, 0);
    for (head, _) in table.iter().enumerate().filter(|(_, &place)| place == END) {
        chains += 1;
        visited += 1;
        let mut at = next(trace, head);
        while at != END {
            visited += 1;
            at = next(trace, at as usize);
        }
    }
    (chains, visited)
}

/// Marks what is on a chain with a number that no entry has.
fn least_on_a_ring(trace: &[u8], table: &mut [u32]) -> usize {
    let mark = table.len() as u32;
    for head in 0..table.len() {
        if table[head] == END {
            let mut at = head as u32;
            while at != END {
                table[at as usize] = mark;
                at = next(trace, at as usize);
            }
        }
    }
    table.iter().position(|&place| place != mark).expect("there is a cycle")
}

/// Checks 14 and 15.
fn all_volumes(
    file: &[u8],
    volumes: &Section,
    layout: &Layout,
    count: usize,
) -> Result<(), Refusal> {
    let section = volumes.bytes(file)?;
    for i in 0..count {
        let entry = i * layout.volume_entry;
        if let Some(number) = volume_fault(section, &section[entry..]) {
            return refused(number, i, volumes.start + entry);
        }
    }
    Ok(())
}

fn volume_fault(section: &[u8], entry: &[u8]) -> Option<u32> {
    let (path, units) = (number(entry, 0), number(entry, 4));
    if units > 0 && path + 2 * units > section.len() {
        return Some(14);
    }
    let (references, size) = (number(entry, 20), number(entry, 24));
    if size > 0 {
        if size < 8 || references + size > section.len() {
            return Some(14);
        }
        if 8 + 8 * number(section, references + 4) > size {
            return Some(14);
        }
    }
    directories_fault(section, number(entry, 28), number(entry, 32))
}

fn directories_fault(section: &[u8], mut at: usize, count: usize) -> Option<u32> {
    for _ in 0..count {
        if at + 2 > section.len() {
            return Some(14);
        }
        let last = at + 2 + 2 * unit(section, at);
        if last + 2 > section.len() {
            return Some(14);
        }
        if unit(section, last) != 0 {
            return Some(15);
        }
        at = last + 2;
    }
    None
}

fn array<const N: usize>(bytes: &[u8], at: usize) -> [u8; N] {
    bytes[at..at + N].try_into().expect("it has that length")
}

fn number(bytes: &[u8], at: usize) -> usize {
    u32::from_le_bytes(array(bytes, at)) as usize
}

fn unit(bytes: &[u8], at: usize) -> usize {
    u16::from_le_bytes(array(bytes, at)) as usize
}

fn is_zero(unit: &[u8]) -> bool {
    unit[0] == 0 && unit[1] == 0
}

#[cfg(test)]
mod beside_the_reference {
    use super::*;
    use crate::generate::damage::{damage, edits, AIMS};
    use crate::generate::shapes::mixed;
    use crate::generate::{any, around_links, rich, Counts, Sample};
    use crate::random::Random;
    use crate::reference::layout::LAYOUTS;
    use crate::reference::readers::{self, Verdict};

    fn same(sample: &Sample) {
        let answer = readers::read_file(&sample.bytes, sample.places);
        let mut buffer = vec![7; sample.places];
        let given = read_file(&sample.bytes, &mut buffer);
        assert_eq!(answer.predecessors, buffer);
        match (answer.verdict, given) {
            (Verdict::Accepted(record), Ok(given)) => {
                assert_eq!(record.version, given.version as u64);
                assert_eq!(record.declared_size, given.declared_size as u64);
                assert_eq!(record.name_units, given.name_units as u64);
                assert_eq!(record.stored_hash, given.stored_hash as u64);
                assert_eq!(record.run_times, given.run_times);
                assert_eq!(record.run_times[0], given.run_time);
                assert_eq!(record.time_count, given.time_count as u64);
                assert_eq!(record.run_count, given.run_count as u64);
                assert_eq!(record.metrics_count, given.metrics_count as u64);
                assert_eq!(record.trace_count, given.trace_count as u64);
                assert_eq!(record.volume_count, given.volume_count as u64);
                assert_eq!(record.chain_count, given.chain_count as u64);
            }
            (Verdict::Refused(refusal), Err(given)) => {
                assert_eq!(refusal.number, given.number as u64);
                assert_eq!((refusal.index, refusal.offset), (given.index, given.offset));
            }
            (answer, given) => panic!("{answer:?} but {given:?}"),
        }
    }

    #[test]
    fn sound_edited_and_cut_files() {
        let mut random = Random::new(1);
        for _ in 0..20_000 {
            let mut sample = any(&mut random);
            same(&sample);
            edits(&mut random, &mut sample);
            same(&sample);
            sample.bytes.truncate(random.below(sample.bytes.len()));
            same(&sample);
        }
    }

    #[test]
    fn damaged_files() {
        let mut random = Random::new(2);
        for (place, &first) in AIMS.iter().enumerate() {
            for &second in &AIMS[place..] {
                for _ in 0..100 {
                    let mut sample = rich(&mut random);
                    damage(&mut random, &mut sample, second);
                    damage(&mut random, &mut sample, first);
                    same(&sample);
                }
            }
        }
    }

    #[test]
    fn chains_and_rings() {
        let mut random = Random::new(3);
        for _ in 0..50_000 {
            let links = mixed(&mut random, 40);
            let layout = random.pick(&LAYOUTS);
            let counts = Counts { metrics: 0, trace: links.len(), volumes: 0 };
            let bytes = around_links(&mut random, layout, counts, &links);
            same(&Sample { bytes, places: links.len() + random.below(3) });
        }
    }
}
