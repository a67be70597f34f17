//! The writer of test files: the file is laid out, and the whole-file reader
//! says what it thinks of it.

use super::checks::Refusal;
use super::head::SIZE_FIELD;
use super::layout::{forms_of, Layout, END, LARGEST_SIZE};
use super::readers::{read_file, Answer, Verdict};

/// What a file is made from.
#[derive(Clone, Copy, Debug)]
pub struct Description<'a> {
    pub version: u32,
    pub name: &'a [u16],
    pub stored_hash: u32,
    pub run_time: u64,
    pub run_count: u32,
    /// Name offset, name length, and so on.
    pub metrics: &'a [u32],
    /// Next index, block count, and so on.
    pub trace: &'a [u32],
    pub strings: &'a [u8],
    pub volumes: &'a [u8],
    pub volume_count: u32,
}

/// What the writer answers, and the file that it writes, if it does.
#[derive(Clone, Debug, PartialEq, Eq)]
pub struct Written {
    pub answer: Answer,
    pub file: Option<Vec<u8>>,
}

/// With so many slots and an output of so many bytes.
pub fn write(described: &Description, places: usize, output_length: usize) -> Written {
    let refused = |number, offset| {
        let verdict = Verdict::Refused(Refusal { number, index: 0, offset });
        Written { answer: Answer { verdict, predecessors: vec![END; places] }, file: None }
    };
    if first_section(described.version).is_none() {
        return refused(1, 0);
    }
    if laid_out_size(described.version, &lengths(described)) > LARGEST_SIZE.into() {
        return refused(3, SIZE_FIELD);
    }
    let file = laid_out(described);
    let answer = read_file(&file, places);
    match answer.verdict {
        Verdict::Accepted(_) if output_length < file.len() => refused(20, 0),
        Verdict::Accepted(_) => Written { answer, file: Some(file) },
        _ => Written { answer, file: None },
    }
}

/// Where the first section of a written file starts; none where the version is
/// not one that is written.
fn first_section(version: u32) -> Option<u64> {
    match version {
        17 => Some(152),
        23 => Some(240),
        _ => None,
    }
}

fn layout(version: u32) -> &'static Layout {
    forms_of(version).next().expect("17 or 23")
}

/// Elements of the four lists, in the order of their sections.
pub type Lengths = [usize; 4];

fn lengths(described: &Description) -> Lengths {
    let Description { metrics, trace, strings, volumes, .. } = described;
    [metrics.len(), trace.len(), strings.len(), volumes.len()]
}

/// Exact for lists of any length.
pub fn laid_out_size(version: u32, lengths: &Lengths) -> u128 {
    let first = first_section(version).expect("17 or 23");
    let entry = layout(version);
    let [metrics, trace, strings, volumes] = lengths.map(|length| length as u128);
    let pairs = |numbers: u128, bytes: u64| numbers / 2 * u128::from(bytes);
    u128::from(first)
        + pairs(metrics, entry.metrics_entry)
        + pairs(trace, entry.trace_entry)
        + strings
        + volumes
}

/// The bytes of the file, written from its first to its last. Its size is
/// within the limit.
pub fn laid_out(described: &Description) -> Vec<u8> {
    let layout = layout(described.version);
    let metrics = entries(described.metrics, layout.metrics_entry, layout.name_offset);
    let trace = entries(described.trace, layout.trace_entry, 0);
    let first = first_section(described.version).expect("17 or 23") as usize;
    let trace_start = first + metrics.len();
    let strings_start = trace_start + trace.len();
    let volumes_start = strings_start + described.strings.len();
    let size = volumes_start + described.volumes.len();
    let mut file = Bytes::default();
    file.number(0, described.version);
    file.bytes(4, b"SCCA");
    file.number(12, size as u32);
    file.bytes(16, &name(described.name));
    file.number(76, described.stored_hash);
    file.numbers(84, &[first, described.metrics.len() / 2]);
    file.numbers(92, &[trace_start, described.trace.len() / 2]);
    file.numbers(100, &[strings_start, described.strings.len()]);
    file.numbers(108, &[volumes_start]);
    file.number(112, described.volume_count);
    file.numbers(116, &[described.volumes.len()]);
    file.bytes(layout.run_time, &described.run_time.to_le_bytes());
    file.number(layout.run_count, described.run_count);
    file.bytes(first, &metrics);
    file.bytes(trace_start, &trace);
    file.bytes(strings_start, described.strings);
    file.bytes(volumes_start, described.volumes);
    file.0
}

/// The units before the first zero, as far as the head has room for them.
fn name(units: &[u16]) -> Vec<u8> {
    let units = units.iter().take(30).take_while(|&&unit| unit != 0);
    units.flat_map(|unit| unit.to_le_bytes()).collect()
}

/// An entry for each pair, with the pair at one place in it and zeros around.
/// Both fields of an entry stand side by side in either version.
fn entries(numbers: &[u32], size: u64, place: usize) -> Vec<u8> {
    let mut all = Vec::new();
    for pair in numbers.chunks_exact(2) {
        let mut entry = Bytes::default();
        entry.number(place, pair[0]);
        entry.number(place + 4, pair[1]);
        entry.0.resize(size as usize, 0);
        all.extend(entry.0);
    }
    all
}

/// Bytes that only grow at their end: what is skipped is zero.
#[derive(Default)]
struct Bytes(Vec<u8>);

impl Bytes {
    fn bytes(&mut self, at: usize, bytes: &[u8]) {
        assert!(at >= self.0.len(), "from the first to the last");
        self.0.resize(at, 0);
        self.0.extend(bytes);
    }

    fn number(&mut self, at: usize, number: u32) {
        self.bytes(at, &number.to_le_bytes());
    }

    fn numbers(&mut self, at: usize, numbers: &[usize]) {
        for (place, &number) in numbers.iter().enumerate() {
            self.number(at + 4 * place, number as u32);
        }
    }
}
