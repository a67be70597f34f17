//! The writer of test files, versions 17 and 23.

use crate::raw::*;
use crate::readers::{verdict, Record, Verdict};
use crate::Refusal;

#[cfg(feature = "alloc")]
use alloc::{vec, vec::Vec};

/// What a file is written from: the lists as they stand in it. [`crate::TestFile`]
/// makes them from texts, chains and volumes.
#[derive(Clone, Copy, Debug, PartialEq, Eq)]
pub struct Description<'a> {
    /// 17 or 23; any other is refused with 1.
    pub version: u32,
    /// The program name: the units before the first zero, or all of them. 30
    /// or more are refused with 4.
    pub name: &'a [u16],
    /// Taken as it is; [`crate::hash_xp_bytes`] and [`crate::hash_vista_bytes`]
    /// give that of a path.
    pub stored_hash: u32,
    /// A FILETIME.
    pub run_time: u64,
    /// Taken as it is.
    pub run_count: u32,
    /// Pairs: where a name begins in `strings`, in bytes, and its units
    /// without the zero. An odd last number is ignored.
    pub metrics: &'a [u32],
    /// Pairs: next index, or [`crate::NONE`] at a chain's end, and block load
    /// count. An odd last number is ignored.
    pub trace: &'a [u32],
    /// The strings section.
    pub strings: &'a [u8],
    /// The volumes section, with `volume_count` entries at its start.
    pub volumes: &'a [u8],
    /// How many entries it begins with.
    pub volume_count: u32,
}

/// Where things stand in a version, and how many bytes they take.
#[cfg_attr(not(feature = "alloc"), allow(dead_code))]
pub(crate) struct Widths {
    pub head: usize,
    pub metrics_entry: usize,
    /// In a metrics entry; the length follows.
    pub name_offset: usize,
    pub trace_entry: usize,
    pub volume_entry: usize,
    pub run_time: usize,
    pub run_count: usize,
    /// The number that file references begin with.
    pub references_mark: u32,
}

const OF_17: Widths = Widths {
    head: 152,
    metrics_entry: 20,
    name_offset: 8,
    trace_entry: 12,
    volume_entry: 40,
    run_time: 120,
    run_count: 144,
    references_mark: 1,
};
const OF_23: Widths = Widths {
    head: 240,
    metrics_entry: 32,
    name_offset: 12,
    trace_entry: 12,
    volume_entry: 104,
    run_time: 128,
    run_count: 152,
    references_mark: 3,
};
const OF_26: Widths = Widths { head: 304, run_count: 208, ..OF_23 };
const OF_30: Widths = Widths { trace_entry: 8, volume_entry: 96, ..OF_26 };

/// A version that is not known has those of 23.
pub(crate) fn widths(version: u32) -> Widths {
    match version {
        17 => OF_17,
        26 => OF_26,
        30 => OF_30,
        _ => OF_23,
    }
}

impl Description<'_> {
    /// How many bytes the file has as laid out: the length that `output` of
    /// [`write_file`] needs. A sum past 64 bits is given as the greatest number.
    pub fn size(&self) -> usize {
        let Widths { head, metrics_entry, trace_entry, .. } = widths(self.version);
        (self.metrics.len() / 2)
            .saturating_mul(metrics_entry)
            .saturating_add((self.trace.len() / 2).saturating_mul(trace_entry))
            .saturating_add(self.strings.len())
            .saturating_add(self.volumes.len())
            .saturating_add(head)
    }
}

/// Lays out a file of version 17 or 23 in `output`: a head of 152 or 240
/// bytes, then metrics, trace, strings and volumes, without gaps. What is no
/// field of the description is 0.
///
/// The answer is that of [`crate::read_file`] on the file as laid out, with
/// these `predecessors`. So what is written is accepted with the same record,
/// and what is not has the refusal that the file would get; then all of
/// `output` is as it was. Where only `output` is shorter than the file, the
/// refusal is 20. Behind the file `output` keeps what it held.
///
/// ```
/// use hivesaddle::{read_file, write_file, Description, NONE};
/// let name: Vec<u16> = "CMD.EXE".encode_utf16().collect();
/// let mut described = Description {
///     version: 17,
///     name: &name,
///     stored_hash: 65,
///     run_time: 133_761_942_000_000_000,
///     run_count: 3,
///     metrics: &[0, 1],
///     trace: &[1, 8, NONE, 16],
///     strings: b"A\0\0\0",
///     volumes: &[],
///     volume_count: 0,
/// };
/// let (mut predecessors, mut output) = ([0; 2], [7; 210]);
/// let record = write_file(&described, &mut predecessors, &mut output).unwrap();
/// assert_eq!((record.declared_size, record.chain_count), (200, 1));
/// assert_eq!(predecessors, [NONE, 0]);
/// assert_eq!(output[200..], [7; 10]);
/// assert_eq!(read_file(&output[..200], &mut predecessors), Ok(record));
///
/// // One byte too few.
/// let refusal = write_file(&described, &mut predecessors, &mut output[..199]).unwrap_err();
/// assert_eq!((refusal.number, refusal.index, refusal.offset), (20, 0, 0));
///
/// // Entry 1 leads back to entry 0: the file would be refused for entry 0, at 172.
/// described.trace = &[1, 8, 0, 16];
/// let refusal = write_file(&described, &mut predecessors, &mut output).unwrap_err();
/// assert_eq!((refusal.number, refusal.index, refusal.offset), (13, 0, 172));
/// assert_eq!(predecessors, [NONE; 2]);
/// ```
pub fn write_file(
    described: &Description,
    predecessors: &mut [u32],
    output: &mut [u8],
) -> Result<Record, Refusal> {
    let Description { name, metrics, trace, strings, volumes, .. } = described;
    let mut out = [0; HS_READER_OUT];
    // SAFETY: each list is a slice with its length, and those written are borrowed as mut.
    let answer = unsafe {
        hs_write_file(
            described.version,
            name.as_ptr(),
            name.len(),
            described.stored_hash,
            described.run_time,
            described.run_count,
            metrics.as_ptr(),
            metrics.len(),
            trace.as_ptr(),
            trace.len(),
            strings.as_ptr(),
            strings.len(),
            volumes.as_ptr(),
            volumes.len(),
            described.volume_count,
            predecessors.as_mut_ptr(),
            predecessors.len(),
            output.as_mut_ptr(),
            output.len(),
            out.as_mut_ptr(),
            out.len(),
        )
    };
    match verdict(answer, &out) {
        Verdict::Accepted(record) => Ok(record),
        Verdict::Refused(refusal) => Err(refusal),
        Verdict::Wanted(bytes) => unreachable!("the writer asked for {bytes} bytes"),
    }
}

/// [`write_file`] with as many slots and bytes as the file needs, so that 7
/// and 20 never come.
///
/// ```
/// use hivesaddle::{write_file_alloc, Description};
/// let empty = Description {
///     version: 23,
///     name: &[65],
///     stored_hash: 0,
///     run_time: 0,
///     run_count: 1,
///     metrics: &[],
///     trace: &[],
///     strings: &[],
///     volumes: &[],
///     volume_count: 0,
/// };
/// assert_eq!(write_file_alloc(&empty).unwrap().len(), 240);
/// let refusal = write_file_alloc(&Description { version: 26, ..empty }).unwrap_err();
/// assert_eq!((refusal.number, refusal.index, refusal.offset), (1, 0, 0));
/// ```
#[cfg(feature = "alloc")]
pub fn write_file_alloc(described: &Description) -> Result<Vec<u8>, Refusal> {
    // A file past the limit is refused with 3 whatever the lists; they are not made for it.
    let fits = described.size() <= LARGEST_SIZE;
    let mut predecessors = vec![0; if fits { described.trace.len() / 2 } else { 0 }];
    let mut output = vec![0; if fits { described.size() } else { 0 }];
    write_file(described, &mut predecessors, &mut output)?;
    Ok(output)
}

/// The greatest size that a file can declare.
#[cfg(feature = "alloc")]
const LARGEST_SIZE: usize = 67_108_864;
