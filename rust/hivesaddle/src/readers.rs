//! The prefix reader and the whole-file reader.

use crate::raw::*;
use crate::{FileTime, Refusal};

#[cfg(feature = "alloc")]
use alloc::{vec, vec::Vec};

/// What an accepted file says of itself. Later versions may add to it, so that
/// only this crate makes one by its fields; [`Record::new`] is for tests.
#[derive(Clone, Copy, Debug, PartialEq, Eq)]
#[non_exhaustive]
pub struct Record {
    /// 17, 23, 26 or 30.
    pub version: u32,
    /// The size in bytes that the file says it has.
    pub declared_size: u32,
    /// Units of the program name before its first zero unit.
    pub name_units: u32,
    /// The path hash, see [`crate::find_path`].
    pub stored_hash: u32,
    /// Latest run time, a FILETIME as it stands; see [`Record::last_run`].
    pub run_time: u64,
    /// The latest run time and the seven behind it, as they stand, sorted or
    /// not; 0 where the version has none. [`Record::times`] leaves those out.
    pub run_times: [u64; 8],
    /// How many run times the version has: 1 for 17 and 23, 8 for 26 and 30.
    pub time_count: u32,
    /// How often the program was run.
    pub run_count: u32,
    /// Metrics entries: files that the program loaded.
    pub metrics_count: u32,
    /// Trace entries.
    pub trace_count: u32,
    /// Volumes that the files lie on.
    pub volume_count: u32,
    /// Trace entries that no entry names as next; 0 for version 30, whose trace
    /// entries have no next index.
    pub chain_count: u32,
}

impl Record {
    /// A record of this version, with as many run times as it has and all else 0,
    /// to try a program on that takes records. The reader makes its own.
    ///
    /// ```
    /// use hivesaddle::Record;
    /// let mut record = Record::new(26);
    /// record.run_count = 42;
    /// record.run_time = 133_761_942_000_000_000;
    /// assert_eq!((record.version, record.times().len()), (26, 8));
    /// ```
    pub fn new(version: u32) -> Record {
        Record {
            version,
            declared_size: 0,
            name_units: 0,
            stored_hash: 0,
            run_time: 0,
            run_times: [0; 8],
            time_count: if matches!(version, 26 | 30) { 8 } else { 1 },
            run_count: 0,
            metrics_count: 0,
            trace_count: 0,
            volume_count: 0,
            chain_count: 0,
        }
    }

    /// When the program was last run; none where the file does not say it.
    ///
    /// ```
    /// let mut record = hivesaddle::Record::new(23);
    /// assert_eq!(record.last_run(), None);
    /// record.run_time = 133_761_942_000_000_000;
    /// let last = record.last_run().unwrap();
    /// assert_eq!(last.to_string(), "2024-11-16T01:30:00.0000000Z");
    /// let since_1970 = last.system_time().unwrap().duration_since(std::time::UNIX_EPOCH);
    /// assert_eq!(since_1970.unwrap().as_secs(), 1_731_720_600);
    /// ```
    pub fn last_run(&self) -> Option<FileTime> {
        FileTime::new(self.run_time)
    }

    /// The run times that are set, the latest first and the others as they
    /// stand.
    ///
    /// ```
    /// let mut record = hivesaddle::Record::new(26);
    /// record.run_times[0] = 133_761_942_000_000_000;
    /// record.run_times[3] = 133_761_941_000_000_000;
    /// let runs: Vec<String> = record.runs().map(|run| run.to_string()).collect();
    /// assert_eq!(runs, ["2024-11-16T01:30:00.0000000Z", "2024-11-16T01:28:20.0000000Z"]);
    /// ```
    pub fn runs(&self) -> impl DoubleEndedIterator<Item = FileTime> + '_ {
        self.times().iter().filter_map(|&time| FileTime::new(time))
    }

    /// The run times that the version has, the latest first and the others as
    /// they stand, with 0 where none is set. [`Record::runs`] has them as times.
    ///
    /// ```
    /// // Version 26: the older run times stand from 136 to 192.
    /// let mut file = [0; 212];
    /// file[0] = 26;
    /// file[4..8].copy_from_slice(b"SCCA");
    /// file[12] = 212;
    /// (file[128], file[136], file[184]) = (9, 7, 8);
    /// let record = hivesaddle::read_file(&file, &mut []).unwrap();
    /// assert_eq!(record.run_time, 9);
    /// assert_eq!(record.times(), [9, 7, 0, 0, 0, 0, 0, 8]);
    ///
    /// // Version 23 has one, and other things at 136.
    /// file[0] = 23;
    /// let record = hivesaddle::read_file(&file, &mut []).unwrap();
    /// assert_eq!(record.times(), [9]);
    /// ```
    pub fn times(&self) -> &[u64] {
        self.run_times.get(..self.time_count as usize).unwrap_or(&self.run_times)
    }
}

/// What [`read_prefix`] says of a prefix.
#[derive(Clone, Copy, Debug, PartialEq, Eq)]
pub enum Verdict {
    /// The file is sound, whatever bytes follow.
    Accepted(Record),
    /// It is not, whatever bytes follow.
    Refused(Refusal),
    /// The prefix has to have this many bytes before more can be said.
    Wanted(u64),
}

/// An accepted file, for callers that have a heap.
#[cfg(feature = "alloc")]
#[derive(Clone, Debug, PartialEq, Eq)]
pub struct FileContents {
    /// What the file says of itself.
    pub record: Record,
    /// One slot for each trace entry: slot j holds its predecessor, the entry
    /// that names j as next, and [`crate::NONE`] where it has none. Empty for
    /// version 30, whose trace entries have no next index.
    pub predecessors: Vec<u32>,
}

/// Looks at the first bytes of a file. What it accepts or refuses stands,
/// whatever bytes follow.
///
/// Nothing is kept from call to call: each begins at the first byte. With as many
/// bytes fetched as are wanted each time, a file takes a dozen calls at most.
///
/// `predecessors` needs one slot for each trace entry. After an acceptance
/// slot j holds the predecessor of entry j, the one that names j as next, and
/// [`crate::NONE`] where it has none; after anything else every slot holds
/// [`crate::NONE`]. Version 30 has no next indexes: it needs no slots, leaves
/// [`crate::NONE`] in all of them, and its trace section is not waited for.
///
/// ```
/// use hivesaddle::{read_prefix, Verdict};
/// let mut predecessors = [0; 4];
/// assert_eq!(read_prefix(b"", &mut predecessors), Verdict::Wanted(4));
/// assert_eq!(predecessors, [hivesaddle::NONE; 4]);
/// assert_eq!(read_prefix(b"\x11\0\0\0SCCA", &mut predecessors), Verdict::Wanted(16));
/// match read_prefix(b"\x18\0\0\0", &mut predecessors) {
///     Verdict::Refused(refusal) => assert_eq!((refusal.number, refusal.index), (1, 0)),
///     other => panic!("{other:?}"),
/// }
/// ```
pub fn read_prefix(prefix: &[u8], predecessors: &mut [u32]) -> Verdict {
    let mut out = [0; HS_READER_OUT];
    // SAFETY: each list is a slice with its length, and those written are borrowed as mut.
    let answer = unsafe {
        hs_read_prefix(
            prefix.as_ptr(),
            prefix.len(),
            predecessors.as_mut_ptr(),
            predecessors.len(),
            out.as_mut_ptr(),
            out.len(),
        )
    };
    verdict(answer, &out)
}

/// Looks at a complete file, in a time that grows as its size does, but for
/// files made on purpose: [`crate::cost()`] tells them. `predecessors` is as for [`read_prefix`];
/// [`crate::places`] says how many slots it needs, and [`read_file_alloc`] allocates them.
///
/// ```
/// let mut file = [0; 148];
/// file[0] = 17;
/// file[4..8].copy_from_slice(b"SCCA");
/// file[12] = 148;
/// file[16] = b'A';
/// file[76] = 65;
/// file[144] = 1;
/// let record = hivesaddle::read_file(&file, &mut []).unwrap();
/// assert_eq!((record.version, record.name_units), (17, 1));
/// assert_eq!((record.stored_hash, record.run_count), (65, 1));
/// assert_eq!(record.chain_count, 0);
///
/// // A file that has not come to its end is refused with 16.
/// assert_eq!(hivesaddle::read_file(&file[..147], &mut []).unwrap_err().number, 16);
/// ```
///
/// The head of version 30 has several forms, told by where the metrics array
/// starts. One is known, with the start 304; any other is refused with 21.
///
/// ```
/// // Version 30: no metrics entry, and three trace entries at 212.
/// let mut file = [0; 236];
/// file[0] = 30;
/// file[4..8].copy_from_slice(b"SCCA");
/// file[12] = 236;
/// (file[84], file[85]) = (48, 1);
/// (file[92], file[96]) = (212, 3);
/// let record = hivesaddle::read_file(&file, &mut []).unwrap();
/// assert_eq!((record.version, record.trace_count, record.chain_count), (30, 3, 0));
///
/// // The same with the start 296.
/// file[84] = 40;
/// let refusal = hivesaddle::read_file(&file, &mut []).unwrap_err();
/// assert_eq!((refusal.number, refusal.index, refusal.offset), (21, 0, 84));
/// ```
pub fn read_file(file: &[u8], predecessors: &mut [u32]) -> Result<Record, Refusal> {
    let mut out = [0; HS_READER_OUT];
    // SAFETY: each list is a slice with its length, and those written are borrowed as mut.
    let answer = unsafe {
        hs_read_file(
            file.as_ptr(),
            file.len(),
            predecessors.as_mut_ptr(),
            predecessors.len(),
            out.as_mut_ptr(),
            out.len(),
        )
    };
    match verdict(answer, &out) {
        Verdict::Accepted(record) => Ok(record),
        Verdict::Refused(refusal) => Err(refusal),
        Verdict::Wanted(bytes) => unreachable!("the whole-file reader asked for {bytes} bytes"),
    }
}

/// [`read_file`] with as many slots as the file needs, so that refusal 7 never
/// comes. Any other answer is the one that [`read_file`] gives.
///
/// The slots are allocated before the trace section is looked at. There are
/// at most 5,592,393, see [`crate::places`], so no file takes more than 22.4 MB.
///
/// ```
/// // Version 17: three trace entries at 148, the chains 2 -> 0 and 1.
/// let mut file = [0; 184];
/// file[0] = 17;
/// file[4..8].copy_from_slice(b"SCCA");
/// file[12] = 184;
/// (file[92], file[96]) = (148, 3);
/// for (entry, next) in [hivesaddle::NONE, hivesaddle::NONE, 0].into_iter().enumerate() {
///     file[148 + 12 * entry..][..4].copy_from_slice(&next.to_le_bytes());
/// }
/// let contents = hivesaddle::read_file_alloc(&file).unwrap();
/// assert_eq!((contents.record.trace_count, contents.record.chain_count), (3, 2));
/// assert_eq!(contents.predecessors, [2, hivesaddle::NONE, hivesaddle::NONE]);
///
/// // Entry 2 names itself as next.
/// file[148 + 24] = 2;
/// let refusal = hivesaddle::read_file_alloc(&file).unwrap_err();
/// assert_eq!((refusal.number, refusal.index, refusal.offset), (13, 2, 148 + 24));
/// ```
#[cfg(feature = "alloc")]
pub fn read_file_alloc(file: &[u8]) -> Result<FileContents, Refusal> {
    let mut predecessors = vec![0; crate::places(file).unwrap_or(0)];
    let record = read_file(file, &mut predecessors)?;
    Ok(FileContents { record, predecessors })
}

pub(crate) fn verdict(answer: u32, out: &[u64; HS_READER_OUT]) -> Verdict {
    match answer {
        HS_ACCEPTED => Verdict::Accepted(record(out)),
        HS_REFUSED => {
            let [number, index, offset] = [out[HS_NUMBER], out[HS_INDEX], out[HS_OFFSET]];
            Verdict::Refused(Refusal { number: number as u32, index, offset })
        }
        HS_WANTED => Verdict::Wanted(out[HS_BYTES_WANTED]),
        other => unreachable!("no such answer: {other}"),
    }
}

/// Each field but the run times is a number of at most 32 bits.
fn record(out: &[u64; HS_READER_OUT]) -> Record {
    Record {
        version: out[HS_VERSION] as u32,
        declared_size: out[HS_DECLARED_SIZE] as u32,
        name_units: out[HS_NAME_UNITS] as u32,
        stored_hash: out[HS_STORED_HASH] as u32,
        run_time: out[HS_RUN_TIME],
        run_times: core::array::from_fn(|i| match i {
            0 => out[HS_RUN_TIME],
            _ => out[HS_RUN_TIME_2 + i - 1],
        }),
        time_count: out[HS_TIME_COUNT] as u32,
        run_count: out[HS_RUN_COUNT] as u32,
        metrics_count: out[HS_METRICS_COUNT] as u32,
        trace_count: out[HS_TRACE_COUNT] as u32,
        volume_count: out[HS_VOLUME_COUNT] as u32,
        chain_count: out[HS_CHAIN_COUNT] as u32,
    }
}
