//! A builder of test files from texts, chains and volumes.

use crate::writer::{widths, Description, Widths};
use crate::{
    hash_vista_bytes, hash_xp_bytes, write_file, write_file_alloc, Record, Reference, Refusal, NONE,
};
use alloc::string::String;
use alloc::{vec, vec::Vec};

/// A file to test with, sound or odd on purpose. Each call adds something, in
/// the order in which it is to stand in the file.
///
/// ```
/// use hivesaddle::{read_file_alloc, Reference, TestFile, TestVolume};
/// let path = r"\DEVICE\HARDDISKVOLUME1\WINDOWS\SYSTEM32\CMD.EXE";
/// let file = TestFile::new(23)
///     .name("CMD.EXE")
///     .hash_of(path)
///     .run_time(133_761_942_000_000_000)
///     .run_count(42)
///     .file(path)
///     .file(r"\DEVICE\HARDDISKVOLUME1\WINDOWS\SYSTEM32\NTDLL.DLL")
///     .chain(&[8, 16, 4])
///     .chain(&[2])
///     .volume(TestVolume {
///         path: r"\DEVICE\HARDDISKVOLUME1".into(),
///         serial_number: 0x5C0A_70E1,
///         references: vec![Reference { entry_index: 40, sequence_number: 1 }],
///         directories: vec![r"\DEVICE\HARDDISKVOLUME1\WINDOWS".into()],
///         ..TestVolume::default()
///     })
///     .write()
///     .unwrap();
/// let contents = read_file_alloc(&file).unwrap();
/// assert_eq!((contents.record.metrics_count, contents.record.chain_count), (2, 2));
/// assert_eq!(hivesaddle::find_path(&file).unwrap().entry, 0);
/// assert_eq!(hivesaddle::volume(&file, 0).unwrap().directories, 1);
/// ```
///
/// A file that the reader would refuse is not written; the refusal is the
/// reader's. [`TestFile::lay_out`] makes it all the same.
///
/// ```
/// # use hivesaddle::{read_file_alloc, TestFile, NONE};
/// // Two trace entries that lead to each other.
/// let odd = TestFile::new(17).name("RING.EXE").trace(1, 8).trace(0, 8);
/// let refusal = odd.write().unwrap_err();
/// assert_eq!((refusal.number, refusal.index, refusal.offset), (13, 0, 152));
/// assert_eq!(read_file_alloc(&odd.lay_out()), Err(refusal));
/// ```
#[derive(Clone, Debug)]
pub struct TestFile {
    version: u32,
    name: Vec<u16>,
    stored_hash: u32,
    run_time: u64,
    run_count: u32,
    metrics: Vec<u32>,
    trace: Vec<u32>,
    strings: Vec<u8>,
    volumes: Vec<TestVolume>,
    volume_bytes: Vec<u8>,
    volume_count: Option<u32>,
}

/// A volume of a [`TestFile`].
#[derive(Clone, Debug, Default, PartialEq, Eq)]
pub struct TestVolume {
    /// Without a zero unit, which it gets.
    pub path: String,
    /// Taken as it is.
    pub serial_number: u32,
    /// A FILETIME.
    pub creation_time: u64,
    /// In their order; an entry index has 48 bits.
    pub references: Vec<Reference>,
    /// Of at most 65,535 units each: the length has 16 bits.
    pub directories: Vec<String>,
}

impl TestFile {
    /// A file without a name or an entry. The version is 17 or 23; the file of
    /// another is refused with 1, and [`TestFile::lay_out`] makes it all the same.
    pub fn new(version: u32) -> TestFile {
        TestFile {
            version,
            name: Vec::new(),
            stored_hash: 0,
            run_time: 0,
            run_count: 0,
            metrics: Vec::new(),
            trace: Vec::new(),
            strings: Vec::new(),
            volumes: Vec::new(),
            volume_bytes: Vec::new(),
            volume_count: None,
        }
    }

    /// The program name, of at most 29 units.
    pub fn name(self, name: &str) -> TestFile {
        self.name_units(&name.encode_utf16().collect::<Vec<u16>>())
    }

    /// The program name as units; it ends before the first zero.
    pub fn name_units(mut self, name: &[u16]) -> TestFile {
        self.name = name.to_vec();
        self
    }

    /// The stored hash.
    pub fn hash(mut self, stored_hash: u32) -> TestFile {
        self.stored_hash = stored_hash;
        self
    }

    /// The stored hash that the program with this path has, by the version's
    /// function.
    pub fn hash_of(self, path: &str) -> TestFile {
        let text = units(path);
        let hash = if self.version == 17 { hash_xp_bytes(&text) } else { hash_vista_bytes(&text) };
        self.hash(hash)
    }

    /// The latest run time, a FILETIME.
    pub fn run_time(mut self, run_time: u64) -> TestFile {
        self.run_time = run_time;
        self
    }

    /// The run count.
    pub fn run_count(mut self, run_count: u32) -> TestFile {
        self.run_count = run_count;
        self
    }

    /// A metrics entry with this name, which goes into the strings section with
    /// its zero unit.
    pub fn file(self, path: &str) -> TestFile {
        let (offset, text) = (self.strings.len(), ended(path));
        self.strings(&text).metrics(offset as u32, text.len() as u32 / 2 - 1)
    }

    /// A chain of new trace entries, one for each block count, each leading to
    /// the one behind it. What the papers call a block count is a position in
    /// files that Windows wrote, and rises along the chain.
    pub fn chain(mut self, block_counts: &[u32]) -> TestFile {
        for (i, &blocks) in block_counts.iter().enumerate() {
            let behind = (self.trace.len() / 2 + 1) as u32;
            self = self.trace(if i + 1 < block_counts.len() { behind } else { NONE }, blocks);
        }
        self
    }

    /// A volume, with its path, references and directories.
    pub fn volume(mut self, volume: TestVolume) -> TestFile {
        self.volumes.push(volume);
        self
    }

    /// A metrics entry as it stands: where its name begins in the strings
    /// section, in bytes, and its units without the zero.
    pub fn metrics(mut self, name_offset: u32, name_units: u32) -> TestFile {
        self.metrics.extend([name_offset, name_units]);
        self
    }

    /// A trace entry as it stands: next index, or [`NONE`], and block count.
    pub fn trace(mut self, next: u32, block_count: u32) -> TestFile {
        self.trace.extend([next, block_count]);
        self
    }

    /// Bytes at the end of the strings section, as it is so far.
    pub fn strings(mut self, bytes: &[u8]) -> TestFile {
        self.strings.extend(bytes);
        self
    }

    /// Bytes at the end of the volumes section, behind the data of all volumes
    /// of [`TestFile::volume`]. Without any, they are the section.
    pub fn volumes(mut self, bytes: &[u8]) -> TestFile {
        self.volume_bytes.extend(bytes);
        self
    }

    /// Another volume count than that of the calls of [`TestFile::volume`].
    pub fn volume_count(mut self, count: u32) -> TestFile {
        self.volume_count = Some(count);
        self
    }

    /// The file, if the reader takes it; else the reader's refusal.
    pub fn write(&self) -> Result<Vec<u8>, Refusal> {
        write_file_alloc(&self.description(&self.volumes_section()))
    }

    /// [`write_file`] of this file, with lists of the caller's.
    pub fn write_into(
        &self,
        predecessors: &mut [u32],
        output: &mut [u8],
    ) -> Result<Record, Refusal> {
        write_file(&self.description(&self.volumes_section()), predecessors, output)
    }

    /// The writer writes 17 and 23.
    pub(crate) fn version_refusal(&self) -> Option<Refusal> {
        let is_written = matches!(self.version, 17 | 23);
        (!is_written).then_some(Refusal::bare(1))
    }

    fn description<'a>(&'a self, volumes: &'a [u8]) -> Description<'a> {
        Description {
            version: self.version,
            name: &self.name,
            stored_hash: self.stored_hash,
            run_time: self.run_time,
            run_count: self.run_count,
            metrics: &self.metrics,
            trace: &self.trace,
            strings: &self.strings,
            volumes,
            volume_count: self.volume_count.unwrap_or(self.volumes.len() as u32),
        }
    }

    /// The file as [`TestFile::write`] would lay it out, taken by the reader or
    /// not: a file to try readers on, ours and others. It is laid out here and
    /// not by the proved writer. Versions 26 and 30 have layouts of their own,
    /// which the reader takes; one that is not known has that of 23.
    ///
    /// ```
    /// # use hivesaddle::{read_file_alloc, TestFile};
    /// for version in [26, 30] {
    ///     let file = TestFile::new(version).run_count(42).file("A").chain(&[8, 16]);
    ///     assert_eq!(file.write().unwrap_err().number, 1);
    ///     let record = read_file_alloc(&file.lay_out()).unwrap().record;
    ///     assert_eq!((record.version, record.run_count, record.trace_count), (version, 42, 2));
    /// }
    /// ```
    pub fn lay_out(&self) -> Vec<u8> {
        let volumes = self.volumes_section();
        let described = self.description(&volumes);
        let Widths { head, metrics_entry, name_offset, run_time, run_count, .. } =
            widths(self.version);
        let mut file = vec![0; head];
        let name: Vec<u16> = self.name.iter().copied().take_while(|&unit| unit != 0).collect();
        for (place, unit) in name.iter().take(30).enumerate() {
            file[16 + 2 * place..][..2].copy_from_slice(&unit.to_le_bytes());
        }
        file[4..8].copy_from_slice(b"SCCA");
        file[run_time..run_time + 8].copy_from_slice(&self.run_time.to_le_bytes());
        set(&mut file, 0, self.version);
        set(&mut file, 12, described.size().try_into().unwrap_or(u32::MAX));
        set(&mut file, 76, self.stored_hash);
        set(&mut file, run_count, self.run_count);
        set(&mut file, 116, volumes.len() as u32);
        let mut metrics = entries(&self.metrics, metrics_entry, name_offset);
        let trace = match self.version {
            30 => {
                self.name_ranges(&mut metrics, metrics_entry);
                self.trace.chunks_exact(2).flat_map(|pair| [pair[1], 0]).collect()
            }
            _ => self.trace.clone(),
        };
        let trace = entries(&trace, widths(self.version).trace_entry, 0);
        let sections = [
            (84, self.metrics.len() as u32 / 2, &metrics),
            (92, self.trace.len() as u32 / 2, &trace),
            (100, self.strings.len() as u32, &self.strings),
            (108, described.volume_count, &volumes),
        ];
        for (field, count, section) in sections {
            let start = file.len() as u32;
            set(&mut file, field, start);
            set(&mut file, field + 4, count);
            file.extend(section);
        }
        file
    }

    /// Version 30 has no next index: metrics entry k says where chain k begins in
    /// the array, and how many entries it has.
    fn name_ranges(&self, metrics: &mut [u8], metrics_entry: usize) {
        let next: Vec<u32> = self.trace.chunks_exact(2).map(|pair| pair[0]).collect();
        let ends = |i: &usize| next[*i] != *i as u32 + 1;
        let behind = (0..next.len()).filter(ends).map(|last| last + 1);
        let mut start = 0;
        for (entry, end) in metrics.chunks_exact_mut(metrics_entry).zip(behind) {
            set(entry, 0, start as u32);
            set(entry, 4, (end - start) as u32);
            start = end;
        }
    }

    /// The entries; then for each volume its path, references and directories;
    /// then the bytes given besides.
    fn volumes_section(&self) -> Vec<u8> {
        let Widths { volume_entry, references_mark, .. } = widths(self.version);
        let mut section = vec![0; self.volumes.len() * volume_entry];
        for (i, volume) in self.volumes.iter().enumerate() {
            volume.add(&mut section, i * volume_entry, references_mark);
        }
        section.extend(&self.volume_bytes);
        section
    }
}

impl TestVolume {
    /// Fills the entry at a place of the section, and puts the data at its end.
    fn add(&self, section: &mut Vec<u8>, entry: usize, references_mark: u32) {
        section[entry + 8..entry + 16].copy_from_slice(&self.creation_time.to_le_bytes());
        set(section, entry + 16, self.serial_number);
        let path = ended(&self.path);
        let start = section.len() as u32;
        set(section, entry, start);
        set(section, entry + 4, path.len() as u32 / 2 - 1);
        section.extend(path);
        self.add_references(section, entry, references_mark);
        let start = section.len() as u32;
        set(section, entry + 28, start);
        set(section, entry + 32, self.directories.len() as u32);
        for directory in &self.directories {
            let text = ended(directory);
            section.extend((text.len() as u32 / 2 - 1).to_le_bytes()[..2].iter());
            section.extend(text);
        }
    }

    /// At a multiple of eight, as Windows has them.
    fn add_references(&self, section: &mut Vec<u8>, entry: usize, mark: u32) {
        section.resize(section.len().next_multiple_of(8), 0);
        let start = section.len() as u32;
        let count = self.references.len() as u32;
        set(section, entry + 20, start);
        set(section, entry + 24, 8 + 8 * count);
        section.extend(mark.to_le_bytes());
        section.extend(count.to_le_bytes());
        for reference in &self.references {
            section.extend(&reference.entry_index.to_le_bytes()[..6]);
            section.extend(reference.sequence_number.to_le_bytes());
        }
    }
}

fn set(bytes: &mut [u8], at: usize, number: u32) {
    bytes[at..at + 4].copy_from_slice(&number.to_le_bytes());
}

fn units(text: &str) -> Vec<u8> {
    text.encode_utf16().flat_map(u16::to_le_bytes).collect()
}

/// With a zero unit behind it.
fn ended(text: &str) -> Vec<u8> {
    let mut bytes = units(text);
    bytes.extend([0, 0]);
    bytes
}

/// An entry of so many bytes for each pair, which stands at one place in it.
fn entries(pairs: &[u32], size: usize, place: usize) -> Vec<u8> {
    let mut section = vec![0; pairs.len() / 2 * size];
    for (pair, entry) in pairs.chunks_exact(2).zip(section.chunks_exact_mut(size)) {
        set(entry, place, pair[0]);
        set(entry, place + 4, pair[1]);
    }
    section
}
