//! The constants of each version, and numbers in a file.

/// One head form of a version.
#[derive(Debug)]
pub struct Layout {
    pub version: u32,
    /// The metrics offset that tells the form, where the version goes by it.
    pub metrics_start: Option<u64>,
    /// The latest run time; older ones follow it.
    pub run_time: usize,
    /// Run times, the latest included.
    pub time_count: usize,
    pub run_count: usize,
    /// H, the end of the last field read.
    pub head_end: u64,
    pub metrics_entry: u64,
    pub name_offset: usize,
    pub name_length: usize,
    /// Where a metrics entry has its file reference, if it has one.
    pub file_reference: Option<usize>,
    pub trace_entry: u64,
    /// Whether a trace entry has a next index. It is then the first field, and
    /// the block count follows; otherwise the block count is the first.
    pub has_next: bool,
    pub volume_entry: u64,
}

/// A second head form of a version is one row more.
pub const LAYOUTS: [Layout; 4] = [
    Layout {
        version: 17,
        metrics_start: None,
        run_time: 120,
        time_count: 1,
        run_count: 144,
        head_end: 148,
        metrics_entry: 20,
        name_offset: 8,
        name_length: 12,
        file_reference: None,
        trace_entry: 12,
        has_next: true,
        volume_entry: 40,
    },
    Layout {
        version: 23,
        metrics_start: None,
        run_time: 128,
        time_count: 1,
        run_count: 152,
        head_end: 156,
        metrics_entry: 32,
        name_offset: 12,
        name_length: 16,
        file_reference: Some(24),
        trace_entry: 12,
        has_next: true,
        volume_entry: 104,
    },
    Layout {
        version: 26,
        metrics_start: None,
        run_time: 128,
        time_count: 8,
        run_count: 208,
        head_end: 212,
        metrics_entry: 32,
        name_offset: 12,
        name_length: 16,
        file_reference: Some(24),
        trace_entry: 12,
        has_next: true,
        volume_entry: 104,
    },
    // The one form that the source names: the head of version 26, and so its
    // metrics offset of 0x130.
    Layout {
        version: 30,
        metrics_start: Some(304),
        run_time: 128,
        time_count: 8,
        run_count: 208,
        head_end: 212,
        metrics_entry: 32,
        name_offset: 12,
        name_length: 16,
        file_reference: Some(24),
        trace_entry: 8,
        has_next: false,
        volume_entry: 96,
    },
];

/// The greatest declared size.
pub const LARGEST_SIZE: u64 = 67_108_864;
/// The end of a chain, and a slot that holds no entry.
pub const END: u32 = 4_294_967_295;

/// The head forms of a version; none where it is not known.
pub fn forms_of(version: u32) -> impl Iterator<Item = &'static Layout> {
    LAYOUTS.iter().filter(move |layout| layout.version == version)
}

/// The smallest H of a version's forms. It is all that can be asked of a size
/// before the form is known.
pub fn least_head_end(version: u32) -> Option<u64> {
    forms_of(version).map(|layout| layout.head_end).min()
}

/// The form of a version with this metrics offset.
pub fn form_with(version: u32, metrics_start: u64) -> Option<&'static Layout> {
    forms_of(version).find(|layout| layout.metrics_start.is_none_or(|start| start == metrics_start))
}
