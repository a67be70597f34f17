#![no_std]
#![warn(missing_docs, clippy::undocumented_unsafe_blocks)]
#![doc = include_str!("../README.md")]
//!
//! # What there is
//!
//! | | without a heap | with feature `alloc` |
//! |---|---|---|
//! | a whole file | [`read_file`] | [`read_file_alloc`] |
//! | a file that is still coming | [`read_prefix`] | |
//! | its name, and the files loaded | [`program_name`], [`names`], [`entry_name`], [`entry_reference`] | |
//! | which of them is the program | [`find_path`], [`find_path_from`], [`list_paths`] | [`list_paths_alloc`] |
//! | its volumes | [`volumes`], [`volume()`] | |
//! | what a volume lists | [`directories_iter`], [`references_iter`], [`reference()`] | [`directories`], [`references`] |
//! | its trace entries | [`chains`], [`walk()`] | |
//! | what a file costs to look at | [`cost()`] | |
//! | names as text, times as dates | [`Text`], [`FileTime`] | |
//! | path hashes | [`hash_xp_bytes`], [`hash_vista_bytes`] and others | |
//! | files to test with | [`write_file`] | [`TestFile`], [`write_file_alloc`] |
//! | catalogue lines | [`catalogue_read`], [`catalogue_write`] | |
//! | temperatures at program starts | [`replay_into`], [`ReplayInto`] | [`replay()`], [`Replay`] |
//! | the table at year's end | [`year_table_into`] | [`year_table`] |
//!
//! Every function takes any bytes, any index and any buffer length and comes
//! to an end. Numbers in a file are little-endian. A text is UTF-16 units kept
//! as they stand, and is handed over as bytes, low byte first.
//!
//! What a file is said to have is the proved library's answer. The crate adds
//! names as text, times as dates, refusals in words, files that are odd on purpose
//! ([`TestFile::lay_out`]), and how far [`names`] and [`volumes`] go; these are
//! tested and not proved.

#[cfg(feature = "alloc")]
extern crate alloc;
#[cfg(feature = "std")]
extern crate std;

mod catalogue;
mod constants;
mod cost;
#[cfg(feature = "alloc")]
mod description;
mod hashes;
mod parts;
mod queries;
pub mod raw;
mod readers;
mod refusal;
mod replay;
#[cfg(feature = "alloc")]
mod test_file;
mod text;
mod time;
mod volume_lists;
mod walk;
mod writer;
mod year;

pub use catalogue::{
    catalogue_read, catalogue_write, CatalogueFields, CATALOGUE_LINE_LENGTH,
    CATALOGUE_OLD_LINE_LENGTH,
};
pub use cost::{cost, Cost};
pub use hashes::{
    hash_2008, hash_2008_bytes, hash_powers, hash_powers_bytes, hash_swap, hash_swap_bytes,
    hash_vista, hash_vista_bytes, hash_xp, hash_xp_bytes,
};
pub use parts::{names, volumes};
pub use queries::{
    entry_name, entry_reference, find_path, find_path_from, list_paths, places, program_name,
    reference, volume, EntryReference, FoundPath, Reference, Volume,
};
pub use readers::{read_file, read_prefix, Record, Verdict};
pub use refusal::{Refusal, RefusalText, RefusalWords};
pub use replay::{replay_into, BadLine, Reading, ReplayInto, Start};
pub use text::{LoneSurrogate, Text, Units};
pub use time::FileTime;
pub use volume_lists::{
    directories_into, directories_iter, references_into, references_iter, TooShort,
};
pub use walk::{chains, walk, Chains, Walk};
pub use writer::{write_file, Description};
pub use year::{
    year_table_into, Readings, YearRefusal, YearRow, YearStart, YEAR_MOST_LINES, YEAR_MOST_ROWS,
    YEAR_MOST_STARTS, YEAR_ROW_LENGTH,
};

#[cfg(feature = "alloc")]
pub use {
    description::{DescribedFile, DescriptionError},
    queries::list_paths_alloc,
    readers::{read_file_alloc, FileContents},
    replay::{replay, Replay},
    test_file::{TestFile, TestVolume},
    volume_lists::{directories, references},
    writer::write_file_alloc,
    year::year_table,
};

/// The number of the interface that the crate was written for.
pub const INTERFACE: u32 = raw::HS_INTERFACE;

/// The number of the interface of the library that is linked.
///
/// ```
/// assert_eq!(hivesaddle::interface(), hivesaddle::INTERFACE);
/// ```
pub fn interface() -> u32 {
    // SAFETY: it takes nothing.
    unsafe { raw::hs_interface() }
}

/// What a slot of `predecessors` holds where it has no entry, and every slot
/// after an answer that is no acceptance; and each place of `work` after a
/// replay.
pub const NONE: u32 = raw::HS_NONE;
