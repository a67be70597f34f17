//! The numbers of `include/hivesaddle.h`, under the names that they have
//! there; `tests/header.rs` holds the two together.

/// The number of the interface, which grows with every change of it. That of
/// the library linked is what `hs_interface` gives.
pub const HS_INTERFACE: u32 = 1;

// What both readers give back, and the walk and the writer the first two of
// them.

/// The file is sound, or has been walked or written.
pub const HS_ACCEPTED: u32 = 0;
/// It is refused; number, index and offset are in `out`.
pub const HS_REFUSED: u32 = 1;
/// More bytes are needed; how many is in `out`.
pub const HS_WANTED: u32 = 2;

// Where each number stands in the readers' `out`, which is the writer's too.

/// Number of the refusal.
pub const HS_NUMBER: usize = 0;
/// Section, entry or volume at fault, or 0.
pub const HS_INDEX: usize = 1;
/// Length that the prefix must have.
pub const HS_BYTES_WANTED: usize = 2;
/// Version.
pub const HS_VERSION: usize = 3;
/// Declared size.
pub const HS_DECLARED_SIZE: usize = 4;
/// Units of the program name before its first zero.
pub const HS_NAME_UNITS: usize = 5;
/// Stored hash.
pub const HS_STORED_HASH: usize = 6;
/// Latest run time, a FILETIME as it stands.
pub const HS_RUN_TIME: usize = 7;
/// Run count.
pub const HS_RUN_COUNT: usize = 8;
/// Metrics entries.
pub const HS_METRICS_COUNT: usize = 9;
/// Trace entries.
pub const HS_TRACE_COUNT: usize = 10;
/// Volumes.
pub const HS_VOLUME_COUNT: usize = 11;
/// Trace entries that no entry names as next; 0 for version 30.
pub const HS_CHAIN_COUNT: usize = 12;
/// Of the refusal: where the field at fault stands in the file.
pub const HS_OFFSET: usize = 13;
/// Run times that the version has.
pub const HS_TIME_COUNT: usize = 14;
/// The run time behind the latest, as it stands; 0 where there is none.
pub const HS_RUN_TIME_2: usize = 15;
/// The third run time, likewise.
pub const HS_RUN_TIME_3: usize = 16;
/// The fourth run time, likewise.
pub const HS_RUN_TIME_4: usize = 17;
/// The fifth run time, likewise.
pub const HS_RUN_TIME_5: usize = 18;
/// The sixth run time, likewise.
pub const HS_RUN_TIME_6: usize = 19;
/// The seventh run time, likewise.
pub const HS_RUN_TIME_7: usize = 20;
/// The eighth run time, likewise.
pub const HS_RUN_TIME_8: usize = 21;
/// The length of an `out` that holds them all.
pub const HS_READER_OUT: usize = 22;

// Where each number stands in the walk's `out`.

/// Number of the refusal.
pub const HS_WALK_NUMBER: usize = 0;
/// Section, entry or volume at fault, or 0.
pub const HS_WALK_INDEX: usize = 1;
/// Where the field at fault stands in the file; 0 for 23.
pub const HS_WALK_OFFSET: usize = 2;
/// Entries visited.
pub const HS_WALK_STEPS: usize = 3;
/// Their block load counts added up.
pub const HS_WALK_TOTAL: usize = 4;
/// The length of an `out` that holds them all.
pub const HS_WALK_OUT: usize = 5;

/// In a slot of `predecessors`: no entry. In every place of the replay's `work`
/// at its end.
pub const HS_NONE: u32 = 4294967295;

/// Bytes of a catalogue line with its line feed, as it is written.
pub const HS_CATALOGUE_LINE_LENGTH: usize = 27;
/// Bytes of an old one, which is read all the same.
pub const HS_CATALOGUE_OLD_LINE_LENGTH: usize = 25;

/// Numbers of an answer of the replay.
pub const HS_ANSWER_LENGTH: usize = 4;
/// Bytes of a reading with its line feed.
pub const HS_READING_LINE_LENGTH: usize = 23;

// Where each number stands in a row of the year's table.

/// Stored hash.
pub const HS_YEAR_HASH: usize = 0;
/// Catalogue lines with that hash.
pub const HS_YEAR_LINES: usize = 1;
/// Their run counts added up.
pub const HS_YEAR_RUN_COUNTS: usize = 2;
/// Readings; where there is none, all behind it are 0.
pub const HS_YEAR_READINGS: usize = 3;
/// Lowest, in tenths of a degree, two's complement in 64 bits.
pub const HS_YEAR_LOWEST: usize = 4;
/// Highest, likewise.
pub const HS_YEAR_HIGHEST: usize = 5;
/// Sum, likewise.
pub const HS_YEAR_SUM: usize = 6;
/// Sum divided by readings, rounded down, likewise.
pub const HS_YEAR_MEAN: usize = 7;
/// Sum less mean times readings.
pub const HS_YEAR_REMAINDER: usize = 8;
/// Numbers of a row.
pub const HS_YEAR_ROW_LENGTH: usize = 9;

/// The most lines that the table is made of.
pub const HS_YEAR_MOST_LINES: usize = 1048576;
/// The most starts that the table is made of.
pub const HS_YEAR_MOST_STARTS: usize = 1048576;
/// The most rows that it has.
pub const HS_YEAR_MOST_ROWS: usize = 1024;
