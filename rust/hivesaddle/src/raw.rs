//! The C functions and constants as they stand. The functions of the crate are
//! these with slices, and cost nothing more.
//!
//! `out` takes as many values as fit; the rest of it stays as it was.
//!
//! # Safety
//!
//! A list is a pointer and then a count of elements. It must point to that many
//! elements, aligned as their type is; with a count of 0 it may be any pointer, a
//! null pointer too. A list that a call writes must not overlap another of the
//! same call. That is all: contents, indexes and numbers may be anything, every
//! call comes to an end, and no pointer is kept.

pub use crate::constants::*;

extern "C" {
    /// The number [`HS_INTERFACE`] of the header that the library was made
    /// with.
    pub fn hs_interface() -> u32;
}

extern "C" {
    /// The hash of Windows XP and 2003, over a list of numbers.
    pub fn hs_hash_xp(numbers: *const u32, count: usize) -> u32;
    /// The hash of Windows Vista, over a list of numbers.
    pub fn hs_hash_vista(numbers: *const u32, count: usize) -> u32;
    /// The hash of Windows 2008, 7, 8 and 8.1, over a list of numbers.
    pub fn hs_hash_2008(numbers: *const u32, count: usize) -> u32;
    /// `hs_hash_xp` over the bytes of a text.
    pub fn hs_hash_xp_bytes(text: *const u8, length: usize) -> u32;
    /// `hs_hash_vista` over the bytes of a text.
    pub fn hs_hash_vista_bytes(text: *const u8, length: usize) -> u32;
    /// `hs_hash_2008` over the bytes of a text.
    pub fn hs_hash_2008_bytes(text: *const u8, length: usize) -> u32;
    /// `hs_hash_vista` by a table of powers of 37.
    pub fn hs_hash_powers(numbers: *const u32, count: usize) -> u32;
    /// `hs_hash_powers` over the bytes of a text.
    pub fn hs_hash_powers_bytes(text: *const u8, length: usize) -> u32;
    /// 0 or 25. `out`: hash.
    pub fn hs_hash_swap(
        old_hash: u32,
        old: *const u32,
        old_count: usize,
        p: u64,
        start: *const u32,
        start_count: usize,
        out: *mut u64,
        out_length: usize,
    ) -> u32;
    /// 0 or 25. `out`: hash.
    pub fn hs_hash_swap_bytes(
        old_hash: u32,
        old: *const u8,
        old_length: usize,
        p: u64,
        start: *const u8,
        start_length: usize,
        out: *mut u64,
        out_length: usize,
    ) -> u32;

    /// 0 or 18. `out`: size, stored hash, run count, version.
    pub fn hs_catalogue_read(
        line: *const u8,
        length: usize,
        out: *mut u64,
        out_length: usize,
    ) -> u32;
    /// 0 or 19.
    pub fn hs_catalogue_write(
        size: u32,
        stored_hash: u32,
        run_count: u32,
        version: u32,
        output: *mut u8,
        length: usize,
    ) -> u32;
}

extern "C" {
    /// [`HS_ACCEPTED`], [`HS_REFUSED`] or [`HS_WANTED`]. `out`: the numbers
    /// from [`HS_NUMBER`] to [`HS_RUN_TIME_8`], [`HS_READER_OUT`] in all.
    pub fn hs_read_prefix(
        file: *const u8,
        length: usize,
        predecessors: *mut u32,
        places: usize,
        out: *mut u64,
        out_length: usize,
    ) -> u32;
    /// As `hs_read_prefix`, but never [`HS_WANTED`].
    pub fn hs_read_file(
        file: *const u8,
        length: usize,
        predecessors: *mut u32,
        places: usize,
        out: *mut u64,
        out_length: usize,
    ) -> u32;
    /// [`HS_ACCEPTED`] where it walked, or [`HS_REFUSED`]. `out`: the numbers
    /// from [`HS_WALK_NUMBER`] to [`HS_WALK_TOTAL`], [`HS_WALK_OUT`] in all.
    pub fn hs_walk(
        file: *const u8,
        length: usize,
        predecessors: *mut u32,
        places: usize,
        order: *mut u32,
        order_length: usize,
        out: *mut u64,
        out_length: usize,
    ) -> u32;
    /// [`HS_ACCEPTED`] where it wrote, or [`HS_REFUSED`]. `out`: as of the
    /// readers.
    pub fn hs_write_file(
        version: u32,
        name: *const u16,
        name_length: usize,
        stored_hash: u32,
        run_time: u64,
        run_count: u32,
        metrics: *const u32,
        metrics_length: usize,
        trace: *const u32,
        trace_length: usize,
        strings: *const u8,
        strings_length: usize,
        volumes: *const u8,
        volumes_length: usize,
        volume_count: u32,
        predecessors: *mut u32,
        places: usize,
        output: *mut u8,
        output_length: usize,
        out: *mut u64,
        out_length: usize,
    ) -> u32;
    /// 1 for a yes and 0 for a no. `out`: the slots of
    /// `predecessors` that both need.
    pub fn hs_places(file: *const u8, length: usize, out: *mut u64, out_length: usize) -> u32;
}

// Each gives 1 for a yes and 0 for a no.
extern "C" {
    /// `out`: offset in the file, length in bytes.
    pub fn hs_program_name(file: *const u8, length: usize, out: *mut u64, out_length: usize)
        -> u32;
    /// `out`: offset in the file, length in bytes.
    pub fn hs_entry_name(
        file: *const u8,
        length: usize,
        i: u64,
        out: *mut u64,
        out_length: usize,
    ) -> u32;
    /// `out`: creation time, serial number, references, directories, path
    /// offset in the file, path length in bytes.
    pub fn hs_volume(
        file: *const u8,
        length: usize,
        i: u64,
        out: *mut u64,
        out_length: usize,
    ) -> u32;
    /// `out`: entry index, sequence number.
    pub fn hs_reference(
        file: *const u8,
        length: usize,
        i: u64,
        k: u64,
        out: *mut u64,
        out_length: usize,
    ) -> u32;
    /// `out`: 1 where the version has the field and 0 where it has not, entry
    /// index, sequence number.
    pub fn hs_entry_reference(
        file: *const u8,
        length: usize,
        i: u64,
        out: *mut u64,
        out_length: usize,
    ) -> u32;
    /// `out`: entry index, number.
    pub fn hs_find_path(file: *const u8, length: usize, out: *mut u64, out_length: usize) -> u32;
    /// `out`: entry index, number.
    pub fn hs_find_path_from(
        file: *const u8,
        length: usize,
        volume: u64,
        start: *const u8,
        start_length: usize,
        out: *mut u64,
        out_length: usize,
    ) -> u32;
    /// `out`: names, directories.
    pub fn hs_cost(file: *const u8, length: usize, out: *mut u64, out_length: usize) -> u32;
}

extern "C" {
    /// The full count. `pairs`: entry index, number, and so on, as many whole
    /// pairs as fit.
    pub fn hs_list_paths(
        file: *const u8,
        length: usize,
        pairs: *mut u32,
        pairs_length: usize,
    ) -> u64;
    /// The full count. `pairs`: offset in the file, units, and so on, as many
    /// whole pairs as fit.
    pub fn hs_directories(
        file: *const u8,
        length: usize,
        volume: u64,
        pairs: *mut u32,
        pairs_length: usize,
    ) -> u64;
    /// The full count. `pairs`: entry index, sequence number, and so on, as
    /// many whole pairs as fit.
    pub fn hs_references(
        file: *const u8,
        length: usize,
        volume: u64,
        pairs: *mut u64,
        pairs_length: usize,
    ) -> u64;
}

extern "C" {
    /// 0 or 22. `answers`: [`HS_ANSWER_LENGTH`] numbers for each start, as many
    /// whole answers as fit. `out`: line number.
    pub fn hs_replay(
        recording: *const u8,
        length: usize,
        times: *const u64,
        times_length: usize,
        boards: *const u8,
        boards_length: usize,
        work: *mut u32,
        work_length: usize,
        answers: *mut u64,
        answers_length: usize,
        out: *mut u64,
        out_length: usize,
    ) -> u32;
}

// The replay in pieces.
extern "C" {
    /// Always 0. `out`: lines (0), first bad line (0), starts served. `work` takes
    /// their order.
    pub fn hs_replay_begin(
        times: *const u64,
        times_length: usize,
        boards: *const u8,
        boards_length: usize,
        work: *mut u32,
        work_length: usize,
        answers: *mut u64,
        answers_length: usize,
        out: *mut u64,
        out_length: usize,
    ) -> u32;
    /// Always 0. `out`: lines, first bad line or 0, bytes of the piece that need not
    /// come again.
    pub fn hs_replay_feed(
        lines: u64,
        bad: u64,
        piece: *const u8,
        length: usize,
        times: *const u64,
        times_length: usize,
        boards: *const u8,
        boards_length: usize,
        work: *const u32,
        work_length: usize,
        answers: *mut u64,
        answers_length: usize,
        out: *mut u64,
        out_length: usize,
    ) -> u32;
    /// 0 or 22. `out`: line number.
    pub fn hs_replay_finish(
        lines: u64,
        bad: u64,
        waiting: u64,
        times: *const u64,
        times_length: usize,
        boards: *const u8,
        boards_length: usize,
        work: *mut u32,
        work_length: usize,
        answers: *mut u64,
        answers_length: usize,
        out: *mut u64,
        out_length: usize,
    ) -> u32;
}

extern "C" {
    /// 0, 18, 24 or 26. `rows`: [`HS_YEAR_ROW_LENGTH`] numbers for each row, as
    /// many whole rows as fit. `out`: place, number of rows.
    pub fn hs_year_table(
        lines: *const u8,
        length: usize,
        hashes: *const u32,
        starts: usize,
        answers: *const u64,
        answers_length: usize,
        rows: *mut u64,
        rows_length: usize,
        out: *mut u64,
        out_length: usize,
    ) -> u32;
}
