//! The requirements, put into Rust plainly and in their own order. Nothing
//! here is meant to be fast, and nothing here calls the library. The names
//! are those of the glossary in docs/ARCHITECTURE.md.

pub mod catalogue;
pub mod checks;
pub mod cost;
pub mod hashes;
pub mod head;
pub mod layout;
pub mod listing;
pub mod path_from;
pub mod pieces;
pub mod queries;
pub mod readers;
pub mod replay;
pub mod search;
pub mod trace;
pub mod volume_lists;
pub mod volumes;
pub mod walk;
pub mod writer;
pub mod year;
