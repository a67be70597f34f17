//! What surrounds a call over the C boundary.
//!
//! - `asking`: a query to the library, and one that lists pairs, with the list
//!   that it writes to.
//! - `guarded`: a list that is handed over, with noise in it and on both sides.
//! - `numbers`: what a verdict of the reference is as numbers, in the order of
//!   `out`.
//! - `outputs`: the lists that a reader writes to, before a call and after it.
//! - `comparison`: a reader of the library beside that of the reference.
//! - `pieces`: the three calls of the replay in pieces, each with the lists that
//!   it writes to.
//! - `replaying`: the replay of the library, with the lists that it writes to.
//! - `tabling`: the year's table of the library, with the lists that it writes to.
//! - `walking`: the walk of the library, with the lists that it writes to.
//! - `writing`: the writer of the library, with the lists that it writes to.

mod asking;
mod comparison;
mod guarded;
mod numbers;
mod outputs;
mod pieces;
mod replaying;
mod tabling;
mod walking;
mod writing;

pub use asking::{compare_pairs, compare_query, Asked, Number};
pub use comparison::{compare_both, compare_reader, Reader, PREFIX_READER, WHOLE_READER};
pub use guarded::{guarded_bytes, guarded_u32, guarded_u64, inner_of, Guarded};
pub use numbers::{answer_numbers, numbers_of, replay_numbers, walk_numbers, year_numbers};
pub use outputs::{Outcome, Outputs, RawReader};
pub use pieces::{PieceLists, Told};
pub use replaying::{compare_replay, ReplayInput, ReplayLengths, ReplayOutputs};
pub use tabling::{compare_year, YearInput, YearLengths, YearOutputs};
pub use walking::{compare_walk, WalkOutputs};
pub use writing::{compare_write, WriteOutputs};

use hivesaddle::raw as constants;
