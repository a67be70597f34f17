//! An independent reading of the requirements (`reference`), a seeded
//! generator of inputs, and the groups that compare the two with the library.
//! `boundary` is what surrounds a call of the library; `plain` is a quick
//! reader that the library is timed beside.

pub mod boundary;
pub mod generate;
pub mod groups;
pub mod plain;
pub mod random;
pub mod reference;
pub mod tally;
pub mod typical;
