//! The groups of comparisons, by name.

use crate::random::Random;
use crate::tally::Tally;

mod catalogue;
mod costs;
mod hashes;
mod links;
pub mod listing;
mod path_from;
mod path_from_points;
mod piece_points;
mod pieces;
mod powers;
mod prefixes;
mod queries;
mod query_points;
mod reader_points;
mod readers;
mod replay_points;
pub mod replay_program;
mod replays;
mod version_30;
mod volume_list_points;
mod volume_lists;
mod volumes;
mod walks;
mod write_points;
pub mod writes;
mod year_limits;
mod year_points;
mod years;

/// What a run is asked for.
pub struct Run {
    pub seed: u64,
    /// Multiplies the number of random inputs.
    pub scale: usize,
}

impl Run {
    /// Each group has its own sequence, so that it can be repeated alone.
    pub fn random(&self, group: &str) -> Random {
        let mark = group.bytes().fold(0u64, |mark, byte| mark * 31 + byte as u64);
        Random::new(self.seed ^ mark)
    }
}

pub type Group = (&'static str, fn(&Run, &mut Tally));

pub const GROUPS: &[Group] = &[
    ("hashes", hashes::run),
    ("powers", powers::run),
    ("catalogue", catalogue::run),
    ("readers", readers::run),
    ("prefixes", prefixes::run),
    ("links", links::run),
    ("volumes", volumes::run),
    ("queries", queries::run),
    ("volume_lists", volume_lists::run),
    ("path_from", path_from::run),
    ("costs", costs::run),
    ("version_30", version_30::run),
    ("walks", walks::run),
    ("writes", writes::run),
    ("replays", replays::run),
    ("pieces", pieces::run),
    ("years", years::run),
    ("listing", listing::run),
];
