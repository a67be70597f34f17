//! The names of programs, from the files that they left.

use crate::files::Wanted;
use crate::look::{each_look, Look};
use crate::outcome::Outcome;
use crate::pulls::Pull;
use crate::text::utf16;
use hivesaddle::program_name;
use std::collections::BTreeMap;

/// Names shown of one hash. There is one as a rule.
const MOST: usize = 4;

/// The names of the hashes asked for, as they stand in the files: UTF-16, low
/// byte first.
pub struct Names {
    of_hash: BTreeMap<u32, Vec<Vec<u8>>>,
    /// The worst that came of a file. The others have their names all the same.
    pub outcome: Outcome,
}

impl Names {
    pub fn read(files: Wanted, hashes: impl Iterator<Item = u32>) -> Names {
        let mut of_hash: BTreeMap<u32, Vec<Vec<u8>>> =
            hashes.map(|hash| (hash, Vec::new())).collect();
        let mut outcome = Outcome::Done;
        // Nothing is written here that could fail.
        let _ = each_look(files, &mut outcome, |name, look| {
            look.complain(name);
            if let Look::Accepted(file, record) = look {
                if let Some(known) = of_hash.get_mut(&record.stored_hash) {
                    add(known, program_name(file).unwrap_or_default());
                }
            }
            Ok(())
        });
        Names { of_hash, outcome }
    }

    /// The names that files read already have.
    pub fn of_pulls(pulls: &[Pull]) -> Names {
        let mut of_hash: BTreeMap<u32, Vec<Vec<u8>>> = BTreeMap::new();
        for pull in pulls {
            add(of_hash.entry(pull.record.stored_hash).or_default(), &pull.program);
        }
        Names { of_hash, outcome: Outcome::Done }
    }

    /// All names of a hash, with commas between them; empty where none is known.
    pub fn joined(&self, hash: u32) -> Vec<u8> {
        let known = self.of_hash.get(&hash).map_or(&[][..], Vec::as_slice);
        let mut names: Vec<Vec<u8>> = known.iter().take(MOST).cloned().collect();
        if known.len() > MOST {
            names.push(utf16("..."));
        }
        names.join(&utf16(", ")[..])
    }
}

/// One more than are shown says that there are more.
fn add(known: &mut Vec<Vec<u8>>, name: &[u8]) {
    if known.len() <= MOST && !known.iter().any(|old| old == name) {
        known.push(name.to_vec());
    }
}
