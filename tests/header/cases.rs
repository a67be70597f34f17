//! The calls: every function with an answer and, where it has one, a refusal or a no; lists of length 0 and ones that do not
//! take all; and arguments of one type that cannot be taken for each other.

mod files;
pub mod replays;
mod texts;

use crate::call::Call;
use crate::judge::constants::HS_INTERFACE;

pub fn all() -> Vec<Call> {
    let mut calls = vec![Call::of("hs_interface", |_| HS_INTERFACE)];
    calls.extend(files::all());
    calls.extend(texts::all());
    calls.extend(replays::all());
    calls
}
