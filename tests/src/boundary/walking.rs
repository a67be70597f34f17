//! The walk of the library beside an answer, with the three lists that it
//! writes to: `out`, `predecessors` and `order`.

use super::guarded::{guarded_u32, guarded_u64, Guarded};
use super::numbers::walk_numbers;
use crate::random::Random;
use crate::reference::walk::Walked;
use crate::tally::{hex, Tally};
use hivesaddle::raw::{hs_walk, HS_WALK_OUT};

/// What a walk gave back and left behind, with the margins of all lists.
#[derive(Debug, PartialEq, Eq)]
pub struct WalkOutcome {
    code: u32,
    out: Vec<u64>,
    predecessors: Vec<u32>,
    order: Vec<u32>,
}

/// The lists for one call.
pub struct WalkOutputs {
    out: Guarded<u64>,
    predecessors: Guarded<u32>,
    order: Guarded<u32>,
}

impl WalkOutputs {
    pub fn new(
        random: &mut Random,
        out_length: usize,
        places: usize,
        order_length: usize,
    ) -> WalkOutputs {
        WalkOutputs {
            out: guarded_u64(random, out_length),
            predecessors: guarded_u32(random, places),
            order: guarded_u32(random, order_length),
        }
    }

    /// What the answer has to leave here: nothing in `order` after a refusal.
    pub fn expected(&self, walked: &Walked) -> WalkOutcome {
        let (code, values) = walk_numbers(&walked.outcome);
        let order = walked.outcome.as_ref().map_or(&[][..], |walk| &walk.order);
        WalkOutcome {
            code,
            out: self.out.after_writing(&values),
            predecessors: self.predecessors.after_writing(&walked.predecessors),
            order: self.order.after_writing(order),
        }
    }

    pub fn call(mut self, file: &[u8]) -> WalkOutcome {
        let (out, order) = (self.out.inner(), self.order.inner());
        let predecessors = self.predecessors.inner();
        let code = unsafe {
            hs_walk(
                file.as_ptr(),
                file.len(),
                predecessors.as_mut_ptr(),
                predecessors.len(),
                order.as_mut_ptr(),
                order.len(),
                out.as_mut_ptr(),
                out.len(),
            )
        };
        WalkOutcome {
            code,
            out: self.out.all().to_vec(),
            predecessors: self.predecessors.all().to_vec(),
            order: self.order.all().to_vec(),
        }
    }
}

/// The library beside an answer, with places for so many entries. Now and then
/// `out` has some other length.
pub fn compare_walk(
    random: &mut Random,
    tally: &mut Tally,
    walked: &Walked,
    file: &[u8],
    order_length: usize,
) {
    let out_length = match random.one_in(4) {
        true => random.below(HS_WALK_OUT + 2),
        false => HS_WALK_OUT,
    };
    let places = walked.predecessors.len();
    let outputs = WalkOutputs::new(random, out_length, places, order_length);
    let expected = outputs.expected(walked);
    let given = outputs.call(file);
    let input = || format!("{places} slots, {order_length} places, {}", hex(file));
    tally.same("walk", &(expected.code, expected.out), &(given.code, given.out), input);
    tally.same("walk, order", &expected.order, &given.order, input);
    tally.same("walk, predecessors", &expected.predecessors, &given.predecessors, input);
}
