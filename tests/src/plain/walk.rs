//! The walk along all chains, as one would write it by hand: from each slot
//! that holds no entry, along the links.

use super::*;
use hivesaddle::Walk;

pub fn walk(file: &[u8], predecessors: &mut [u32], order: &mut [u32]) -> Result<Walk, Refusal> {
    let record = read_file(file, predecessors)?;
    if record.version == 30 {
        return Ok(Walk { steps: 0, total: 0 });
    }
    let count = record.trace_count as usize;
    if order.len() < count {
        predecessors.fill(END);
        return refused(23, 0, 0);
    }
    Ok(walk_alone(file, &predecessors[..count], order))
}

/// Behind an acceptance: the table has one slot for each entry, and the order
/// as many places.
pub fn walk_alone(file: &[u8], table: &[u32], order: &mut [u32]) -> Walk {
    let start = number(file, 92);
    let trace =
        if table.is_empty() { &[] } else { &file[start..start + TRACE_ENTRY * table.len()] };
    let (mut steps, mut total) = (0, 0);
    for (head, _) in table.iter().enumerate().filter(|(_, &place)| place == END) {
        let mut at = head as u32;
        while at != END {
            order[steps] = at;
            steps += 1;
            total += number(trace, TRACE_ENTRY * at as usize + 4) as u64;
            at = next(trace, at as usize);
        }
    }
    Walk { steps: steps as u32, total }
}

#[cfg(test)]
mod beside_the_reference {
    use super::*;
    use crate::generate::any;
    use crate::generate::damage::edits;
    use crate::random::Random;
    use crate::reference;

    fn same(random: &mut Random, file: &[u8], places: usize) -> bool {
        let fewer = random.below(places + 1);
        let length = *random.pick(&[places, places + 2, fewer]);
        let expected = reference::walk::walk(file, places, length);
        let (mut slots, mut order) = (vec![7; places], vec![7; length]);
        let given = walk(file, &mut slots, &mut order);
        assert_eq!(expected.predecessors, slots);
        let list = match (&expected.outcome, given) {
            (Ok(walk), Ok(given)) => {
                assert_eq!(walk.order.len(), given.steps as usize);
                assert_eq!(walk.total, given.total);
                &walk.order[..]
            }
            (Err(refusal), Err(given)) => {
                assert_eq!(refusal.number, given.number as u64);
                assert_eq!((refusal.index, refusal.offset), (given.index, given.offset));
                &[]
            }
            (expected, given) => panic!("{expected:?} but {given:?}"),
        };
        assert_eq!(order[..list.len()], *list);
        assert!(order[list.len()..].iter().all(|&place| place == 7));
        given.is_ok()
    }

    #[test]
    fn sound_edited_and_cut_files() {
        let mut random = Random::new(6);
        let mut walks = 0;
        for _ in 0..20_000 {
            let mut sample = any(&mut random);
            walks += same(&mut random, &sample.bytes, sample.places) as u32;
            edits(&mut random, &mut sample);
            walks += same(&mut random, &sample.bytes, sample.places) as u32;
            sample.bytes.truncate(random.below(sample.bytes.len()));
            walks += same(&mut random, &sample.bytes, sample.places) as u32;
        }
        assert!(walks > 10_000, "{walks}");
    }
}
