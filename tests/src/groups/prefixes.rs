//! What the prefix reader says early stands: pairs of prefixes and pairs of
//! buffers, with the library's own answers and nothing beside them.

use super::Run;
use crate::boundary::{inner_of, Outcome, Outputs};
use crate::generate::cuts::cuts;
use crate::generate::damage::{damage, edits, AIMS_BEHIND_HEAD};
use crate::generate::{any, rich, Sample};
use crate::random::Random;
use crate::reference::head::declared_size;
use crate::tally::{hex, Tally};
use hivesaddle::raw::{hs_read_prefix, HS_BYTES_WANTED, HS_READER_OUT, HS_WANTED};

pub fn run(run: &Run, tally: &mut Tally) {
    let mut random = run.random("prefixes");
    for _ in 0..2_000 * run.scale {
        let sample = any_sample(&mut random);
        every_pair(&mut random, &sample, tally);
    }
}

/// Sound, damaged in one way or two, edited, or noise behind a good start.
fn any_sample(random: &mut Random) -> Sample {
    let mut sample = if random.one_in(2) { any(random) } else { rich(random) };
    match random.below(5) {
        0 => {}
        1 => damage_late(random, &mut sample),
        2 => {
            damage_late(random, &mut sample);
            let number = *random.pick(&[21, 5, 6, 7, 8]);
            damage(random, &mut sample, number);
        }
        3 => edits(random, &mut sample),
        _ => {
            let from = random.below(sample.bytes.len());
            let noise = random.bytes(sample.bytes.len() - from);
            sample.bytes[from..].copy_from_slice(&noise);
        }
    }
    if random.one_in(3) {
        let length = random.between(1, 5);
        sample.bytes.extend(random.bytes(length));
    }
    sample
}

fn damage_late(random: &mut Random, sample: &mut Sample) {
    let number = *random.pick(AIMS_BEHIND_HEAD);
    damage(random, sample, number);
}

/// One prefix, read with two buffers that hold different things.
struct Reading {
    length: usize,
    first: Outcome,
    second: Outcome,
}

fn every_pair(random: &mut Random, sample: &Sample, tally: &mut Tally) {
    let mut lengths = cuts(sample);
    for _ in 0..4 {
        lengths.push(random.below(sample.bytes.len() + 1));
    }
    lengths.sort();
    let places = match random.one_in(4) {
        true => random.below(sample.places + 4),
        false => sample.places,
    };
    let readings: Vec<Reading> =
        lengths.into_iter().map(|length| reading(random, sample, length, places)).collect();
    for (place, shorter) in readings.iter().enumerate() {
        for longer in &readings[place..] {
            pair(sample, places, shorter, longer, tally);
        }
    }
}

fn reading(random: &mut Random, sample: &Sample, length: usize, places: usize) -> Reading {
    let prefix = &sample.bytes[..length];
    let mut read = || Outputs::new(random, HS_READER_OUT, places).call(hs_read_prefix, prefix);
    Reading { length, first: read(), second: read() }
}

/// The shorter prefix with its first buffer, the longer with its second.
fn pair(sample: &Sample, places: usize, shorter: &Reading, longer: &Reading, tally: &mut Tally) {
    let input = || {
        let lengths = (shorter.length, longer.length);
        format!("prefixes {lengths:?}, {places} slots, {}", hex(&sample.bytes))
    };
    let (one, other) = (&shorter.first, &longer.second);
    if one.code == HS_WANTED {
        let wanted = inner_of(&one.out)[HS_BYTES_WANTED];
        let exceeds = wanted > shorter.length as u64;
        let stands = same_answer(one, other) == ((longer.length as u64) < wanted);
        tally.same("a request", &(true, true), &(exceeds, stands), input);
    } else {
        let buffers = inner_of(&one.predecessors) == inner_of(&other.predecessors);
        tally.same("an answer", &(true, true), &(same_answer(one, other), buffers), input);
    }
    if complete(&sample.bytes[..longer.length]) {
        tally.holds("no request", other.code != HS_WANTED, input);
    }
}

fn same_answer(one: &Outcome, other: &Outcome) -> bool {
    one.code == other.code && inner_of(&one.out) == inner_of(&other.out)
}

/// At least sixteen bytes, and as many as the declared size.
fn complete(prefix: &[u8]) -> bool {
    prefix.len() >= 16 && prefix.len() as u64 >= declared_size(prefix)
}
