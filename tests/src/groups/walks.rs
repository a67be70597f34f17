//! The walk along all chains: points by hand, seeded files beside the
//! reference, long lists whose order is known from how they are made, and what
//! holds of every walk.

use super::reader_points::refused;
use super::Run;
use crate::boundary::{compare_walk, WalkOutputs};
use crate::generate::bare::{bare, with_blocks, with_links};
use crate::generate::cuts::cuts;
use crate::generate::damage::{aims_of, damage, edits};
use crate::generate::shapes::{every_list, link_run};
use crate::generate::{any, around_links, set_32, sound_of, Counts, Sample};
use crate::random::Random;
use crate::reference::checks::Refusal;
use crate::reference::head::{section, trace_count, TRACE};
use crate::reference::layout::{Layout, END, LAYOUTS};
use crate::reference::readers::{read_file, Verdict};
use crate::reference::trace::{block_count, predecessors};
use crate::reference::walk::{walk, Walk, Walked};
use crate::tally::{hex, Tally};
use hivesaddle::raw::{hs_walk, HS_REFUSED, HS_WALK_OUT};
use std::ptr::{null, null_mut};

/// Entries of a long list.
const LONG: usize = 100_000;

pub fn run(run: &Run, tally: &mut Tally) {
    let mut random = run.random("walks");
    orders(&mut random, tally);
    totals(&mut random, tally);
    refusals(&mut random, tally);
    version_30(&mut random, tally);
    out_lengths(&mut random, tally);
    largest_file(&mut random, tally);
    null_pointers(tally);
    let mut walks = Walks { random, tally, seen: Seen::default() };
    walks.every_short_list();
    walks.sound_files(3_000 * run.scale);
    walks.single_faults(150 * run.scale);
    walks.edited_files(10_000 * run.scale);
    walks.long_lists();
    walks.seen.report(walks.tally);
}

/// The library and the reference both have to give that answer.
fn check(
    random: &mut Random,
    tally: &mut Tally,
    name: &str,
    file: &[u8],
    order_length: usize,
    walked: &Walked,
) {
    let places = walked.predecessors.len();
    let outputs = WalkOutputs::new(random, HS_WALK_OUT, places, order_length);
    let expected = outputs.expected(walked);
    tally.named(name, &expected, &outputs.call(file));
    tally.named(name, walked, &walk(file, places, order_length));
}

fn walked(order: &[u32], total: u64, predecessors: &[u32]) -> Walked {
    let walk = Walk { order: order.to_vec(), total };
    Walked { outcome: Ok(walk), predecessors: predecessors.to_vec() }
}

/// Every slot is filled after a refusal.
fn no_walk(number: u64, index: u64, offset: u64, places: usize) -> Walked {
    let refusal = Refusal { number, index, offset };
    Walked { outcome: Err(refusal), predecessors: vec![END; places] }
}

/// Links, the order of their entries, and their table. Each entry loads as
/// many blocks as its index and one.
fn orders(random: &mut Random, tally: &mut Tally) {
    let cases: [(&[u32], &[u32], &[u32]); 9] = [
        (&[], &[], &[]),
        (&[END], &[0], &[END]),
        (&[1, END], &[0, 1], &[END, 0]),
        (&[END, 0], &[1, 0], &[1, END]),
        (&[END, END, END], &[0, 1, 2], &[END, END, END]),
        (&[END, 0, 1], &[2, 1, 0], &[1, 2, END]),
        (&[3, END, END, 1], &[0, 3, 1, 2], &[END, 3, END, 0]),
        (&[END, 2, 0, 1], &[3, 1, 2, 0], &[2, 3, 1, END]),
        (&[4, END, 1, END, 2, 3], &[0, 4, 2, 1, 5, 3], &[END, 2, 4, 5, 0, END]),
    ];
    for (links, order, table) in cases {
        let count = links.len();
        let blocks: Vec<u32> = (1..=count as u32).collect();
        let file = with_blocks(links, &blocks);
        let total = (count * (count + 1) / 2) as u64;
        for (more_places, more_slots) in [(0, 0), (1, 0), (7, 3)] {
            let mut table = table.to_vec();
            table.extend(vec![END; more_slots]);
            let name = format!("links {links:?}, {more_places} places and {more_slots} slots more");
            check(random, tally, &name, &file, count + more_places, &walked(order, total, &table));
        }
        for length in 0..count {
            let name = format!("links {links:?}, {length} places");
            check(random, tally, &name, &file, length, &no_walk(23, 0, 0, count));
        }
        let mut order_given = vec![77; count + 2];
        let given = hivesaddle::walk(&file, &mut vec![0; count], &mut order_given);
        let expected = hivesaddle::Walk { steps: count as u32, total };
        let tail = [order, &[77, 77]].concat();
        tally.named("the safe call", &(Ok(expected), tail), &(given, order_given));
    }
}

/// Sums past 32 bits, by hand.
fn totals(random: &mut Random, tally: &mut Tally) {
    let most = u32::MAX;
    let cases: [(&[u32], u64); 7] = [
        (&[0, 0], 0),
        (&[most], 4_294_967_295),
        (&[most, 1], 4_294_967_296),
        (&[1, most], 4_294_967_296),
        (&[most, most], 8_589_934_590),
        (&[1 << 31, 1 << 31], 4_294_967_296),
        (&[most, most, most, most], 17_179_869_180),
    ];
    for (blocks, total) in cases {
        let count = blocks.len();
        // One chain, back from the last entry, and chains of one.
        let back: Vec<u32> = [END].into_iter().chain(0..count as u32 - 1).collect();
        let order: Vec<u32> = (0..count as u32).rev().collect();
        let table: Vec<u32> = (1..count as u32).chain([END]).collect();
        let name = format!("blocks {blocks:?}");
        let file = with_blocks(&back, blocks);
        check(random, tally, &name, &file, count, &walked(&order, total, &table));
        let rising: Vec<u32> = (0..count as u32).collect();
        let file = with_blocks(&vec![END; count], blocks);
        check(random, tally, &name, &file, count, &walked(&rising, total, &vec![END; count]));
    }
}

/// The reader's own refusal comes first, whatever the order's length; then 23.
fn refusals(random: &mut Random, tally: &mut Tally) {
    let sound = with_links(&[1, END, END]);
    let mut longer = sound.clone();
    longer.push(0);
    let mut another_version = sound.clone();
    set_32(&mut another_version, 0, 24);
    let mut volumes = sound.clone();
    set_32(&mut volumes, 112, 1);
    let cases: [(&str, &[u8], usize, (u64, u64, u64)); 9] = [
        ("no bytes", &[], 3, (16, 0, 12)),
        ("a byte short", &sound[..183], 3, (16, 0, 12)),
        ("a byte more", &longer, 3, (17, 0, 12)),
        ("version 24", &another_version, 3, (1, 0, 0)),
        ("no room for a volume", &volumes, 3, (8, 0, 112)),
        ("a slot short", &sound, 2, (7, 0, 96)),
        ("a wild link", &with_links(&[1, END, 3]), 3, (11, 2, 172)),
        ("two with one next", &with_links(&[2, 2, END]), 3, (12, 2, 172)),
        ("a cycle", &with_links(&[END, 2, 1]), 3, (13, 1, 160)),
    ];
    for (name, file, places, (number, index, offset)) in cases {
        let expected = no_walk(number, index, offset, places);
        for order_length in [0, 2, 3, 4] {
            let name = format!("{name}, {order_length} places");
            check(random, tally, &name, file, order_length, &expected);
        }
        let given = hivesaddle::walk(file, &mut vec![0; places], &mut []);
        let refusal = hivesaddle::Refusal { number: number as u32, index, offset };
        tally.named(&format!("{name}, the safe call"), &Err(refusal), &given);
        let own = read_file(file, places).verdict;
        tally.named(&format!("{name}, as the reader"), &refused(number, index, offset), &own);
    }
    for places in [3, 4, 9] {
        check(random, tally, "a place short", &sound, 2, &no_walk(23, 0, 0, places));
    }
}

/// No step, whatever the entries hold, and 23 never.
fn version_30(random: &mut Random, tally: &mut Tally) {
    for count in [0, 1, 3] {
        let mut file = bare(30, 8 * count);
        set_32(&mut file, 92, 212);
        set_32(&mut file, 96, count);
        file[212..].fill(0xFF);
        for order_length in [0, 1, 2, 3, 5] {
            for places in [0, 1, 5] {
                let name =
                    format!("version 30, {count} entries, {order_length} places, {places} slots");
                let expected = walked(&[], 0, &vec![END; places]);
                check(random, tally, &name, &file, order_length, &expected);
            }
        }
        set_32(&mut file, 84, 296);
        check(random, tally, "another form", &file, 3, &no_walk(21, 0, 84, 2));
    }
}

fn out_lengths(random: &mut Random, tally: &mut Tally) {
    let file = with_blocks(&[END, 0], &[u32::MAX, 2]);
    for out_length in 0..=HS_WALK_OUT + 1 {
        for order_length in [1, 2, 3] {
            let outputs = WalkOutputs::new(random, out_length, 2, order_length);
            let expected = match order_length {
                1 => no_walk(23, 0, 0, 2),
                _ => walked(&[1, 0], 4_294_967_297, &[1, END]),
            };
            let expected = outputs.expected(&expected);
            let name = format!("out of {out_length}, {order_length} places");
            tally.named(&name, &expected, &outputs.call(&file));
        }
    }
}

/// As many entries as a file can have, in chains of eight, each entry with the
/// greatest block count.
fn largest_file(random: &mut Random, tally: &mut Tally) {
    let entries = 5_592_393;
    let next = |entry: u32| match entry % 8 == 7 || entry + 1 == entries {
        true => END,
        false => entry + 1,
    };
    let links: Vec<u32> = (0..entries).map(next).collect();
    let file = with_blocks(&links, &vec![u32::MAX; entries as usize]);
    let order: Vec<u32> = (0..entries).collect();
    let predecessor = |entry: u32| if entry % 8 == 0 { END } else { entry - 1 };
    let table: Vec<u32> = (0..entries).map(predecessor).collect();
    let expected = walked(&order, entries as u64 * u32::MAX as u64, &table);
    check(random, tally, "the largest file", &file, entries as usize, &expected);
}

fn null_pointers(tally: &mut Tally) {
    let (numbers, out) = (null_mut(), null_mut());
    let given = unsafe { hs_walk(null(), 0, numbers, 0, numbers, 0, out, 0) };
    tally.named("null pointers", &HS_REFUSED, &given);
    let file = with_links(&[]);
    let given = unsafe { hs_walk(file.as_ptr(), file.len(), numbers, 0, numbers, 0, out, 0) };
    tally.named("no entries, no lists", &0, &given);
}

struct Walks<'a> {
    random: Random,
    tally: &'a mut Tally,
    seen: Seen,
}

impl Walks<'_> {
    /// With places for all entries, one fewer, more, and some number.
    fn file(&mut self, file: &[u8], places: usize) {
        let count = if file.len() < 100 { 0 } else { trace_count(file).min(5_000) as usize };
        let any = self.random.below(count + 3);
        let more = count + self.random.between(1, 5);
        for order_length in [count, count.saturating_sub(1), more, any] {
            let walked = walk(file, places, order_length);
            compare_walk(&mut self.random, self.tally, &walked, file, order_length);
            self.seen.walked(file, &walked);
        }
        self.safe_call(file, places, more);
    }

    fn safe_call(&mut self, file: &[u8], places: usize, order_length: usize) {
        let mut slots = self.random.numbers(places);
        let mut order = self.random.numbers(order_length);
        let before = order.clone();
        let given = hivesaddle::walk(file, &mut slots, &mut order);
        let walked = walk(file, places, order_length);
        let input = || format!("{places} slots, {order_length} places, {}", hex(file));
        let expected = match &walked.outcome {
            Ok(walk) => Ok((walk.order.len() as u64, walk.total)),
            Err(refusal) => Err((refusal.number, refusal.index, refusal.offset)),
        };
        let said = match given {
            Ok(walk) => Ok((walk.steps.into(), walk.total)),
            Err(refusal) => Err((refusal.number.into(), refusal.index, refusal.offset)),
        };
        self.tally.same("safe walk", &expected, &said, input);
        self.tally.same("safe walk, predecessors", &walked.predecessors, &slots, input);
        match given {
            Ok(walk) => {
                let (list, rest) = order.split_at(walk.steps as usize);
                self.tally.holds("the rest stays", rest == &before[list.len()..], input);
                self.every_entry_once(file, list, walk.total, &slots);
            }
            Err(_) => self.tally.same("order after a refusal", &before, &order, input),
        }
    }

    /// What is wanted of every walk, from the library's own list: each entry
    /// stands in it once; what follows an entry is its next, or the next head
    /// where it has none; there are as many heads as ends; and the block counts
    /// along the list add up to the total over the array.
    fn every_entry_once(&mut self, file: &[u8], list: &[u32], total: u64, slots: &[u32]) {
        if list.is_empty() {
            return;
        }
        let count = trace_count(file);
        let start = section(file, TRACE).start as usize;
        let next = |entry: u32| {
            let at = start + 12 * entry as usize;
            u32::from_le_bytes(file[at..at + 4].try_into().expect("four bytes"))
        };
        let mut sorted = list.to_vec();
        sorted.sort();
        let once = sorted.into_iter().eq(0..count as u32);
        let heads: Vec<u32> = (0..count as u32).filter(|&j| slots[j as usize] == END).collect();
        let mut left = heads.iter().copied();
        let mut at = END;
        let in_order = list.iter().all(|&entry| {
            let due = if at == END { left.next() } else { Some(at) };
            at = next(entry);
            due == Some(entry)
        });
        let ends = (0..count as u32).filter(|&entry| next(entry) == END).count();
        let along: u64 = list.iter().map(|&entry| block_count(file, entry.into())).sum();
        let over: u64 = (0..count).map(|entry| block_count(file, entry)).sum();
        let holds = (once, in_order, at == END, heads.len() == ends, along == total, over == total);
        let all = (true, true, true, true, true, true);
        self.tally.same("every entry once", &all, &holds, || hex(file));
    }

    /// Every sound list of up to five links, and those that are not.
    fn every_short_list(&mut self) {
        for count in 0..=5u32 {
            let choices: Vec<u32> = (0..count).chain([END]).collect();
            every_list(count as usize, &choices, |links| {
                let blocks = blocks(&mut self.random, links.len());
                self.file(&with_blocks(links, &blocks), links.len());
            });
        }
    }

    fn sound_files(&mut self, rounds: usize) {
        for _ in 0..rounds {
            let mut sample = any(&mut self.random);
            self.set_blocks(&mut sample.bytes);
            let Sample { bytes, places } = &sample;
            self.file(bytes, *places);
            self.file(bytes, places.saturating_sub(1));
            let more = self.random.between(1, 5);
            self.file(bytes, places + more);
            let cut = *self.random.pick(&cuts(&sample));
            self.file(&bytes[..cut], *places);
            let mut longer = bytes.clone();
            longer.push(self.random.byte());
            self.file(&longer, *places);
        }
    }

    /// In half of the files, block counts near the ends of 32 bits.
    fn set_blocks(&mut self, file: &mut [u8]) {
        let entries = section(file, TRACE);
        if file[0] == 30 || entries.is_empty() || self.random.one_in(2) {
            return;
        }
        let blocks = blocks(&mut self.random, trace_count(file) as usize);
        for (entry, count) in blocks.into_iter().enumerate() {
            set_32(file, entries.start as usize + 12 * entry + 4, count);
        }
    }

    /// Each fault that each version can have.
    fn single_faults(&mut self, rounds: usize) {
        for layout in &LAYOUTS {
            for number in aims_of(layout) {
                for _ in 0..rounds {
                    let counts = Counts { metrics: 3, trace: 6, volumes: 2 };
                    let mut sample = sound_of(&mut self.random, layout, counts);
                    damage(&mut self.random, &mut sample, number);
                    self.file(&sample.bytes, sample.places);
                }
            }
        }
    }

    fn edited_files(&mut self, rounds: usize) {
        for _ in 0..rounds {
            let mut sample = any(&mut self.random);
            edits(&mut self.random, &mut sample);
            self.file(&sample.bytes, sample.places);
        }
    }

    /// The reference goes back to the head from every entry, which takes too
    /// long here: the answers are known from how the lists are made.
    fn long_lists(&mut self) {
        let rising: Vec<u32> = (0..LONG as u32).collect();
        let falling: Vec<u32> = rising.iter().rev().copied().collect();
        let mut shuffled = rising.clone();
        self.random.shuffle(&mut shuffled);
        let linked: Vec<&Layout> = LAYOUTS.iter().filter(|layout| layout.has_next).collect();
        for order in [&rising, &falling, &shuffled] {
            for longest in [1, 2, 1_000, LONG] {
                let layout = *self.random.pick(&linked);
                self.long_list(layout, order, longest);
            }
        }
    }

    /// Chains along this order, each with so many entries.
    fn long_list(&mut self, layout: &Layout, order: &[u32], longest: usize) {
        let mut chains: Vec<&[u32]> = order.chunks(longest).collect();
        let mut links = vec![END; order.len()];
        for chain in &chains {
            link_run(&mut links, chain, false);
        }
        let counts = Counts { metrics: 2, trace: order.len(), volumes: 1 };
        let file = around_links(&mut self.random, layout, counts, &links);
        chains.sort_by_key(|chain| chain[0]);
        let total = (0..order.len() as u64).map(|entry| block_count(&file, entry)).sum();
        let table = predecessors(&file, LONG);
        let expected = walked(&chains.concat(), total, &table);
        for more in [0, 1, 4_096] {
            compare_walk(&mut self.random, self.tally, &expected, &file, LONG + more);
        }
        let expected = no_walk(23, 0, 0, LONG);
        compare_walk(&mut self.random, self.tally, &expected, &file, LONG - 1);
        let expected = no_walk(7, 0, 96, LONG - 1);
        compare_walk(&mut self.random, self.tally, &expected, &file, LONG - 1);
    }
}

/// Near the ends of 32 bits, and small ones.
fn blocks(random: &mut Random, count: usize) -> Vec<u32> {
    let most = u32::MAX;
    (0..count).map(|_| *random.pick(&[0, 1, 8, 1 << 31, most - 1, most, most])).collect()
}

/// How often each answer was the right one.
#[derive(Default)]
struct Seen {
    one_chain: u64,
    some_chains: u64,
    /// Chains that do not only lead on.
    out_of_order: u64,
    past_32_bits: u64,
    without_links: u64,
    refused: [u64; 24],
}

impl Seen {
    fn walked(&mut self, file: &[u8], walked: &Walked) {
        let walk = match &walked.outcome {
            Ok(walk) => walk,
            Err(refusal) => return self.refused[refusal.number as usize] += 1,
        };
        if file[0] == 30 {
            return self.without_links += (trace_count(file) > 0) as u64;
        }
        match read_file(file, walked.predecessors.len()).verdict {
            Verdict::Accepted(record) if record.chain_count == 1 => self.one_chain += 1,
            _ => self.some_chains += 1,
        }
        self.out_of_order += !walk.order.is_sorted() as u64;
        self.past_32_bits += (walk.total > u32::MAX as u64) as u64;
    }

    fn report(&self, tally: &mut Tally) {
        let kinds = [
            ("one chain", self.one_chain),
            ("none or several chains", self.some_chains),
            ("out of order", self.out_of_order),
            ("a total past 32 bits", self.past_32_bits),
            ("entries without links", self.without_links),
        ];
        let shown = kinds.iter().map(|(name, count)| format!("{name}: {count}"));
        println!("walks: {}", shown.collect::<Vec<String>>().join(", "));
        let numbers = (1..=17).chain([21, 23]);
        let refused = |number: usize| format!("{number}: {}", self.refused[number]);
        let shown = numbers.clone().map(refused);
        println!("  refused by number: {}", shown.collect::<Vec<String>>().join(", "));
        for (name, count) in kinds {
            tally.named(&format!("{name} has come up often"), &true, &(count >= 100));
        }
        for number in numbers {
            let often = self.refused[number] >= 100;
            tally.named(&format!("refusal {number} has come up often"), &true, &often);
        }
    }
}
