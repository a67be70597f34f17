//! Lists of next links: chains, cycles, entries named twice, wild links.

use crate::random::Random;
use crate::reference::layout::END;

/// Every list of so many links, each taken from the choices.
pub fn every_list(length: usize, choices: &[u32], mut each: impl FnMut(&[u32])) {
    let mut places = vec![0; length];
    loop {
        let links: Vec<u32> = places.iter().map(|&place: &usize| choices[place]).collect();
        each(&links);
        if !next_list(&mut places, choices.len()) {
            return;
        }
    }
}

/// Counts up by one; false once every list has been.
fn next_list(places: &mut [usize], choices: usize) -> bool {
    for place in places {
        *place += 1;
        if *place < choices {
            return true;
        }
        *place = 0;
    }
    false
}

/// Chains and cycles over all entries, and in some lists entries named twice or
/// wild links besides.
pub fn mixed(random: &mut Random, most: usize) -> Vec<u32> {
    let count = random.between(1, most);
    let order = order(random, count);
    let mut links = runs(random, &order);
    if random.one_in(3) {
        name_again(random, &mut links);
    }
    if random.one_in(8) {
        for _ in 0..random.between(1, 3) {
            let entry = random.below(count);
            links[entry] = *random.pick(&[count as u32, count as u32 + 1, 1 << 31, END - 1]);
        }
    }
    links
}

/// Rising, falling or shuffled.
fn order(random: &mut Random, count: usize) -> Vec<u32> {
    let mut order: Vec<u32> = (0..count as u32).collect();
    match random.below(4) {
        0 => {}
        1 => order.reverse(),
        _ => random.shuffle(&mut order),
    }
    order
}

/// The order cut into runs, each a chain or a cycle.
fn runs(random: &mut Random, order: &[u32]) -> Vec<u32> {
    let mut links = vec![END; order.len()];
    let cycle_in = *random.pick(&[0, 0, 1, 2, 4, 8]);
    let longest = *random.pick(&[1, 2, 5, order.len()]);
    let mut rest = order;
    while !rest.is_empty() {
        let length = random.between(1, longest.min(rest.len()));
        let (run, behind) = rest.split_at(length);
        let cycle = cycle_in > 0 && random.one_in(cycle_in);
        link_run(&mut links, run, cycle);
        rest = behind;
    }
    links
}

pub fn link_run(links: &mut [u32], run: &[u32], cycle: bool) {
    for pair in run.windows(2) {
        links[pair[0] as usize] = pair[1];
    }
    if cycle {
        links[run[run.len() - 1] as usize] = run[0];
    }
}

/// Several entries named by two or three. Half the time only ends of chains
/// are changed for it, so that every cycle stays.
fn name_again(random: &mut Random, links: &mut [u32]) {
    let ends_only = random.one_in(2);
    for _ in 0..random.between(1, 4) {
        let named = random.below(links.len()) as u32;
        for _ in 0..random.between(1, 3) {
            let entry = random.below(links.len());
            if !ends_only || links[entry] == END {
                links[entry] = named;
            }
        }
    }
}
