//! Next links of the trace section, in whole files built around it.

use super::Run;
use crate::boundary::{compare_both, compare_reader, PREFIX_READER, WHOLE_READER};
use crate::generate::shapes::{every_list, link_run, mixed};
use crate::generate::{around_links, Counts};
use crate::random::Random;
use crate::reference::checks::Refusal;
use crate::reference::head::{section, TRACE};
use crate::reference::layout::{Layout, END, LAYOUTS};
use crate::reference::readers::{record, Answer, Record, Verdict};
use crate::tally::Tally;

/// Entries of a long list.
const LONG: usize = 100_000;

/// The layouts whose trace entries have links.
fn linked_layouts() -> Vec<&'static Layout> {
    LAYOUTS.iter().filter(|layout| layout.has_next).collect()
}

pub fn run(run: &Run, tally: &mut Tally) {
    let mut links = Links { random: run.random("links"), tally, seen: Seen::default() };
    links.every_short_list();
    links.random_lists(60_000 * run.scale);
    links.long_lists();
    links.seen.report(links.tally);
}

struct Links<'a> {
    random: Random,
    tally: &'a mut Tally,
    seen: Seen,
}

impl Links<'_> {
    /// Every list of up to four links in every version, and of five in some
    /// version: each entry, one past the last, the next one, and the last two
    /// numbers, of which one is the end.
    fn every_short_list(&mut self) {
        for count in 0..=5u32 {
            let mut choices: Vec<u32> = (0..=count + 1).collect();
            choices.extend([END - 1, END]);
            every_list(count as usize, &choices, |links| {
                if count == 5 {
                    let layout = *self.random.pick(&linked_layouts());
                    return self.list(layout, links);
                }
                for layout in linked_layouts() {
                    self.list(layout, links);
                }
            });
        }
    }

    fn random_lists(&mut self, rounds: usize) {
        for _ in 0..rounds {
            let links = mixed(&mut self.random, 40);
            let layout = *self.random.pick(&linked_layouts());
            self.list(layout, &links);
        }
    }

    /// With just enough slots, with more and with too few; and cut before the
    /// section's last byte.
    fn list(&mut self, layout: &Layout, links: &[u32]) {
        let file = self.file_around(layout, links);
        let answer = self.reading(&file, links.len());
        self.seen.list(links, &answer);
        let more = self.random.between(1, 9);
        self.reading(&file, links.len() + more);
        if !links.is_empty() {
            let less = self.random.between(1, links.len());
            self.reading(&file, links.len() - less);
            let end = section(&file, TRACE).end() as usize;
            self.reading(&file[..end - 1], links.len());
            self.reading(&file[..end], links.len());
        }
    }

    fn reading(&mut self, bytes: &[u8], places: usize) -> Answer {
        compare_both(&mut self.random, self.tally, bytes, places).prefix
    }

    /// Half the time there is nothing else in the file.
    fn file_around(&mut self, layout: &Layout, links: &[u32]) -> Vec<u8> {
        let others = if self.random.one_in(2) { 0 } else { self.random.between(1, 2) };
        let counts = Counts { metrics: others, trace: links.len(), volumes: others };
        around_links(&mut self.random, layout, counts, links)
    }

    /// The reference walks from every entry, which takes too long here: the
    /// answers are known from how the lists are made.
    fn long_lists(&mut self) {
        let rising: Vec<u32> = (0..LONG as u32).collect();
        let falling: Vec<u32> = rising.iter().rev().copied().collect();
        let mut shuffled = rising.clone();
        self.random.shuffle(&mut shuffled);
        for (name, order) in [("rising", &rising), ("falling", &falling), ("shuffled", &shuffled)] {
            for long in long_lists(order) {
                self.long_list(name, &long);
            }
        }
    }

    fn long_list(&mut self, order: &str, long: &Long) {
        let layout = *self.random.pick(&linked_layouts());
        let file = self.file_around(layout, &long.links);
        let failed = self.tally.failed;
        for more in [0, 1, 4_096] {
            let answer = long.answer(&file, LONG + more);
            compare_reader(&mut self.random, self.tally, &PREFIX_READER, &answer, &file);
            compare_reader(&mut self.random, self.tally, &WHOLE_READER, &answer, &file);
        }
        for places in [0, LONG - 1] {
            let verdict = Verdict::Refused(Refusal { number: 7, index: 0, offset: 96 });
            let answer = Answer { verdict, predecessors: vec![END; places] };
            compare_reader(&mut self.random, self.tally, &PREFIX_READER, &answer, &file);
            compare_reader(&mut self.random, self.tally, &WHOLE_READER, &answer, &file);
        }
        if self.tally.failed > failed {
            println!("  which is a long list: {}, {order}", long.name);
        }
    }
}

/// A long list and what has to be said of it.
struct Long {
    name: &'static str,
    links: Vec<u32>,
    /// The number of chains, or refusal number and index.
    says: Result<u64, (u64, u64)>,
}

impl Long {
    fn answer(&self, file: &[u8], places: usize) -> Answer {
        let mut predecessors = vec![END; places];
        let verdict = match self.says {
            Err((number, index)) => {
                let offset = section(file, TRACE).start + 12 * index;
                Verdict::Refused(Refusal { number, index, offset })
            }
            Ok(chain_count) => {
                for (entry, &link) in self.links.iter().enumerate() {
                    if link != END {
                        predecessors[link as usize] = entry as u32;
                    }
                }
                Verdict::Accepted(Record { chain_count, ..record(file) })
            }
        };
        Answer { verdict, predecessors }
    }
}

/// The order is that of the entries along the chain or cycle.
fn long_lists(order: &[u32]) -> Vec<Long> {
    let count = order.len();
    let middle = count / 2;
    let chain = linked(&[(order, false)]);
    let least = |run: &[u32]| *run.iter().min().expect("no run is empty") as u64;
    let last = order[count - 1];
    let change = |entry: u32, link: u32| {
        let mut links = chain.clone();
        links[entry as usize] = link;
        links
    };
    let thousands: Vec<(&[u32], bool)> = order.chunks(1_000).map(|run| (run, false)).collect();
    let pairs: Vec<(&[u32], bool)> = order.chunks(2).map(|run| (run, false)).collect();
    let late_ring = [(&order[..middle], false), (&order[middle..], true)];
    let early_ring = [(&order[..middle], true), (&order[middle..], false)];
    let cycles: Vec<(&[u32], bool)> = order.chunks(1_000).map(|run| (run, true)).collect();
    vec![
        Long { name: "one chain", links: chain.clone(), says: Ok(1) },
        Long { name: "chains of one", links: vec![END; count], says: Ok(count as u64) },
        Long { name: "chains of two", links: linked(&pairs), says: Ok(count as u64 / 2) },
        Long { name: "long chains", links: linked(&thousands), says: Ok(count as u64 / 1_000) },
        Long { name: "one cycle", links: linked(&[(order, true)]), says: Err((13, 0)) },
        Long { name: "many cycles", links: linked(&cycles), says: Err((13, 0)) },
        Long {
            name: "a cycle behind a chain",
            links: linked(&late_ring),
            says: Err((13, least(&order[middle..]))),
        },
        Long {
            name: "a chain behind a cycle",
            links: linked(&early_ring),
            says: Err((13, least(&order[..middle]))),
        },
        Long {
            name: "a cycle of one at a chain's end",
            links: linked(&[(&order[..count - 1], false), (&order[count - 1..], true)]),
            says: Err((13, last as u64)),
        },
        Long {
            name: "an end that leads back into the chain",
            links: change(last, order[middle]),
            says: Err((12, order[middle] as u64)),
        },
        Long {
            name: "an end that is wild",
            links: change(last, count as u32),
            says: Err((11, last as u64)),
        },
    ]
}

fn linked(runs: &[(&[u32], bool)]) -> Vec<u32> {
    let mut links = vec![END; LONG];
    for (run, cycle) in runs {
        link_run(&mut links, run, *cycle);
    }
    links
}

/// How often each kind of list has come up.
#[derive(Default)]
struct Seen {
    one_chain: u64,
    some_chains: u64,
    wild: u64,
    wild_and_shared: u64,
    one_shared: u64,
    some_shared: u64,
    shared_and_cycle: u64,
    cycle_alone: u64,
    cycle_and_chains: u64,
    some_cycles: u64,
}

impl Seen {
    fn list(&mut self, links: &[u32], answer: &Answer) {
        let named = times_named(links);
        let shared = named.iter().filter(|&&times| times > 1).count();
        let heads = named.iter().filter(|&&times| times == 0).count();
        let place = match &answer.verdict {
            Verdict::Accepted(record) if record.chain_count == 1 => &mut self.one_chain,
            Verdict::Accepted(_) => &mut self.some_chains,
            Verdict::Refused(Refusal { number: 11, .. }) if shared > 0 => &mut self.wild_and_shared,
            Verdict::Refused(Refusal { number: 11, .. }) => &mut self.wild,
            Verdict::Refused(Refusal { number: 12, .. }) => {
                self.shared_and_cycle += (cycles(links) > 0) as u64;
                if shared > 1 {
                    &mut self.some_shared
                } else {
                    &mut self.one_shared
                }
            }
            Verdict::Refused(Refusal { number: 13, .. }) => {
                self.some_cycles += (cycles(links) > 1) as u64;
                if heads > 0 {
                    &mut self.cycle_and_chains
                } else {
                    &mut self.cycle_alone
                }
            }
            _ => return,
        };
        *place += 1;
    }

    fn report(&self, tally: &mut Tally) {
        let kinds = [
            ("one chain", self.one_chain),
            ("none or several chains", self.some_chains),
            ("a wild link", self.wild),
            ("a wild link and an entry named twice", self.wild_and_shared),
            ("one entry named twice", self.one_shared),
            ("several entries named twice", self.some_shared),
            ("an entry named twice and a cycle", self.shared_and_cycle),
            ("cycles alone", self.cycle_alone),
            ("cycles and chains", self.cycle_and_chains),
            ("several cycles", self.some_cycles),
        ];
        let counts: Vec<String> =
            kinds.iter().map(|(name, count)| format!("{name}: {count}")).collect();
        println!("links: {}", counts.join(", "));
        for (name, count) in kinds {
            tally.named(&format!("{name} has come up often"), &true, &(count >= 100));
        }
    }
}

fn times_named(links: &[u32]) -> Vec<u32> {
    let mut times = vec![0; links.len()];
    for &link in links {
        if let Some(times) = times.get_mut(link as usize) {
            *times += 1;
        }
    }
    times
}

/// The number of cycles: each is counted at its least entry.
fn cycles(links: &[u32]) -> usize {
    (0..links.len()).filter(|&entry| is_least_of_a_ring(links, entry)).count()
}

fn is_least_of_a_ring(links: &[u32], entry: usize) -> bool {
    let mut at = entry;
    for _ in 0..links.len() {
        at = links[at] as usize;
        if at == entry {
            return true;
        }
        if at >= links.len() || at < entry {
            return false;
        }
    }
    false
}
