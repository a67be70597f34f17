//! `read_prefix` and `read_file` beside the reference.

use super::Run;
use crate::boundary::compare_both;
use crate::generate::cuts::cuts;
use crate::generate::damage::{damage, edits, AIMS, AIMS_BEHIND_HEAD, AIMS_BEHIND_NAME};
use crate::generate::{any, rich, sound, Counts, Sample};
use crate::random::Random;
use crate::reference::checks::Refusal;
use crate::reference::queries;
use crate::reference::readers::{read_file, read_prefix, Answer, Record, Verdict};
use crate::tally::{hex, Tally};

pub fn run(run: &Run, tally: &mut Tally) {
    let mut readers = Readers { random: run.random("readers"), tally, seen: Seen::default() };
    super::reader_points::run(readers.tally);
    readers.short_prefixes(300 * run.scale);
    readers.sound_files(4_000 * run.scale);
    readers.single_faults(400 * run.scale);
    readers.pairs_of_faults(50 * run.scale);
    readers.edited_files(60_000 * run.scale);
    readers.random_bytes(20_000 * run.scale);
    readers.large_files(40 * run.scale);
    readers.seen.report(readers.tally);
}

struct Readers<'a> {
    random: Random,
    tally: &'a mut Tally,
    seen: Seen,
}

impl Readers<'_> {
    /// Every length from 0 to 320, on sound files and damaged ones.
    fn short_prefixes(&mut self, rounds: usize) {
        for round in 0..rounds {
            let mut sample = any(&mut self.random);
            if round % 3 == 1 {
                let number = *self.random.pick(AIMS_BEHIND_NAME);
                damage(&mut self.random, &mut sample, number);
            }
            for length in 0..=320.min(sample.bytes.len()) {
                self.prefix(&sample, length, sample.places);
            }
            self.rest_of(&sample);
        }
    }

    /// At every cut, with too few slots, just enough, and more.
    fn sound_files(&mut self, rounds: usize) {
        for _ in 0..rounds {
            let mut sample = any(&mut self.random);
            if self.random.one_in(4) {
                let length = self.random.between(1, 4);
                sample.bytes.extend(self.random.bytes(length));
            }
            for length in cuts(&sample) {
                self.prefix(&sample, length, sample.places);
                self.prefix(&sample, length, sample.places.saturating_sub(1));
                let more = self.random.between(1, 9);
                self.prefix(&sample, length, sample.places + more);
            }
            self.prefix(&sample, sample.bytes.len(), 0);
            self.rest_of(&sample);
        }
    }

    fn single_faults(&mut self, rounds: usize) {
        for number in AIMS {
            for _ in 0..rounds {
                let sample = self.damaged(&[number]);
                self.seen.aimed(number, &sample);
                self.at_every_cut(&sample);
            }
        }
    }

    /// Every pair, two faults for one check among them.
    fn pairs_of_faults(&mut self, rounds: usize) {
        for (place, &first) in AIMS.iter().enumerate() {
            for &second in &AIMS[place..] {
                for _ in 0..rounds {
                    let sample = self.damaged(&[first, second]);
                    self.seen.paired(first, second, &sample);
                    self.at_every_cut(&sample);
                }
            }
        }
    }

    /// The later fault goes in first.
    fn damaged(&mut self, numbers: &[u64]) -> Sample {
        let mut sample = rich(&mut self.random);
        for &number in numbers.iter().rev() {
            damage(&mut self.random, &mut sample, number);
        }
        sample
    }

    fn at_every_cut(&mut self, sample: &Sample) {
        for length in cuts(sample) {
            self.prefix(sample, length, sample.places);
        }
        self.rest_of(sample);
    }

    fn edited_files(&mut self, rounds: usize) {
        for _ in 0..rounds {
            let mut sample = any(&mut self.random);
            edits(&mut self.random, &mut sample);
            self.prefix(&sample, sample.bytes.len(), sample.places);
            for _ in 0..3 {
                let length = *self.random.pick(&cuts(&sample));
                self.prefix(&sample, length, sample.places);
            }
            self.rest_of(&sample);
        }
    }

    /// Noise behind a head that is good as far as it goes.
    fn random_bytes(&mut self, rounds: usize) {
        for _ in 0..rounds {
            let length = self.random.below(400);
            let mut bytes = self.random.bytes(length);
            let head = good_start(&mut self.random);
            let kept = self.random.between(0, head.len()).min(length);
            bytes[..kept].copy_from_slice(&head[..kept]);
            let sample = Sample { bytes, places: self.random.below(4) };
            self.prefix(&sample, length, sample.places);
        }
    }

    /// Hundreds of names and thousands of trace entries, some damaged.
    fn large_files(&mut self, rounds: usize) {
        for round in 0..rounds {
            let counts = Counts {
                metrics: self.random.between(50, 300),
                trace: self.random.between(500, 4_000),
                volumes: self.random.between(5, 20),
            };
            let mut sample = sound(&mut self.random, counts);
            if round % 2 == 1 {
                let number = *self.random.pick(AIMS_BEHIND_HEAD);
                damage(&mut self.random, &mut sample, number);
            }
            sample.places += self.random.below(10_000);
            self.prefix(&sample, sample.bytes.len(), sample.places);
            for _ in 0..3 {
                let length = *self.random.pick(&cuts(&sample));
                self.prefix(&sample, length, sample.places);
            }
            self.rest_of(&sample);
        }
    }

    /// Both readers on the first bytes of the sample. The bytes behind them
    /// are there, for a reader that would look at them.
    fn prefix(&mut self, sample: &Sample, length: usize, places: usize) {
        let answers = compare_both(&mut self.random, self.tally, &sample.bytes[..length], places);
        self.seen.answer(&answers.prefix);
        self.seen.answer(&answers.whole);
        self.allocated(&sample.bytes[..length]);
    }

    /// The safe call that allocates `predecessors`. Where its length is not
    /// known the answer is that of any length.
    fn allocated(&mut self, file: &[u8]) {
        let places = queries::places(file);
        let other = self.random.below(9);
        let answer = read_file(file, places.map_or(other, |places| places as usize));
        let (verdict, table) = match hivesaddle::read_file_alloc(file) {
            Ok(contents) => {
                (hivesaddle::Verdict::Accepted(contents.record), Some(contents.predecessors))
            }
            Err(refusal) => (hivesaddle::Verdict::Refused(refusal), None),
        };
        let input = || hex(file);
        let given = safe_verdict(verdict);
        self.tally.same("read_file_alloc", &answer.verdict, &given, input);
        let expected =
            matches!(answer.verdict, Verdict::Accepted(_)).then_some(answer.predecessors);
        self.tally.same("read_file_alloc, table", &expected, &table, input);
    }

    /// Once for each sample: its bytes are as they were, and the safe calls
    /// say the same.
    fn rest_of(&mut self, sample: &Sample) {
        let before = sample.bytes.clone();
        let places = sample.places;
        let prefix = read_prefix(&before, places);
        let whole = read_file(&before, places);
        let mut predecessors = self.random.numbers(places);
        let given = safe_verdict(hivesaddle::read_prefix(&sample.bytes, &mut predecessors));
        let input = || format!("{places} slots, {}", hex(&before));
        self.tally.same("read_prefix", &prefix.verdict, &given, input);
        self.tally.same("read_prefix, predecessors", &prefix.predecessors, &predecessors, input);
        let given = hivesaddle::read_file(&sample.bytes, &mut predecessors);
        if let (Verdict::Accepted(expected), Ok(given)) = (whole.verdict, given) {
            let times = &expected.run_times[..expected.time_count as usize];
            let given = (given.run_time, given.times());
            self.tally.same("times", &(times[0], times), &given, input);
        }
        let given = match given {
            Ok(record) => safe_verdict(hivesaddle::Verdict::Accepted(record)),
            Err(refusal) => safe_verdict(hivesaddle::Verdict::Refused(refusal)),
        };
        self.tally.same("read_file", &whole.verdict, &given, input);
        self.tally.same("read_file, predecessors", &whole.predecessors, &predecessors, input);
        self.tally.same("file unchanged", &before, &sample.bytes, input);
    }
}

/// The safe call's answer, as the reference would say it.
fn safe_verdict(verdict: hivesaddle::Verdict) -> Verdict {
    match verdict {
        hivesaddle::Verdict::Accepted(record) => Verdict::Accepted(Record {
            version: record.version.into(),
            declared_size: record.declared_size.into(),
            name_units: record.name_units.into(),
            stored_hash: record.stored_hash.into(),
            run_times: record.run_times,
            time_count: record.time_count.into(),
            run_count: record.run_count.into(),
            metrics_count: record.metrics_count.into(),
            trace_count: record.trace_count.into(),
            volume_count: record.volume_count.into(),
            chain_count: record.chain_count.into(),
        }),
        hivesaddle::Verdict::Refused(refusal) => Verdict::Refused(Refusal {
            number: refusal.number.into(),
            index: refusal.index,
            offset: refusal.offset,
        }),
        hivesaddle::Verdict::Wanted(bytes) => Verdict::Wanted(bytes),
    }
}

/// Version, signature, four bytes and a size that may be good.
fn good_start(random: &mut Random) -> Vec<u8> {
    let mut start = vec![*random.pick(&[17, 23, 26, 30]), 0, 0, 0];
    start.extend(b"SCCA");
    start.extend(random.bytes(4));
    start.extend((random.between(140, 400) as u32).to_le_bytes());
    start
}

/// How often each answer was the right one, so that a generator that misses a
/// check is seen.
#[derive(Default)]
struct Seen {
    accepted: u64,
    accepted_by_version: [u64; 31],
    /// With eight run times that do not fall.
    unsorted_times: u64,
    wanted: u64,
    refused: [u64; 22],
    /// Aimed at this check alone, and answered by it.
    aimed: [u64; 22],
    /// Aimed at both, and answered by the first.
    paired: [[u64; 22]; 22],
}

/// All that the readers can refuse with, in the order of checks.
fn numbers() -> impl Iterator<Item = u64> {
    AIMS.into_iter().chain([16, 17])
}

impl Seen {
    fn answer(&mut self, answer: &Answer) {
        match answer.verdict {
            Verdict::Accepted(record) => {
                self.accepted += 1;
                self.accepted_by_version[record.version as usize] += 1;
                let times = &record.run_times[..record.time_count as usize];
                self.unsorted_times += !times.is_sorted_by(|one, next| one >= next) as u64;
            }
            Verdict::Wanted(_) => self.wanted += 1,
            Verdict::Refused(refusal) => self.refused[refusal.number as usize] += 1,
        }
    }

    fn aimed(&mut self, number: u64, sample: &Sample) {
        self.aimed[number as usize] += hit(sample, number);
    }

    fn paired(&mut self, first: u64, second: u64, sample: &Sample) {
        self.paired[first as usize][second as usize] += hit(sample, first);
    }

    /// Every refusal has come up, and every aim has been hit.
    fn report(&self, tally: &mut Tally) {
        println!(
            "readers: {} accepted, {} wanted more, refused by number:",
            self.accepted, self.wanted
        );
        let refused = |number: u64| self.refused[number as usize];
        let counts: Vec<String> =
            numbers().map(|number| format!("{number}: {}", refused(number))).collect();
        println!("  {}", counts.join(", "));
        tally.named("unsorted times have come up", &true, &(self.unsorted_times > 0));
        for version in [17, 23, 26, 30] {
            let often = self.accepted_by_version[version] > 1_000;
            tally.named(&format!("version {version} was accepted often"), &true, &often);
        }
        for number in numbers() {
            let name = format!("refusal {number} has come up");
            tally.named(&name, &true, &(refused(number) > 0));
        }
        for (place, &first) in AIMS.iter().enumerate() {
            let hits = self.aimed[first as usize];
            tally.named(&format!("aim {first} has hit"), &true, &(hits > 0));
            for &second in &AIMS[place..] {
                let name = format!("pair {first}, {second} has hit");
                let hits = self.paired[first as usize][second as usize];
                tally.named(&name, &true, &(hits > 0));
            }
        }
    }
}

fn hit(sample: &Sample, number: u64) -> u64 {
    match read_prefix(&sample.bytes, sample.places).verdict {
        Verdict::Refused(refusal) if refusal.number == number => 1,
        _ => 0,
    }
}
