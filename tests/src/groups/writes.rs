//! The writer: points by hand, seeded descriptions beside the reference, and
//! what holds of every file that it writes.

use super::{write_points, Run};
use crate::boundary::{compare_reader, compare_write, WHOLE_READER};
use crate::generate::shapes::every_list;
use crate::generate::writes::{any, damage, mixed_links, nothing, rich, Parts, AIMS};
use crate::random::Random;
use crate::reference::layout::{END, LARGEST_SIZE};
use crate::reference::readers::{read_file, Verdict};
use crate::reference::writer::{laid_out_size, write, Description, Written};
use crate::tally::{hex, Tally};

pub fn run(run: &Run, tally: &mut Tally) {
    let mut random = run.random("writes");
    write_points::run(&mut random, tally);
    let mut writes = Writes { random, tally, seen: Seen::default() };
    writes.every_short_list();
    writes.sound(3_000 * run.scale);
    writes.faults(60 * run.scale);
    writes.links(3_000 * run.scale);
    writes.seen.report(writes.tally);
}

struct Writes<'a> {
    random: Random,
    tally: &'a mut Tally,
    seen: Seen,
}

impl Writes<'_> {
    /// With an output that fits, one byte less, some more, and some number.
    fn parts(&mut self, parts: &Parts) {
        let described = &parts.description();
        let size = match parts.version {
            17 | 23 => laid_out_size(parts.version, &lengths(described)).min(100_000) as usize,
            _ => 200,
        };
        let (more, any) = (size + self.random.between(1, 9), self.random.below(size + 1));
        for output_length in [size, size - 1, more, any] {
            let written = write(described, parts.places, output_length);
            compare_write(&mut self.random, self.tally, &written, described, output_length);
            self.seen.written(&written);
        }
        self.safe_call(parts, more);
    }

    fn safe_call(&mut self, parts: &Parts, output_length: usize) {
        let described = &parts.description();
        let mut slots = self.random.numbers(parts.places);
        let mut output = self.random.bytes(output_length);
        let before = output.clone();
        let given = hivesaddle::write_file(&of_crate(described), &mut slots, &mut output);
        let written = write(described, parts.places, output_length);
        let input = || format!("{} slots, {described:?}", parts.places);
        self.tally.same("safe writer, slots", &written.answer.predecessors, &slots, input);
        let Some(file) = written.file else {
            let refusal = given.err().map(|r| (r.number.into(), r.index, r.offset));
            self.tally.same("safe writer", &refusal_of(&written.answer.verdict), &refusal, input);
            return self.tally.same("output after a refusal", &before, &output, input);
        };
        self.tally.holds("the rest stays", output[file.len()..] == before[file.len()..], input);
        let own = &output[..file.len()];
        self.tally.holds("safe writer, file", own == file, || hex(own));
        self.read_back(parts, own, &given, &slots);
    }

    /// What is wanted of every file written, from the library's own bytes: the
    /// reader accepts it with the same record and table, the name is the one
    /// given, and each metrics entry is shown with the units given.
    fn read_back(&mut self, parts: &Parts, file: &[u8], given: &Given, slots: &[u32]) {
        let answer = read_file(file, parts.places);
        compare_reader(&mut self.random, self.tally, &WHOLE_READER, &answer, file);
        let mut table = self.random.numbers(parts.places);
        let read = hivesaddle::read_file(file, &mut table);
        self.tally.same("read back", given, &read, || hex(file));
        self.tally.same("table read back", slots, &table[..], || hex(file));
        let name: Vec<u8> =
            parts.name.iter().take_while(|&&u| u != 0).flat_map(|u| u.to_le_bytes()).collect();
        let shown = hivesaddle::program_name(file);
        self.tally.same("name read back", &Some(&name[..]), &shown, || hex(file));
        for (i, pair) in parts.metrics.chunks_exact(2).enumerate() {
            let text = &parts.strings[pair[0] as usize..][..2 * pair[1] as usize];
            let shown = hivesaddle::entry_name(file, i as u64);
            self.tally.same("entry read back", &Some(text), &shown, || hex(file));
        }
    }

    /// Every list of up to four links, the sound ones and the others.
    fn every_short_list(&mut self) {
        for count in 0..=4u32 {
            let choices: Vec<u32> = (0..count + 1).chain([END]).collect();
            every_list(count as usize, &choices, |links| {
                let mut parts = nothing(*self.random.pick(&[17, 23]));
                parts.set_links(&mut self.random, links);
                self.parts(&parts);
            });
        }
    }

    fn sound(&mut self, rounds: usize) {
        for _ in 0..rounds {
            let mut parts = any(&mut self.random);
            self.parts(&parts);
            parts.places += self.random.between(1, 5);
            self.parts(&parts);
            // Without one of its sections, or with fewer volumes than it has entries for.
            match self.random.below(5) {
                0 => parts.metrics.clear(),
                1 => parts.trace.clear(),
                2 => parts.strings.clear(),
                3 => parts.volumes.clear(),
                _ => parts.volume_count = self.random.below(3) as u32,
            }
            self.parts(&parts);
        }
    }

    /// Each fault alone, and each with each behind it.
    fn faults(&mut self, rounds: usize) {
        for (place, &first) in AIMS.iter().enumerate() {
            for &second in &AIMS[place..] {
                for _ in 0..rounds {
                    let mut parts = rich(&mut self.random);
                    damage(&mut self.random, &mut parts, second);
                    if first != second {
                        damage(&mut self.random, &mut parts, first);
                    }
                    self.parts(&parts);
                }
            }
        }
    }

    fn links(&mut self, rounds: usize) {
        for _ in 0..rounds {
            let mut parts = any(&mut self.random);
            mixed_links(&mut self.random, &mut parts);
            self.parts(&parts);
        }
    }
}

type Given = Result<hivesaddle::Record, hivesaddle::Refusal>;

fn lengths(described: &Description) -> [usize; 4] {
    let Description { metrics, trace, strings, volumes, .. } = described;
    [metrics.len(), trace.len(), strings.len(), volumes.len()]
}

/// The same for the crate's safe call.
pub fn of_crate<'a>(described: &Description<'a>) -> hivesaddle::Description<'a> {
    hivesaddle::Description {
        version: described.version,
        name: described.name,
        stored_hash: described.stored_hash,
        run_time: described.run_time,
        run_count: described.run_count,
        metrics: described.metrics,
        trace: described.trace,
        strings: described.strings,
        volumes: described.volumes,
        volume_count: described.volume_count,
    }
}

pub fn refusal_of(verdict: &Verdict) -> Option<(u64, u64, u64)> {
    match verdict {
        Verdict::Refused(refusal) => Some((refusal.number, refusal.index, refusal.offset)),
        _ => None,
    }
}

/// How often each answer was the right one.
#[derive(Default)]
struct Seen {
    written: [u64; 2],
    with_everything: u64,
    refused: [u64; 22],
}

/// What the writer can answer, and what it never does.
const REFUSALS: [usize; 12] = [1, 4, 7, 8, 9, 10, 11, 12, 13, 14, 15, 20];
const NEVER: [usize; 6] = [2, 5, 6, 16, 17, 21];

impl Seen {
    fn written(&mut self, written: &Written) {
        if let Some((number, _, _)) = refusal_of(&written.answer.verdict) {
            return self.refused[number as usize] += 1;
        }
        if let Verdict::Accepted(record) = written.answer.verdict {
            assert!(record.declared_size <= LARGEST_SIZE);
            self.written[usize::from(record.version == 23)] += 1;
            let counts = [record.metrics_count, record.trace_count, record.volume_count];
            self.with_everything += u64::from(!counts.contains(&0));
        }
    }

    fn report(&self, tally: &mut Tally) {
        let kinds = [
            ("version 17", self.written[0]),
            ("version 23", self.written[1]),
            ("a file with everything", self.with_everything),
        ];
        let shown = kinds.iter().map(|(name, count)| format!("{name}: {count}"));
        println!("writes: {}", shown.collect::<Vec<String>>().join(", "));
        let refused = |&number: &usize| format!("{number}: {}", self.refused[number]);
        let shown: Vec<String> = REFUSALS.iter().map(refused).collect();
        println!("  refused by number: {}", shown.join(", "));
        for (name, count) in kinds {
            tally.named(&format!("{name} has come up often"), &true, &(count >= 100));
        }
        for number in REFUSALS {
            let often = self.refused[number] >= 100;
            tally.named(&format!("refusal {number} has come up often"), &true, &often);
        }
        for number in NEVER {
            tally.named(&format!("refusal {number} never comes"), &0, &self.refused[number]);
        }
    }
}
