//! The year's table: points by hand, every small sum, seeded lines and starts
//! beside the reference, spoilt ones, and the same ones in other orders.

use super::{year_points, Run};
use crate::boundary::{compare_year, YearInput, YearLengths};
use crate::generate::recordings::spoil;
use crate::generate::years::{any_case, case_of, distinct, Case};
use crate::random::Random;
use crate::reference::year::{starts_of, table, Readings, Refused, Row, Start, Table};
use crate::tally::Tally;

pub fn run(run: &Run, tally: &mut Tally) {
    let mut random = run.random("years");
    year_points::run(&mut random, tally);
    let mut years = Years { random, tally, seen: Seen::default() };
    years.small_sums();
    years.seeded(10_000 * run.scale);
    years.spoilt(10_000 * run.scale);
    years.many_hashes(300 * run.scale);
    years.full(800 * run.scale);
    years.orders(1_000 * run.scale);
    years.seen.report(years.tally);
}

struct Years<'a> {
    random: Random,
    tally: &'a mut Tally,
    seen: Seen,
}

impl Years<'_> {
    fn case(&mut self, case: &Case) {
        self.lines(&case.lines(), case);
    }

    /// The C call with lists of some lengths, and the safe one.
    fn lines(&mut self, lines: &[u8], case: &Case) {
        let starts = starts_of(&case.hashes, &case.answers);
        let table = table(lines, &starts);
        self.seen.table(&table, case.each_line.len());
        let input = YearInput { lines, hashes: &case.hashes, answers: &case.answers };
        let lengths = self.lengths(table.as_ref().map_or(3, Vec::len));
        compare_year(&mut self.random, self.tally, &table, input, lengths);
        let starts: Vec<_> = starts.iter().map(of_crate).collect();
        let given = of_reference(hivesaddle::year_table(lines, &starts));
        self.tally.same("safe year", &table, &given, || format!("{case:?}"));
    }

    /// In half of the cases places for all; else fewer or more, or none.
    fn lengths(&mut self, rows: usize) -> YearLengths {
        if self.random.one_in(2) {
            return YearLengths::of(rows);
        }
        let random = &mut self.random;
        let any = random.below(9 * rows + 20);
        let rows = *random.pick(&[0, 8, 9 * rows + 1, 9 * rows + 9, any, any / 9 * 9]);
        YearLengths { rows, out: random.below(5) }
    }

    /// Each sum from -30 to 30 over 1 to 7 readings.
    fn small_sums(&mut self) {
        for count in 1..=7 {
            for sum in -30..=30i64 {
                let mut temperatures = vec![0; count];
                temperatures[0] = sum - 3;
                temperatures[count - 1] += 3;
                let answer = |tenths: &i64| [1, 5, 6, tenths.rem_euclid(65_536) as u64];
                self.case(&Case {
                    each_line: Vec::new(),
                    hashes: vec![7; count],
                    answers: temperatures.iter().flat_map(answer).collect(),
                });
            }
        }
    }

    /// The answers end before the starts do, or behind them, now and then.
    fn seeded(&mut self, rounds: usize) {
        for _ in 0..rounds {
            let most = *self.random.pick(&[3, 10, 60]);
            let mut case = any_case(&mut self.random, most);
            match self.random.below(6) {
                0 => case.answers.truncate(self.random.below(case.answers.len() + 1)),
                1 => {
                    let more = self.random.below(10);
                    case.answers.extend((0..more).map(|_| self.random.next()));
                }
                _ => {}
            }
            self.case(&case);
        }
    }

    fn spoilt(&mut self, rounds: usize) {
        for _ in 0..rounds {
            let case = any_case(&mut self.random, 12);
            let mut lines = case.lines();
            for _ in 0..self.random.between(1, 2) {
                spoil(&mut self.random, &mut lines);
            }
            self.lines(&lines, &case);
        }
    }

    /// Some 1,024 hashes that come up again and again, with a line spoilt too.
    fn many_hashes(&mut self, rounds: usize) {
        for _ in 0..rounds {
            let (lines, starts) = (self.random.below(3_000), self.random.below(3_000));
            let case = case_of(&mut self.random, lines, starts);
            self.case(&case);
            let mut lines = case.lines();
            spoil(&mut self.random, &mut lines);
            self.lines(&lines, &case);
        }
    }

    /// Each hash once, 1,022 to 1,026 of them, with any share from lines.
    fn full(&mut self, rounds: usize) {
        for _ in 0..rounds {
            let count = self.random.between(1_022, 1_026);
            let base = self.random.u32() >> 1;
            let mut hashes: Vec<u32> = (0..count as u32).map(|more| base + 3 * more).collect();
            self.random.shuffle(&mut hashes);
            let lines = *self.random.pick(&[0, 1, 512, 1_023, count, count, count]).min(&count);
            let case = distinct(&mut self.random, &hashes, lines);
            self.case(&case);
        }
    }

    /// The first table is held to the library for each order. Where there is
    /// none, no other order gives one; which is at fault may differ.
    fn orders(&mut self, rounds: usize) {
        for _ in 0..rounds {
            let most = *self.random.pick(&[4, 30, 30, 1_100]);
            let case = any_case(&mut self.random, most);
            let first = table(&case.lines(), &starts_of(&case.hashes, &case.answers));
            for _ in 0..3 {
                let other = case.shuffled(&mut self.random);
                self.order(&first, &other);
            }
        }
    }

    fn order(&mut self, first: &Table, other: &Case) {
        let (lines, hashes) = (&other.lines(), &other.hashes);
        let input = YearInput { lines, hashes, answers: &other.answers };
        match first {
            Ok(rows) => {
                let lengths = YearLengths::of(rows.len());
                compare_year(&mut self.random, self.tally, first, input, lengths);
            }
            Err(_) => {
                let given = hivesaddle::year_table_into(lines, hashes, &other.answers, &mut []);
                self.tally.holds("no order has a table", given.is_err(), || format!("{other:?}"));
                self.case(other);
            }
        }
    }
}

fn of_crate(start: &Start) -> hivesaddle::YearStart {
    let reading = |temperature| hivesaddle::Reading { time: 1, board: 2, temperature };
    hivesaddle::YearStart { stored_hash: start.stored_hash, answer: start.temperature.map(reading) }
}

fn of_reference(given: Result<Vec<hivesaddle::YearRow>, hivesaddle::YearRefusal>) -> Table {
    let readings = |readings: hivesaddle::Readings| Readings {
        count: readings.count,
        lowest: readings.lowest.into(),
        highest: readings.highest.into(),
        sum: readings.sum,
        mean: readings.mean,
        remainder: readings.remainder,
    };
    let row = |row: hivesaddle::YearRow| Row {
        stored_hash: row.stored_hash,
        lines: row.lines,
        run_counts: row.run_counts,
        readings: row.readings.map(readings),
    };
    match given {
        Ok(rows) => Ok(rows.into_iter().map(row).collect()),
        Err(refusal) => Err(Refused { number: refusal.number, place: refusal.place }),
    }
}

/// How often each answer was the right one.
#[derive(Default)]
struct Seen {
    tables: u64,
    bad_first: u64,
    bad_later: u64,
    hash_of_line: u64,
    hash_of_start: u64,
    without_reading: u64,
    without_line: u64,
    /// A sum below zero that leaves a remainder.
    rounded_down: u64,
    /// All readings on one side of zero.
    all_below: u64,
    all_above: u64,
}

impl Seen {
    fn table(&mut self, table: &Table, lines: usize) {
        match table {
            Ok(rows) => {
                self.tables += 1;
                rows.iter().take(50).for_each(|row| self.row(row));
            }
            Err(Refused { number: 18, place: 1 }) => self.bad_first += 1,
            Err(Refused { number: 18, .. }) => self.bad_later += 1,
            Err(Refused { place, .. }) if *place <= lines as u64 => self.hash_of_line += 1,
            Err(_) => self.hash_of_start += 1,
        }
    }

    fn row(&mut self, row: &Row) {
        self.without_line += u64::from(row.lines == 0);
        let Some(readings) = row.readings else {
            self.without_reading += 1;
            return;
        };
        self.rounded_down += u64::from(readings.sum < 0 && readings.remainder > 0);
        self.all_below += u64::from(readings.highest < 0);
        self.all_above += u64::from(readings.lowest > 0);
    }

    fn report(&self, tally: &mut Tally) {
        let kinds = [
            ("tables", self.tables, 1_000),
            ("first line bad", self.bad_first, 500),
            ("later line bad", self.bad_later, 1_000),
            ("1,025th hash of a line", self.hash_of_line, 50),
            ("1,025th hash of a start", self.hash_of_start, 50),
            ("no reading", self.without_reading, 1_000),
            ("no line", self.without_line, 1_000),
            ("rounded down below zero", self.rounded_down, 1_000),
            ("all below zero", self.all_below, 1_000),
            ("all above zero", self.all_above, 1_000),
        ];
        let shown = kinds.iter().map(|(name, count, _)| format!("{name}: {count}"));
        println!("years: {}", shown.collect::<Vec<String>>().join(", "));
        for (name, count, least) in kinds {
            tally.named(&format!("{name} has come up often"), &true, &(count >= least));
        }
    }
}
