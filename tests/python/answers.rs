//! Writes files of every version, sound and damaged, and years, as JSON, each with the answers of the independent reading. Bytes
//! and texts are in hexadecimal digits, a text as its UTF-16 units stand.

use compare::generate::damage::{damage, edits, AIMS};
use compare::generate::{any, rich, rooted, years};
use compare::random::Random;
use compare::reference::head::{metrics_count, volume_count};
use compare::reference::path_from::find_path_from;
use compare::reference::queries::{self, Part};
use compare::reference::readers::{read_file, Record, Verdict};
use compare::reference::search::{find_path, Found};
use compare::reference::volume_lists::{directories, references};
use compare::reference::{cost, year};

fn main() {
    let mut random = Random::new(38);
    let mut files = Vec::new();
    for round in 0..400 {
        let mut sample = if round % 2 == 0 { rich(&mut random) } else { any(&mut random) };
        match round % 5 {
            0 => {}
            1 => edits(&mut random, &mut sample),
            _ => damage(&mut random, &mut sample, AIMS[round % AIMS.len()]),
        }
        if round % 7 == 0 {
            let cut = random.below(sample.bytes.len() + 1);
            sample.bytes.truncate(cut);
        }
        files.push(of_file(&sample.bytes, 0, &[]));
    }
    // A text has whole units.
    let with_start = (0..400).map(|_| rooted::any(&mut random)).filter(|r| r.start.len() % 2 == 0);
    files.extend(with_start.map(|rooted| of_file(&rooted.bytes, rooted.volume, &rooted.start)));
    let years: Vec<String> = (0..100).map(|_| of_year(&mut random)).collect();
    println!("{{\"files\": {}, \"years\": {}}}", list(&files), list(&years));
}

fn of_file(file: &[u8], volume: u64, start: &[u8]) -> String {
    let places = queries::places(file);
    let pair = |found: Option<Found>| numbers(found.map(|found| vec![found.entry, found.number]));
    let cost = cost::cost(file).map(|cost| vec![cost.names, cost.directories]);
    object(&[
        ("file", hex(file)),
        ("read", verdict(file, &read_file(file, places.unwrap_or(0) as usize).verdict)),
        ("names", places.map_or("null".into(), |_| names(file))),
        ("volumes", places.map_or("null".into(), |_| volumes(file))),
        ("directories", of_volumes(file, directories_of)),
        ("references", of_volumes(file, references_of)),
        ("path", pair(find_path(file))),
        (
            "from",
            list(&[volume.to_string(), hex(start), pair(find_path_from(file, volume, start))]),
        ),
        ("cost", numbers(cost)),
    ])
}

fn verdict(file: &[u8], verdict: &Verdict) -> String {
    match verdict {
        Verdict::Accepted(record) => object(&[("accepted", self::record(file, record))]),
        Verdict::Refused(r) => {
            object(&[("refused", numbers(Some(vec![r.number, r.index, r.offset])))])
        }
        Verdict::Wanted(_) => unreachable!("the whole-file reader asks for nothing"),
    }
}

/// In the order of the fields in Python.
fn record(file: &[u8], record: &Record) -> String {
    let times = record.run_times[..record.time_count as usize].to_vec();
    let name = hex(&file[16..][..2 * record.name_units as usize]);
    let [version, size, hash] = [record.version, record.declared_size, record.stored_hash];
    let head =
        [version.to_string(), size.to_string(), name, hash.to_string(), numbers(Some(times))];
    let counts = [
        record.run_count,
        record.metrics_count,
        record.trace_count,
        record.volume_count,
        record.chain_count,
    ];
    list(&[&head[..], &texts(&counts)].concat())
}

fn names(file: &[u8]) -> String {
    let there = (file.len() as u64 / 20).min(metrics_count(file));
    let name = |i| queries::entry_name(file, i).map_or("null".into(), |part| text(file, part));
    list(&(0..there).map(name).collect::<Vec<_>>())
}

fn volumes(file: &[u8]) -> String {
    let there = (file.len() as u64 / 40).min(volume_count(file));
    let volume = |i| match queries::volume(file, i) {
        None => "null".to_string(),
        Some(v) => {
            let fields = [v.serial_number, v.creation_time, v.references, v.directories];
            list(&[&[text(file, v.path)], &texts(&fields)[..]].concat())
        }
    };
    list(&(0..there).map(volume).collect::<Vec<_>>())
}

/// Of three, so of one that is not there too.
fn of_volumes(file: &[u8], listed: fn(&[u8], u64) -> String) -> String {
    list(&(0..3).map(|volume| listed(file, volume)).collect::<Vec<_>>())
}

fn directories_of(file: &[u8], volume: u64) -> String {
    let directories = directories(file, volume);
    let part = directories.iter().map(|d| Part { offset: d.offset, length: 2 * d.units });
    list(&part.map(|part| text(file, part)).collect::<Vec<_>>())
}

fn references_of(file: &[u8], volume: u64) -> String {
    let references = references(file, volume);
    let pair = references.iter().map(|r| numbers(Some(vec![r.entry_index, r.sequence_number])));
    list(&pair.collect::<Vec<_>>())
}

fn of_year(random: &mut Random) -> String {
    let case = years::any_case(random, 12);
    let mut lines = case.lines();
    if random.one_in(6) {
        lines.pop();
    }
    let starts = year::starts_of(&case.hashes, &case.answers);
    let start = |start: &year::Start| {
        let tenths = start.temperature.map_or("null".into(), |tenths| tenths.to_string());
        list(&[start.stored_hash.to_string(), tenths])
    };
    let table = match year::table(&lines, &starts) {
        Ok(rows) => ("rows", list(&rows.iter().map(row).collect::<Vec<_>>())),
        Err(refused) => ("refused", numbers(Some(vec![refused.number.into(), refused.place]))),
    };
    let starts = list(&starts.iter().map(start).collect::<Vec<_>>());
    object(&[("lines", hex(&lines)), ("starts", starts), table])
}

fn row(row: &year::Row) -> String {
    let readings = row.readings.map_or("null".into(), |r| {
        let signed = [r.lowest, r.highest, r.sum, r.mean].map(|number| number.to_string());
        list(&[&[r.count.to_string()], &signed[..], &[r.remainder.to_string()]].concat())
    });
    let [hash, lines, counts] = [row.stored_hash.into(), row.lines, row.run_counts];
    list(&[hash.to_string(), lines.to_string(), counts.to_string(), readings])
}

fn texts(numbers: &[u64]) -> Vec<String> {
    numbers.iter().map(|number| number.to_string()).collect()
}

fn numbers(numbers: Option<Vec<u64>>) -> String {
    numbers.map_or("null".into(), |numbers| list(&texts(&numbers)))
}

fn text(file: &[u8], part: Part) -> String {
    hex(&file[part.offset as usize..][..part.length as usize])
}

fn hex(bytes: &[u8]) -> String {
    let digits: String = bytes.iter().map(|byte| format!("{byte:02x}")).collect();
    format!("\"{digits}\"")
}

fn list(items: &[String]) -> String {
    format!("[{}]", items.join(", "))
}

fn object(fields: &[(&str, String)]) -> String {
    let fields: Vec<String> =
        fields.iter().map(|(name, value)| format!("\"{name}\": {value}")).collect();
    format!("{{{}}}", fields.join(", "))
}
