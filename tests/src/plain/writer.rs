//! The writer of test files, as one would write it by hand: the checks are made
//! on the lists as they are lent, and the file is laid out once they are
//! passed.

use super::*;
use hivesaddle::Description;

const NAME_UNITS: usize = 30;

/// Where the sections start, and the size of the file.
struct Starts {
    metrics: usize,
    trace: usize,
    strings: usize,
    volumes: usize,
    size: usize,
}

pub fn write_file(
    described: &Description,
    predecessors: &mut [u32],
    output: &mut [u8],
) -> Result<Record, Refusal> {
    predecessors.fill(END);
    let answer = write(described, predecessors, output);
    if answer.is_err() {
        predecessors.fill(END);
    }
    answer
}

fn write(
    described: &Description,
    predecessors: &mut [u32],
    output: &mut [u8],
) -> Result<Record, Refusal> {
    let (layout, first) = match described.version {
        17 => (&LAYOUT_17, 152),
        23 => (&LAYOUT_23, 240),
        _ => return refused(1, 0, 0),
    };
    let Some(starts) = starts(described, layout, first) else { return refused(3, 0, 12) };
    let units = described.name.iter().position(|&unit| unit == 0).unwrap_or(described.name.len());
    if units >= NAME_UNITS {
        return refused(4, 0, 16);
    }
    let chain_count = check(described, layout, &starts, predecessors)?;
    let Some(output) = output.get_mut(..starts.size) else { return refused(20, 0, 0) };
    lay_out(described, layout, &starts, &described.name[..units], output);
    let mut record = Record::new(described.version);
    record.declared_size = starts.size as u32;
    record.name_units = units as u32;
    record.stored_hash = described.stored_hash;
    record.run_time = described.run_time;
    record.run_times[0] = described.run_time;
    record.time_count = 1;
    record.run_count = described.run_count;
    record.metrics_count = (described.metrics.len() / 2) as u32;
    record.trace_count = (described.trace.len() / 2) as u32;
    record.volume_count = described.volume_count;
    record.chain_count = chain_count;
    Ok(record)
}

/// None where the size exceeds the limit, also past 64 bits.
fn starts(described: &Description, layout: &Layout, first: usize) -> Option<Starts> {
    let trace =
        (described.metrics.len() / 2).checked_mul(layout.metrics_entry)?.checked_add(first)?;
    let strings = (described.trace.len() / 2).checked_mul(TRACE_ENTRY)?.checked_add(trace)?;
    let volumes = strings.checked_add(described.strings.len())?;
    let size = volumes.checked_add(described.volumes.len())?;
    let starts = Starts { metrics: first, trace, strings, volumes, size };
    (size <= LARGEST_SIZE).then_some(starts)
}

/// Checks 7 to 15, and the chain count.
fn check(
    described: &Description,
    layout: &Layout,
    starts: &Starts,
    predecessors: &mut [u32],
) -> Result<u32, Refusal> {
    let count = described.trace.len() / 2;
    if predecessors.len() < count {
        return refused(7, 0, 96);
    }
    let volume_count = described.volume_count as usize;
    if volume_count * layout.volume_entry > described.volumes.len() {
        return refused(8, 0, 112);
    }
    let field = |i: usize| starts.metrics + i * layout.metrics_entry + layout.name_offset;
    names(described.metrics, described.strings, field)?;
    let chains = links(described.trace, starts.trace, &mut predecessors[..count])?;
    for i in 0..volume_count {
        let entry = i * layout.volume_entry;
        if let Some(number) = volume_fault(described.volumes, &described.volumes[entry..]) {
            return refused(number, i, starts.volumes + entry);
        }
    }
    Ok(chains)
}

/// Checks 9 and 10.
fn names(metrics: &[u32], strings: &[u8], field: impl Fn(usize) -> usize) -> Result<(), Refusal> {
    let range = |pair: &[u32]| {
        let (offset, units) = (pair[0] as usize, pair[1] as usize);
        (offset, offset + 2 * units + 2)
    };
    if let Some(i) = metrics.chunks_exact(2).position(|pair| range(pair).1 > strings.len()) {
        return refused(9, i, field(i));
    }
    for (i, pair) in metrics.chunks_exact(2).enumerate() {
        let (start, end) = range(pair);
        let (units, last) = strings[start..end].split_at(end - start - 2);
        if !is_zero(last) || units.chunks_exact(2).any(is_zero) {
            return refused(10, i, field(i));
        }
    }
    Ok(())
}

/// Checks 11 to 13 and the chain count, as the reader has them.
fn links(trace: &[u32], start: usize, table: &mut [u32]) -> Result<u32, Refusal> {
    let refused = |number, entry| refused(number, entry, start + TRACE_ENTRY * entry);
    let mut shared = END;
    for (entry, pair) in trace.chunks_exact(2).enumerate() {
        let link = pair[0];
        if link == END {
            continue;
        }
        let Some(place) = table.get_mut(link as usize) else {
            return refused(11, entry);
        };
        if *place != END {
            shared = shared.min(link);
        }
        *place = entry as u32;
    }
    if shared != END {
        return refused(12, shared as usize);
    }
    let (chains, visited) = walk(trace, table);
    match visited == table.len() {
        true => Ok(chains),
        false => refused(13, least_on_a_ring(trace, table)),
    }
}

fn walk(trace: &[u32], table: &[u32]) -> (u32, usize) {
    let (mut chains, mut visited) = (0, 0);
    for (head, _) in table.iter().enumerate().filter(|(_, &place)| place == END) {
        chains += 1;
        visited += 1;
        let mut at = trace[2 * head];
        while at != END {
            visited += 1;
            at = trace[2 * at as usize];
        }
    }
    (chains, visited)
}

fn least_on_a_ring(trace: &[u32], table: &mut [u32]) -> usize {
    let mark = table.len() as u32;
    for head in 0..table.len() {
        if table[head] == END {
            let mut at = head as u32;
            while at != END {
                table[at as usize] = mark;
                at = trace[2 * at as usize];
            }
        }
    }
    table.iter().position(|&place| place != mark).expect("there is a cycle")
}

/// The output has the file's size.
fn lay_out(
    described: &Description,
    layout: &Layout,
    starts: &Starts,
    name: &[u16],
    output: &mut [u8],
) {
    let Starts { metrics, trace, strings, volumes, .. } = *starts;
    head(described, layout, starts, name, &mut output[..metrics]);
    match described.version {
        17 => entries::<20, 8>(described.metrics, &mut output[metrics..trace]),
        _ => entries::<32, 12>(described.metrics, &mut output[metrics..trace]),
    }
    entries::<TRACE_ENTRY, 0>(described.trace, &mut output[trace..strings]);
    output[strings..volumes].copy_from_slice(described.strings);
    output[volumes..].copy_from_slice(described.volumes);
}

fn head(described: &Description, layout: &Layout, starts: &Starts, name: &[u16], head: &mut [u8]) {
    head.fill(0);
    head[4..8].copy_from_slice(b"SCCA");
    for (place, unit) in head[16..].chunks_exact_mut(2).zip(name) {
        place.copy_from_slice(&unit.to_le_bytes());
    }
    head[layout.run_time..][..8].copy_from_slice(&described.run_time.to_le_bytes());
    let fields = [
        (0, described.version as usize),
        (12, starts.size),
        (76, described.stored_hash as usize),
        (84, starts.metrics),
        (88, described.metrics.len() / 2),
        (92, starts.trace),
        (96, described.trace.len() / 2),
        (100, starts.strings),
        (104, described.strings.len()),
        (108, starts.volumes),
        (112, described.volume_count as usize),
        (116, described.volumes.len()),
        (layout.run_count, described.run_count as usize),
    ];
    for (at, number) in fields {
        head[at..at + 4].copy_from_slice(&(number as u32).to_le_bytes());
    }
}

/// Each pair at its place in an entry, and zeros around it.
fn entries<const SIZE: usize, const PLACE: usize>(pairs: &[u32], output: &mut [u8]) {
    for (entry, pair) in output.chunks_exact_mut(SIZE).zip(pairs.chunks_exact(2)) {
        let mut bytes = [0; SIZE];
        bytes[PLACE..PLACE + 4].copy_from_slice(&pair[0].to_le_bytes());
        bytes[PLACE + 4..PLACE + 8].copy_from_slice(&pair[1].to_le_bytes());
        entry.copy_from_slice(&bytes);
    }
}

#[cfg(test)]
mod beside_the_reference {
    use super::*;
    use crate::generate::writes::{any, damage, mixed_links, rich, Parts, AIMS};
    use crate::groups::writes::{of_crate, refusal_of};
    use crate::random::Random;
    use crate::reference::writer;

    fn same(random: &mut Random, parts: &Parts) -> bool {
        let described = parts.description();
        let length = random.below(1_000);
        let expected = writer::write(&described, parts.places, length);
        let (mut slots, mut output) = (vec![7; parts.places], vec![7; length]);
        let given = write_file(&of_crate(&described), &mut slots, &mut output);
        assert_eq!(expected.answer.predecessors, slots);
        let refusal = given.err().map(|r| (r.number.into(), r.index, r.offset));
        assert_eq!(refusal_of(&expected.answer.verdict), refusal);
        let file = expected.file.unwrap_or_default();
        assert_eq!(file, output[..file.len()]);
        assert!(output[file.len()..].iter().all(|&byte| byte == 7));
        if let Ok(record) = given {
            assert_eq!(Ok(record), read_file(&file, &mut slots));
        }
        given.is_ok()
    }

    #[test]
    fn sound_and_damaged() {
        let mut random = Random::new(7);
        let mut written = 0;
        for _ in 0..10_000 {
            let mut parts = any(&mut random);
            written += same(&mut random, &parts) as u32;
            mixed_links(&mut random, &mut parts);
            written += same(&mut random, &parts) as u32;
        }
        assert!(written > 5_000, "{written}");
        for (place, &first) in AIMS.iter().enumerate() {
            for &second in &AIMS[place..] {
                for _ in 0..50 {
                    let mut parts = rich(&mut random);
                    damage(&mut random, &mut parts, second);
                    damage(&mut random, &mut parts, first);
                    same(&mut random, &parts);
                }
            }
        }
    }
}
