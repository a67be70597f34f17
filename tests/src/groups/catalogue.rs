//! Catalogue lines, read and written, and old lines, read.

use super::Run;
use crate::boundary::{guarded_bytes, guarded_u64};
use crate::random::Random;
use crate::reference::catalogue::{self as reference, Fields, OLD_LARGEST_SIZE};
use crate::reference::layout::{LARGEST_SIZE, LAYOUTS};
use crate::tally::{hex, Tally};
use hivesaddle::{raw, CatalogueFields};
use std::ptr::{null, null_mut};

pub fn run(run: &Run, tally: &mut Tally) {
    let mut random = run.random("catalogue");
    named_points(tally);
    null_pointers(tally);
    for fields in edge_fields(&mut random) {
        written(&mut random, &fields, tally);
    }
    for line in edge_lines() {
        out_lengths(&mut random, &line, tally);
        every_wrong_byte(&mut random, &line, tally);
        every_length(&mut random, &line, tally);
    }
    lines_between_the_lengths(&mut random, tally);
    random_fields(&mut random, run.scale, tally);
    random_old_lines(&mut random, run.scale, tally);
    random_lines(&mut random, run.scale, tally);
    wrong_versions(&mut random, tally);
}

fn named_points(tally: &mut Tally) {
    let old_line = b"000094000000410000000111\n";
    let line = b"00000094000000410000000111\n";
    let fields = CatalogueFields { size: 148, stored_hash: 65, run_count: 1, version: 17 };
    tally.named("the paper's line, read", &Ok(fields), &hivesaddle::catalogue_read(old_line));
    tally.named("the new line, read", &Ok(fields), &hivesaddle::catalogue_read(line));
    let mut place = [0; 27];
    tally.named("it can be written", &Ok(()), &hivesaddle::catalogue_write(fields, &mut place));
    tally.named("the new line, written", line, &place);
    for length in 0..=26 {
        let mut place = [b'?'; 26];
        let given = hivesaddle::catalogue_write(fields, &mut place[..length]);
        let refused = hivesaddle::Refusal { number: 19, index: 0, offset: 0 };
        let name = format!("an output of {length} bytes");
        tally.named(&name, &(Err(refused), [b'?'; 26]), &(given, place));
    }
    let mut place = [b'?'; 30];
    let given = hivesaddle::catalogue_write(fields, &mut place);
    let expected = b"00000094000000410000000111\n???";
    tally.named("bytes behind the line", &(Ok(()), *expected), &(given, place));
    named_edges(tally);
}

/// Lines on either edge of each number, with the size or a refusal.
fn named_edges(tally: &mut Tally) {
    let lines: [(&[u8], Option<u32>); 32] = [
        // The size of a new line.
        (b"00000093000000410000000111\n", None),
        (b"00000094000000410000000111\n", Some(148)),
        (b"00FFFFFF000000410000000111\n", Some(16_777_215)),
        (b"01000000000000410000000111\n", Some(16_777_216)),
        (b"03FFFFFF000000410000000111\n", Some(67_108_863)),
        (b"04000000000000410000000111\n", Some(67_108_864)),
        (b"04000001000000410000000111\n", None),
        (b"84000000000000410000000111\n", None),
        (b"FFFFFFFF000000410000000111\n", None),
        // The size of an old line.
        (b"000093000000410000000111\n", None),
        (b"000094000000410000000111\n", Some(148)),
        (b"FFFFFF000000410000000111\n", Some(16_777_215)),
        // H of versions 23, 26 and 30, and versions that are not known.
        (b"0000009B000000410000000117\n", None),
        (b"0000009C000000410000000117\n", Some(156)),
        (b"000000D300000041000000011A\n", None),
        (b"000000D400000041000000011A\n", Some(212)),
        (b"000000D300000041000000011E\n", None),
        (b"000000D400000041000000011E\n", Some(212)),
        (b"0400000000000041000000011E\n", Some(67_108_864)),
        (b"0400000100000041000000011E\n", None),
        (b"000000D400000041000000011D\n", None),
        (b"000000D400000041000000011F\n", None),
        (b"0000D300000041000000011A\n", None),
        (b"0000D400000041000000011A\n", Some(212)),
        (b"0000D300000041000000011E\n", None),
        (b"0000D400000041000000011E\n", Some(212)),
        (b"FFFFFF00000041000000011E\n", Some(16_777_215)),
        (b"0000D400000041000000011F\n", None),
        // Seven digits for the size, and nine.
        (b"0000094000000410000000111\n", None),
        (b"000000094000000410000000111\n", None),
        // A line feed where an old line has it, and none.
        (b"000094000000410000000111\n1\n", None),
        (b"00000094000000410000000111", None),
    ];
    for (line, size) in lines {
        let name = String::from_utf8_lossy(line);
        let given = hivesaddle::catalogue_read(line).map(|fields| fields.size);
        let refused = hivesaddle::Refusal { number: 18, index: 0, offset: 0 };
        tally.named(&name, &size.ok_or(refused), &given);
        let own = reference::read(line).map(|fields| fields.size as u32);
        tally.named(&name, &size, &own);
    }
}

/// The line that was written once, where its six digits hold the size.
fn old_line(fields: &Fields) -> Vec<u8> {
    let Fields { size, stored_hash, run_count, version } = fields;
    format!("{size:06X}{stored_hash:08X}{run_count:08X}{version:02X}\n").into_bytes()
}

fn null_pointers(tally: &mut Tally) {
    unsafe {
        tally.named("no line, no out", &18, &raw::hs_catalogue_read(null(), 0, null_mut(), 0));
        tally.named("no output", &19, &raw::hs_catalogue_write(148, 65, 1, 17, null_mut(), 0));
    }
}

/// Both ends of each version's sizes and one outside, with edge hashes and
/// run counts.
fn edge_fields(random: &mut Random) -> Vec<Fields> {
    let mut list = Vec::new();
    for size in edge_sizes() {
        for stored_hash in [0, 65, 0x7FFF_FFFF, 0x8000_0000, 0xFFFF_FFFF, random.u32() as u64] {
            for run_count in [0, 1, 0x7FFF_FFFF, 0x8000_0000, 0xFFFF_FFFF, random.u32() as u64] {
                for version in [17, 23, 26, 30] {
                    list.push(Fields { size, stored_hash, run_count, version });
                }
            }
        }
    }
    list
}

fn edge_sizes() -> Vec<u64> {
    let mut sizes = vec![0, 1, 0x7FFF_FFFF, 0x8000_0000, 0xFFFF_FFFF];
    for limit in [OLD_LARGEST_SIZE, LARGEST_SIZE] {
        sizes.extend([limit - 1, limit, limit + 1]);
    }
    for layout in &LAYOUTS {
        sizes.extend([layout.head_end - 1, layout.head_end, layout.head_end + 1]);
        // Sizes that are good in their low 24 or 27 bits.
        sizes.extend([layout.head_end + OLD_LARGEST_SIZE + 1, layout.head_end + 2 * LARGEST_SIZE]);
    }
    sizes
}

/// Good lines at both ends of each version, and one outside; old ones too,
/// where a line has the digits for it.
fn edge_lines() -> Vec<Vec<u8>> {
    let mut lines = Vec::new();
    for layout in &LAYOUTS {
        let version = layout.version;
        let head_end = layout.head_end;
        for size in [head_end - 1, head_end, OLD_LARGEST_SIZE, LARGEST_SIZE, LARGEST_SIZE + 1] {
            lines.push(format!("{size:08X}89ABCDEF01234567{version:02X}\n").into_bytes());
        }
        for size in [head_end - 1, head_end, OLD_LARGEST_SIZE] {
            lines.push(format!("{size:06X}89ABCDEF01234567{version:02X}\n").into_bytes());
        }
    }
    lines.push(b"000094000000410000000111\n".to_vec());
    lines
}

/// Digits for a size of 0 to 12, with a line feed and without: only 6 and 8
/// make a line.
fn lines_between_the_lengths(random: &mut Random, tally: &mut Tally) {
    for layout in &LAYOUTS {
        for digits in 0..=12 {
            let size = format!("{:012X}", layout.head_end);
            let size = &size[12 - digits..];
            let line = format!("{size}89ABCDEF01234567{:02X}\n", layout.version);
            read(random, line.as_bytes(), 4, tally);
            read(random, line.trim_end().as_bytes(), 4, tally);
        }
    }
}

/// Every byte value at every place.
fn every_wrong_byte(random: &mut Random, line: &[u8], tally: &mut Tally) {
    for place in 0..line.len() {
        for byte in 0..=255 {
            let mut changed = line.to_vec();
            changed[place] = byte;
            read(random, &changed, 4, tally);
        }
    }
}

/// Lengths 0 to 60: cut short, or followed by more.
fn every_length(random: &mut Random, line: &[u8], tally: &mut Tally) {
    for length in 0..=60 {
        let mut changed = line.repeat(3);
        changed.truncate(length);
        read(random, &changed, 4, tally);
        if length > line.len() {
            changed[line.len()..].fill(b'0');
            read(random, &changed, 4, tally);
        }
    }
    read(random, &line.to_ascii_lowercase(), 4, tally);
}

fn out_lengths(random: &mut Random, line: &[u8], tally: &mut Tally) {
    for out_length in 0..=8 {
        read(random, line, out_length, tally);
        read(random, &line[1..], out_length, tally);
    }
}

/// Written, read back, and the line that was read written again.
fn random_fields(random: &mut Random, scale: usize, tally: &mut Tally) {
    for _ in 0..50_000 * scale {
        let layout = random.pick(&LAYOUTS);
        let fields = Fields {
            size: random.between(layout.head_end as usize - 2, LARGEST_SIZE as usize + 2) as u64,
            stored_hash: random.u32() as u64,
            run_count: random.u32() as u64,
            version: layout.version as u64,
        };
        let length = random.between(20, 60);
        write(random, &fields, length, tally);
        if let Some(line) = reference::write(&fields) {
            read(random, &line, 4, tally);
            back_again(&line, tally);
        }
    }
}

/// Read, and written as the new line of equal fields.
fn random_old_lines(random: &mut Random, scale: usize, tally: &mut Tally) {
    for _ in 0..20_000 * scale {
        let layout = random.pick(&LAYOUTS);
        let near_an_end = layout.head_end as usize + random.below(5) - 2;
        let any = random.between(0, OLD_LARGEST_SIZE as usize);
        let fields = Fields {
            size: *random.pick(&[near_an_end, any, any, OLD_LARGEST_SIZE as usize]) as u64,
            stored_hash: random.u32() as u64,
            run_count: random.u32() as u64,
            version: layout.version as u64,
        };
        let old_line = old_line(&fields);
        read(random, &old_line, 4, tally);
        if let Some(line) = reference::write(&fields) {
            let mut place = [0; 27];
            let answer = hivesaddle::catalogue_read(&old_line)
                .and_then(|fields| hivesaddle::catalogue_write(fields, &mut place));
            let given = (answer, &place[..]);
            tally.same("an old line as a new one", &(Ok(()), &line[..]), &given, || hex(&old_line));
        }
    }
}

/// What was read is written as the very same line, by the library alone.
fn back_again(line: &[u8], tally: &mut Tally) {
    let mut place = [0; 27];
    let answer = hivesaddle::catalogue_read(line)
        .and_then(|fields| hivesaddle::catalogue_write(fields, &mut place));
    tally.same("read, then written", &Ok(()), &answer, || hex(line));
    tally.same("the same line", line, &place[..], || hex(line));
}

/// Lines of random digits, some with one byte that is none.
fn random_lines(random: &mut Random, scale: usize, tally: &mut Tally) {
    for _ in 0..50_000 * scale {
        let digits = *random.pick(&[24, 26, 26]);
        let mut line: Vec<u8> = (0..digits).map(|_| *random.pick(b"0123456789ABCDEF")).collect();
        let version = *random.pick(&["11", "17", "1A", "1E", "1D", "1F"]);
        line[digits - 2..].copy_from_slice(version.as_bytes());
        // Small sizes, and for new lines sizes around the limit.
        if random.one_in(2) {
            line[..4].fill(b'0');
        } else if digits == 26 {
            line[..2].copy_from_slice(*random.pick(&[b"03", b"04", b"05", b"00"]));
        }
        line.push(b'\n');
        if random.one_in(4) {
            let place = random.below(line.len());
            line[place] = random.byte();
        }
        read(random, &line, 4, tally);
    }
}

/// Every version of two digits, and some that agree with a good one in their
/// low byte.
fn wrong_versions(random: &mut Random, tally: &mut Tally) {
    for version in 0..=255 {
        for high in [0, 1 << 8, 1 << 16, 1 << 31] {
            let version = version + high;
            let fields = Fields { size: 1_000, stored_hash: 1, run_count: 2, version };
            write(random, &fields, 27, tally);
        }
        for size in ["0003E8", "000003E8"] {
            let line = format!("{size}0000000100000002{version:02X}\n");
            read(random, line.as_bytes(), 4, tally);
        }
    }
}

/// Written into outputs of 0 to 60 bytes.
fn written(random: &mut Random, fields: &Fields, tally: &mut Tally) {
    for length in 0..=60 {
        write(random, fields, length, tally);
    }
    if let Some(line) = reference::write(fields) {
        read(random, &line, 4, tally);
        back_again(&line, tally);
    }
}

fn read(random: &mut Random, line: &[u8], out_length: usize, tally: &mut Tally) {
    let (number, values) = match reference::read(line) {
        Some(fields) => (0, [fields.size, fields.stored_hash, fields.run_count, fields.version]),
        None => (18, [0; 4]),
    };
    let mut out = guarded_u64(random, out_length);
    let expected = out.after_writing(&values);
    let copy = line.to_vec();
    let inner = out.inner();
    let given = unsafe {
        raw::hs_catalogue_read(copy.as_ptr(), copy.len(), inner.as_mut_ptr(), inner.len())
    };
    tally.same("read", &number, &given, || hex(line));
    tally.same("read, out", &expected[..], out.all(), || hex(line));
    tally.same("line unchanged", line, &copy, || hex(line));
}

fn write(random: &mut Random, fields: &Fields, length: usize, tally: &mut Tally) {
    let line = reference::write(fields).filter(|line| line.len() <= length);
    let number = if line.is_some() { 0 } else { 19 };
    let mut output = guarded_bytes(random, length);
    let expected = output.after_writing(&line.unwrap_or_default());
    let inner = output.inner();
    let given = unsafe {
        raw::hs_catalogue_write(
            fields.size as u32,
            fields.stored_hash as u32,
            fields.run_count as u32,
            fields.version as u32,
            inner.as_mut_ptr(),
            inner.len(),
        )
    };
    let input = || format!("{fields:?} into {length} bytes");
    tally.same("write", &number, &given, input);
    tally.same("write, output", &expected[..], output.all(), input);
}
