//! The volumes section: entries, then paths, references and directories.

use super::{gap, ignored_offset, set_32};
use crate::random::Random;
use crate::reference::layout::Layout;

/// With no volumes the section may still hold something.
pub fn section(random: &mut Random, layout: &Layout, volumes: usize) -> Vec<u8> {
    let entry = layout.volume_entry as usize;
    let mut section = random.bytes(volumes * entry);
    for i in 0..volumes {
        let mut pieces: [fn(&mut Random, &mut Vec<u8>, usize); 3] = [path, references, directories];
        random.shuffle(&mut pieces);
        for piece in pieces {
            gap(random, &mut section);
            piece(random, &mut section, i * entry);
        }
    }
    if volumes > 1 && random.one_in(4) {
        share_directories(&mut section, entry);
    }
    if volumes > 0 && random.one_in(4) {
        path_over_everything(random, &mut section);
    }
    gap(random, &mut section);
    section
}

/// A volume for each path, of units as they are to stand there.
pub fn with_paths(random: &mut Random, layout: &Layout, paths: &[Vec<u16>]) -> Vec<u8> {
    let entry = layout.volume_entry as usize;
    let mut section = random.bytes(paths.len() * entry);
    for (i, path) in paths.iter().enumerate() {
        references(random, &mut section, i * entry);
        gap(random, &mut section);
        put_path(random, &mut section, i * entry, path);
        directories(random, &mut section, i * entry);
    }
    gap(random, &mut section);
    section
}

fn path(random: &mut Random, section: &mut Vec<u8>, entry: usize) {
    let units = *random.pick(&[0, 0, 1, 2, 5, 12]);
    let path: Vec<u16> = (0..units).map(|_| maybe_zero(random)).collect();
    put_path(random, section, entry, &path);
}

fn put_path(random: &mut Random, section: &mut Vec<u8>, entry: usize, path: &[u16]) {
    let units = path.len() as u32;
    let offset = place(random, section, units);
    set_32(section, entry, offset);
    set_32(section, entry + 4, units);
    section.extend(path.iter().flat_map(|unit| unit.to_le_bytes()));
}

fn references(random: &mut Random, section: &mut Vec<u8>, entry: usize) {
    let n = *random.pick(&[0, 1, 2, 5]);
    let unused = *random.pick(&[0, 0, 1, 7, 8, 9]);
    let size = if random.one_in(4) { 0 } else { 8 + 8 * n + unused };
    let offset = place(random, section, size);
    set_32(section, entry + 20, offset);
    set_32(section, entry + 24, size);
    if size > 0 {
        let start = section.len();
        section.extend(random.bytes(size as usize));
        set_32(section, start + 4, n);
    }
}

fn directories(random: &mut Random, section: &mut Vec<u8>, entry: usize) {
    let count = *random.pick(&[0, 1, 2, 4]);
    let offset = place(random, section, count);
    set_32(section, entry + 28, offset);
    set_32(section, entry + 32, count);
    for _ in 0..count {
        let units = *random.pick(&[0, 1, 3, 10]);
        section.extend((units as u16).to_le_bytes());
        for _ in 0..units {
            section.extend(maybe_zero(random).to_le_bytes());
        }
        section.extend([0, 0]);
    }
}

/// The section's end, or anything where there is nothing to place.
fn place(random: &mut Random, section: &[u8], amount: u32) -> u32 {
    match amount {
        0 => ignored_offset(random),
        _ => section.len() as u32,
    }
}

fn maybe_zero(random: &mut Random) -> u16 {
    if random.one_in(8) {
        0
    } else {
        super::strings::unit(random)
    }
}

/// The second volume has the directories of the first.
fn share_directories(section: &mut [u8], entry: usize) {
    section.copy_within(28..36, entry + 28);
}

/// The first path begins anywhere and goes to the section's very end.
fn path_over_everything(random: &mut Random, section: &mut [u8]) {
    let units = random.between(1, section.len() / 2);
    set_32(section, 0, (section.len() - 2 * units) as u32);
    set_32(section, 4, units as u32);
}
