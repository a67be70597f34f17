//! Prefix lengths at which an answer can change.

use super::Sample;
use crate::reference::checks::{entry_start, name_of_entry};
use crate::reference::head::{
    known_layout, layout, metrics_count, number_32, section, version, STRINGS,
};
use crate::reference::layout::least_head_end;

/// One before, at and one after every required length, every section's start and end,
/// and the declared size; and the whole.
pub fn cuts(sample: &Sample) -> Vec<usize> {
    let length = sample.bytes.len();
    let mut cuts: Vec<usize> = middles(&sample.bytes)
        .into_iter()
        .flat_map(|middle| [middle.saturating_sub(1), middle, middle + 1])
        .map(|cut| cut as usize)
        .filter(|&cut| cut <= length)
        .collect();
    cuts.extend([0, length]);
    cuts.sort();
    cuts.dedup();
    cuts
}

fn middles(file: &[u8]) -> Vec<u64> {
    let mut middles = vec![4, 8, 16, 76, 88];
    if file.len() < 16 {
        return middles;
    }
    middles.push(number_32(file, 12));
    // A damaged version has no layout of its own.
    middles.push(least_head_end(version(file)).unwrap_or(148));
    if file.len() >= 120 && layout(file).is_some() {
        for which in 1..=4 {
            let section = section(file, which);
            middles.extend([section.start, section.end()]);
        }
    }
    middles
}

/// Around the end of every metrics entry and of every name, for a sound file.
pub fn query_cuts(sample: &Sample) -> Vec<usize> {
    let file = &sample.bytes[..];
    let mut list = Vec::new();
    for i in 0..metrics_count(file) {
        let entry_end = entry_start(file, i) + known_layout(file).metrics_entry;
        let name_end = section(file, STRINGS).start + name_of_entry(file, i).end();
        for end in [entry_end as usize, name_end as usize] {
            list.extend([end - 2, end - 1, end]);
        }
    }
    list
}
