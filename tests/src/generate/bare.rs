//! Files with a bare head and one section or two, for answers worked out by
//! hand.

use super::set_32;
use crate::reference::readers::Record;

/// H of each version, as the papers have it.
pub const HEADS: [(u32, u32); 4] = [(17, 148), (23, 156), (26, 212), (30, 212)];

/// Where the metrics array of version 30 starts, empty or not.
pub const START_30: u32 = 304;

/// A head without a name or a section, and so many bytes behind it.
pub fn bare(version: u32, more: u32) -> Vec<u8> {
    let head_end = HEADS.iter().find(|head| head.0 == version).expect("one of four").1;
    let size = head_end + more;
    let mut file = vec![0; size as usize];
    set_32(&mut file, 0, version);
    file[4..8].copy_from_slice(b"SCCA");
    set_32(&mut file, 12, size);
    if version == 30 {
        set_32(&mut file, 84, START_30);
    }
    file
}

/// What is accepted of a bare file.
pub fn bare_record(file: &[u8]) -> Record {
    Record {
        version: file[0] as u64,
        declared_size: file.len() as u64,
        name_units: 0,
        stored_hash: 0,
        run_times: [0; 8],
        time_count: if file[0] < 26 { 1 } else { 8 },
        run_count: 0,
        metrics_count: 0,
        trace_count: 0,
        volume_count: 0,
        chain_count: 0,
    }
}

/// Trace entries at 148 of a version 17 file, and nothing else.
pub fn with_links(links: &[u32]) -> Vec<u8> {
    let mut file = bare(17, 12 * links.len() as u32);
    set_32(&mut file, 92, 148);
    set_32(&mut file, 96, links.len() as u32);
    for (entry, &link) in links.iter().enumerate() {
        set_32(&mut file, 148 + 12 * entry, link);
    }
    file
}

/// The same with their block counts.
pub fn with_blocks(links: &[u32], blocks: &[u32]) -> Vec<u8> {
    assert_eq!(links.len(), blocks.len());
    let mut file = with_links(links);
    for (entry, &count) in blocks.iter().enumerate() {
        set_32(&mut file, 148 + 12 * entry + 4, count);
    }
    file
}

/// One volume at 148 of a version 17 file, with data behind its entry.
pub fn one_volume(fields: [u32; 6], data: &[u8]) -> Vec<u8> {
    one_volume_of(17, fields, data)
}

/// Bytes of a volume entry.
pub fn volume_entry(version: u32) -> u32 {
    match version {
        17 => 40,
        30 => 96,
        _ => 104,
    }
}

/// Bytes of a trace entry.
pub fn trace_entry(version: u32) -> u32 {
    match version {
        30 => 8,
        _ => 12,
    }
}

/// One volume right behind the head, with data behind its entry. Path offset
/// and units; references offset and size; directories offset and count.
pub fn one_volume_of(version: u32, fields: [u32; 6], data: &[u8]) -> Vec<u8> {
    let entry = volume_entry(version);
    let size = entry + data.len() as u32;
    let mut file = bare(version, size);
    let start = file.len() - size as usize;
    set_32(&mut file, 108, start as u32);
    set_32(&mut file, 112, 1);
    set_32(&mut file, 116, size);
    for (place, number) in [0, 4, 20, 24, 28, 32].into_iter().zip(fields) {
        set_32(&mut file, start + place, number);
    }
    file[start + entry as usize..].copy_from_slice(data);
    file
}

/// Where a metrics array can start, the metrics entry's size, and where the
/// name's offset stands in it; its length follows.
fn numbers_of(version: u32) -> (usize, usize, usize) {
    match version {
        17 => (148, 20, 8),
        23 => (156, 32, 12),
        26 => (212, 32, 12),
        _ => (START_30 as usize, 32, 12),
    }
}

/// Metrics entries as early as they can be and strings right after them. A
/// name is its offset and its units.
pub fn with_names(version: u32, names: &[(u32, u32)], strings: &[u8]) -> Vec<u8> {
    let (metrics_start, entry, name) = numbers_of(version);
    let strings_start = metrics_start + entry * names.len();
    let mut file = vec![0; strings_start + strings.len()];
    let size = file.len() as u32;
    set_32(&mut file, 0, version);
    file[4..8].copy_from_slice(b"SCCA");
    set_32(&mut file, 12, size);
    set_32(&mut file, 84, metrics_start as u32);
    set_32(&mut file, 88, names.len() as u32);
    set_32(&mut file, 100, strings_start as u32);
    set_32(&mut file, 104, strings.len() as u32);
    for (i, &(offset, units)) in names.iter().enumerate() {
        set_32(&mut file, metrics_start + i * entry + name, offset);
        set_32(&mut file, metrics_start + i * entry + name + 4, units);
    }
    file[strings_start..].copy_from_slice(strings);
    file
}

/// One metrics entry with this path for its name, and a stored hash.
pub fn with_path(version: u32, path: &str, stored_hash: u32) -> Vec<u8> {
    let units = path.encode_utf16().count() as u32;
    let strings: Vec<u8> = path.encode_utf16().chain([0]).flat_map(u16::to_le_bytes).collect();
    let mut file = with_names(version, &[(0, units)], &strings);
    set_32(&mut file, 76, stored_hash);
    file
}

/// Metrics entries with these names, and behind all a volume for each path.
/// Other fields of the volumes are 0.
pub fn with_volumes(version: u32, names: &[&str], paths: &[&str], stored_hash: u32) -> Vec<u8> {
    let ended = |text: &str| -> Vec<u8> {
        text.encode_utf16().chain([0]).flat_map(u16::to_le_bytes).collect()
    };
    let (mut strings, mut places) = (Vec::new(), Vec::new());
    for name in names {
        places.push((strings.len() as u32, name.encode_utf16().count() as u32));
        strings.extend(ended(name));
    }
    let mut file = with_names(version, &places, &strings);
    let (start, entry) = (file.len(), volume_entry(version) as usize);
    file.resize(start + entry * paths.len(), 0);
    for (i, path) in paths.iter().enumerate() {
        let offset = (file.len() - start) as u32;
        set_32(&mut file, start + i * entry, offset);
        set_32(&mut file, start + i * entry + 4, path.encode_utf16().count() as u32);
        file.extend(ended(path));
    }
    let size = file.len() as u32;
    set_32(&mut file, 12, size);
    set_32(&mut file, 76, stored_hash);
    set_32(&mut file, 108, start as u32);
    set_32(&mut file, 112, paths.len() as u32);
    set_32(&mut file, 116, size - start as u32);
    file
}
