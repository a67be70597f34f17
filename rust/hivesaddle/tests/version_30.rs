//! A version 30 file through the safe calls: what is there without links, and
//! what is left of a file whose head form is not known.

use hivesaddle::*;

/// One metrics entry at 304, two trace entries behind it, the name "A" and one
/// volume entry of 96 bytes.
fn file() -> Vec<u8> {
    let (trace, strings, volumes) = (304 + 32, 304 + 32 + 16, 304 + 32 + 16 + 4);
    let mut file = vec![0; volumes + 96];
    let size = file.len();
    let mut set = |at: usize, number: u32| file[at..at + 4].copy_from_slice(&number.to_le_bytes());
    set(0, 30);
    set(12, size as u32);
    // The 2008 hash of "A", and 3.
    set(76, 430_086_079);
    let sections = [(84, 304, 1), (92, trace, 2), (100, strings, 4), (108, volumes, 1)];
    for (field, start, count) in sections {
        set(field, start as u32);
        set(field + 4, count);
    }
    set(116, 96);
    for i in 0..8 {
        set(128 + 8 * i, 80 - i as u32);
    }
    set(208, 7);
    set(304 + 16, 1);
    // As links these would be a cycle, and one astray.
    set(trace, 0);
    set(trace + 8, 9);
    set(volumes + 16, 0x5C0A_70E1);
    file[4..8].copy_from_slice(b"SCCA");
    file[strings] = b'A';
    file
}

#[test]
fn read_without_slots() {
    let file = file();
    assert_eq!(places(&file), Some(0));
    let contents = read_file_alloc(&file).unwrap();
    assert_eq!(contents.predecessors, []);
    let record = contents.record;
    assert_eq!((record.version, record.run_count), (30, 7));
    assert_eq!((record.trace_count, record.chain_count), (2, 0));
    assert_eq!(record.times(), [80, 79, 78, 77, 76, 75, 74, 73]);
    let mut slots = [1, 2, 3];
    assert_eq!(read_file(&file, &mut slots), Ok(record));
    assert_eq!(slots, [NONE; 3]);
}

#[test]
fn entry_volume_and_path() {
    let file = file();
    assert_eq!(entry_name(&file, 0), Some(&b"A\0"[..]));
    assert_eq!(volume(&file, 0).unwrap().serial_number, 0x5C0A_70E1);
    assert_eq!(find_path(&file), Some(FoundPath { entry: 0, number: 3 }));
}

#[test]
fn another_form() {
    let mut file = file();
    file[84] = 40;
    let refusal = Refusal { number: 21, index: 0, offset: 84 };
    assert_eq!(read_file_alloc(&file), Err(refusal));
    assert_eq!(read_prefix(&file[..88], &mut []), Verdict::Refused(refusal));
    assert_eq!(read_prefix(&file[..87], &mut []), Verdict::Wanted(88));
    assert_eq!(places(&file), None);
    assert_eq!(program_name(&file), Some(&b""[..]));
    assert_eq!(entry_name(&file, 0), None);
    assert_eq!(volume(&file, 0), None);
    assert_eq!(find_path(&file), None);
}
