//! What the program writes for the bytes on its standard input.

use super::head::{name_unit, name_units};
use super::readers::{read_file, Record, Verdict};
use super::search::find_path;

/// The longest input, and the slots of the program.
pub const LONGEST_INPUT: usize = 49_151;
pub const PLACES: usize = 4_096;

pub fn listing(input: &[u8]) -> String {
    if input.len() > LONGEST_INPUT {
        return "too long\n".to_string();
    }
    match read_file(input, PLACES).verdict {
        Verdict::Accepted(record) => lines(input, &record),
        Verdict::Refused(refusal) => format!("refused {} {}\n", refusal.number, refusal.index),
        Verdict::Wanted(_) => unreachable!("the whole-file reader asks for nothing"),
    }
}

fn lines(file: &[u8], record: &Record) -> String {
    [
        format!("version {}\n", record.version),
        format!("name {}\n", shown_name(file)),
        format!("hash {:08X}\n", record.stored_hash),
        format!("runs {}\n", record.run_count),
        format!("files {}\n", record.metrics_count),
        format!("chains {}\n", record.chain_count),
        format!("volumes {}\n", record.volume_count),
        format!("path {}\n", shown_path(file)),
    ]
    .concat()
}

fn shown_name(file: &[u8]) -> String {
    let units = name_units(file).expect("the file is accepted");
    (0..units).map(|place| shown_unit(name_unit(file, place))).collect()
}

fn shown_unit(unit: u64) -> char {
    match unit {
        33..=126 => unit as u8 as char,
        _ => '?',
    }
}

fn shown_path(file: &[u8]) -> String {
    match find_path(file) {
        Some(found) => format!("{} {}", found.entry, found.number),
        None => "none".to_string(),
    }
}

#[cfg(test)]
mod points {
    use super::*;

    #[test]
    fn the_listing_of_the_paper() {
        let mut file = vec![0; 148];
        file[0] = 17;
        file[4..8].copy_from_slice(b"SCCA");
        file[12] = 148;
        file[16] = b'A';
        file[76] = 65;
        file[144] = 1;
        let lines = "version 17\nname A\nhash 00000041\nruns 1\n\
                     files 0\nchains 0\nvolumes 0\npath none\n";
        assert_eq!(listing(&file), lines);
        file[5] = 0;
        assert_eq!(listing(&file), "refused 2 0\n");
        assert_eq!(listing(&[0; 49_152]), "too long\n");
    }
}
