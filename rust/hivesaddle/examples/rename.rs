//! A volume is renamed: the hashes of 200,000 paths follow by a swap of their
//! first 46 bytes, and each is checked against hashing the new path.
//!
//! The status is 0 where all agree.

use hivesaddle::{hash_powers_bytes, hash_swap_bytes};
use std::process::ExitCode;

const PATHS: usize = 200_000;
const OLD_VOLUME: &str = r"\DEVICE\HARDDISKVOLUME1";
const NEW_VOLUME: &str = r"\VOLUME{01D2A9C8E3F5B6A7-5C0A70E1}";

const FOLDERS: [&str; 4] = [
    r"WINDOWS\SYSTEM32",
    r"PROGRAM FILES\CHAMBER\PLUGINS",
    r"USERS\CREW\APPDATA\ROAMING\CHAMBER\CURVES",
    r"USERS\CREW\DOCUMENTS\MEASUREMENTS\COLD CHAMBER",
];

/// What stands behind the volume; no two are the same.
fn rest(i: usize) -> String {
    format!(r"\{}\{i:06}.EXE", FOLDERS[i % 4])
}

/// A path is hashed by the bytes of its UTF-16 units.
fn bytes(text: &str) -> Vec<u8> {
    text.encode_utf16().flat_map(u16::to_le_bytes).collect()
}

fn main() -> ExitCode {
    let (old_volume, new_volume) = (bytes(OLD_VOLUME), bytes(NEW_VOLUME));
    // What the catalogue has before the volume is renamed.
    let catalogue: Vec<(Vec<u8>, u32)> = (0..PATHS)
        .map(|i| {
            let path = bytes(&format!("{OLD_VOLUME}{}", rest(i)));
            let hash = hash_powers_bytes(&path);
            (path, hash)
        })
        .collect();
    println!("{} paths, {OLD_VOLUME} becomes {NEW_VOLUME}", catalogue.len());

    let p = old_volume.len() as u64;
    let agreeing = catalogue.iter().enumerate().filter(|(i, (path, hash))| {
        let anew = hash_powers_bytes(&bytes(&format!("{NEW_VOLUME}{}", rest(*i))));
        hash_swap_bytes(*hash, path, p, &new_volume) == Ok(anew)
    });
    let agreeing = agreeing.count();
    let (path, hash) = &catalogue[0];
    match hash_swap_bytes(*hash, path, p, &new_volume) {
        Ok(new_hash) => println!("the first: {hash:08X} becomes {new_hash:08X}"),
        Err(refusal) => println!("refused {}", refusal.number),
    }
    if agreeing < PATHS {
        println!("{agreeing} of {PATHS} hashes agree with hashing anew");
        return ExitCode::FAILURE;
    }
    println!("all {agreeing} hashes agree with hashing anew");
    ExitCode::SUCCESS
}
