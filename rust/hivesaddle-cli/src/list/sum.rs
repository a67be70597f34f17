//! SHA-256, by the program that every analyst compares with.

use std::io::{self, Write};
use std::process::{Command, Stdio};

/// The sum of these bytes, 64 digits, as coreutils' sha256sum says it.
pub fn sha256(bytes: &[u8]) -> io::Result<String> {
    let mut child =
        Command::new("sha256sum").stdin(Stdio::piped()).stdout(Stdio::piped()).spawn()?;
    // It reads all before it writes.
    if let Some(mut input) = child.stdin.take() {
        input.write_all(bytes)?;
    }
    let said = child.wait_with_output()?.stdout;
    let sum = said.get(..64).and_then(|sum| std::str::from_utf8(sum).ok());
    sum.map(String::from).ok_or_else(|| io::Error::other("gives no sum"))
}
