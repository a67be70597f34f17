//! How wide the terminal is.

use std::fs::File;
use std::process::{Command, Stdio};

/// Where nobody says.
const USUAL: usize = 80;

/// As the shell says, or as `stty` finds out.
pub fn width() -> usize {
    let told = std::env::var("COLUMNS").ok().and_then(|columns| columns.parse().ok());
    told.or_else(asked).filter(|width| *width > 0).unwrap_or(USUAL)
}

fn asked() -> Option<usize> {
    let terminal = File::open("/dev/tty").ok()?;
    let said = Command::new("stty").arg("size").stdin(terminal).stderr(Stdio::null()).output();
    String::from_utf8(said.ok()?.stdout).ok()?.split_whitespace().nth(1)?.parse().ok()
}
