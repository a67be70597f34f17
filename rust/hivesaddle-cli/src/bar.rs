//! A bar for what takes long, on a terminal and nowhere else.

use std::io::{self, IsTerminal, Write};
use std::sync::atomic::{AtomicBool, Ordering};
use std::time::{Duration, Instant};

/// Short work shows nothing.
const FIRST: Duration = Duration::from_millis(300);
const BETWEEN: Duration = Duration::from_millis(100);
const CELLS: u64 = 40;

/// Whether there is one on the terminal. Whatever is written there clears it.
static IS_SHOWN: AtomicBool = AtomicBool::new(false);

pub struct Bar {
    /// When it is shown next; none where there is no terminal.
    next: Option<Instant>,
}

impl Bar {
    pub fn new() -> Bar {
        Bar { next: io::stderr().is_terminal().then(|| Instant::now() + FIRST) }
    }

    /// For what is known to take long: it is shown at once.
    pub fn hurry(&mut self) {
        self.next = self.next.map(|_| Instant::now());
    }

    /// Shows it, if there is a terminal and the time for it has come.
    pub fn show(&mut self, text: impl FnOnce() -> String) {
        // The clock is not asked where nobody looks.
        if self.next.is_none_or(|next| next > Instant::now()) {
            return;
        }
        self.next = Some(Instant::now() + BETWEEN);
        IS_SHOWN.store(true, Ordering::Relaxed);
        // Whoever closed standard error does not want to know.
        let _ = write!(io::stderr(), "\r{}\x1B[K", text());
    }
}

/// Leaves the line as it was before.
pub fn clear() {
    if IS_SHOWN.swap(false, Ordering::Relaxed) {
        let _ = write!(io::stderr(), "\r\x1B[K");
    }
}

/// As many of the whole as there is part, with brackets around them.
pub fn cells(done: u64, all: u64) -> String {
    let full = part(CELLS, done, all) as usize;
    format!("[{}{}]", "#".repeat(full), ".".repeat(CELLS as usize - full))
}

/// So many hundredths, say, as the part is of the whole, which is not 0.
pub fn part(of: u64, done: u64, all: u64) -> u64 {
    (u128::from(done) * u128::from(of) / u128::from(all)) as u64
}
