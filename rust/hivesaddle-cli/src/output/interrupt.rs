//! While a file stands beside its place, an interrupt would leave it there. So
//! for that time it is noted, the file is removed, and then the program ends.

use std::io;
use std::sync::atomic::{AtomicI32, Ordering};

/// Of POSIX: a terminal that is gone, its interrupt key, and `kill`.
const SIGNALS: [i32; 3] = [1, 2, 15];
/// What stands for "is ignored", as after `nohup`.
const IGNORED: usize = 1;

static NOTED: AtomicI32 = AtomicI32::new(0);

extern "C" fn note(number: i32) {
    NOTED.store(number, Ordering::Relaxed);
}

extern "C" {
    /// Of the C library, which the standard library stands on.
    fn signal(number: i32, handler: usize) -> usize;
}

/// What a signal did before.
fn set(number: i32, handler: usize) -> usize {
    // SAFETY: the handler only stores a number, which is allowed in it.
    unsafe { signal(number, handler) }
}

/// Notes interrupts from its making to its end.
pub struct Watch([usize; 3]);

impl Watch {
    pub fn new() -> Watch {
        Watch(SIGNALS.map(|number| {
            let before = set(number, note as extern "C" fn(i32) as usize);
            if before == IGNORED {
                set(number, IGNORED);
            }
            before
        }))
    }

    /// An error once there was an interrupt.
    pub fn look(&self) -> io::Result<()> {
        match NOTED.load(Ordering::Relaxed) {
            0 => Ok(()),
            _ => Err(io::Error::other("interrupted")),
        }
    }

    /// All is as before, and an interrupt that was noted ends the program with the
    /// status that a shell gives it.
    pub fn end(self) {
        for (number, before) in SIGNALS.into_iter().zip(self.0) {
            set(number, before);
        }
        match NOTED.load(Ordering::Relaxed) {
            0 => {}
            number => std::process::exit(128 + number),
        }
    }

    #[cfg(test)]
    pub fn forget(&self) {
        NOTED.store(0, Ordering::Relaxed);
    }
}
