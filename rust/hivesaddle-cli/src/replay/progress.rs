//! How far a long read has come.

use crate::bar::{cells, part, Bar};

pub struct Progress {
    /// None where it is not known.
    size: Option<u64>,
    done: u64,
    bar: Bar,
}

impl Progress {
    pub fn new(size: Option<u64>) -> Progress {
        Progress { size, done: 0, bar: Bar::new() }
    }

    pub fn add(&mut self, bytes: u64) {
        self.done += bytes;
        self.bar.show(|| bar(self.done, self.size));
    }
}

/// Short enough for any terminal.
fn bar(done: u64, size: Option<u64>) -> String {
    match size.filter(|size| *size != 0) {
        // A file may have grown.
        Some(size) if done <= size => {
            format!("reading {} {:>3} %", cells(done, size), part(100, done, size))
        }
        _ => format!("reading, {done} bytes"),
    }
}

#[cfg(test)]
mod tests {
    use super::bar;

    #[test]
    fn bars() {
        assert_eq!(bar(0, Some(8)), format!("reading [{}]   0 %", ".".repeat(40)));
        let half = "#".repeat(20) + &".".repeat(20);
        assert_eq!(bar(u64::MAX / 2 + 1, Some(u64::MAX)), format!("reading [{half}]  50 %"));
        assert_eq!(bar(8, Some(8)), format!("reading [{}] 100 %", "#".repeat(40)));
    }

    #[test]
    fn without_a_size_bytes_are_counted() {
        for size in [None, Some(0), Some(4)] {
            assert_eq!(bar(5, size), "reading, 5 bytes");
        }
    }
}
