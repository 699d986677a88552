//! One line on standard error for a long run.

use std::io::{IsTerminal, Write};
use std::sync::atomic::{AtomicU64, Ordering};
use std::time::Instant;

/// Counts work done by several threads, and says every second how far it is. Quiet where standard error is no terminal,
/// but for a line at each tenth.
pub struct Progress {
    what: &'static str,
    all: u64,
    done: AtomicU64,
    tenth: AtomicU64,
    start: Instant,
    second: AtomicU64,
}

impl Progress {
    pub fn new(what: &'static str, all: u64) -> Self {
        Progress { what, all, done: AtomicU64::new(0), tenth: AtomicU64::new(0), start: Instant::now(), second: AtomicU64::new(0) }
    }

    /// So much more is done. The threads may do somewhat more than all.
    pub fn add(&self, n: u64) {
        let before = self.done.fetch_add(n, Ordering::Relaxed);
        let seconds = self.start.elapsed().as_secs();
        let (percent, ends) = (self.percent(before + n), before < self.all && before + n >= self.all);
        if std::io::stderr().is_terminal() {
            let second = self.second.swap(seconds, Ordering::Relaxed) != seconds;
            if before < self.all && (second || ends) {
                eprint!("\r{}: {percent:3} %, {seconds} s{}", self.what, if ends { "\n" } else { "" });
                let _ = std::io::stderr().flush();
            }
        } else if self.tenth.fetch_max(percent / 10, Ordering::Relaxed) < percent / 10 {
            eprintln!("{}: {percent} %, {seconds} s", self.what);
        }
    }

    fn percent(&self, done: u64) -> u64 {
        100 * done.min(self.all) / self.all.max(1)
    }
}

#[cfg(test)]
mod tests {
    use super::*;

    /// Batches that go beyond the end are at the end.
    #[test]
    fn no_more_than_all() {
        let progress = Progress::new("any", 300);
        assert_eq!([0, 2, 3, 150, 299, 300, 301, 1_000_000].map(|done| progress.percent(done)), [0, 0, 1, 50, 99, 100, 100, 100]);
    }
}
