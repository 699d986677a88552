//! Jobs on as many threads as the machine has.

use std::sync::atomic::{AtomicBool, AtomicU64, Ordering};

/// Does the jobs with these numbers, each begun in its turn, until one says that it is enough.
pub fn each(jobs: u64, job: impl Fn(u64) -> bool + Sync) {
    let (next, enough) = (AtomicU64::new(0), AtomicBool::new(false));
    std::thread::scope(|scope| {
        for _ in 0..std::thread::available_parallelism().map_or(1, |n| n.get()) {
            scope.spawn(|| {
                while !enough.load(Ordering::Relaxed) {
                    let number = next.fetch_add(1, Ordering::Relaxed);
                    if number >= jobs {
                        break;
                    }
                    if job(number) {
                        enough.store(true, Ordering::Relaxed);
                    }
                }
            });
        }
    });
}
