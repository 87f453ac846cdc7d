//! Comparisons in several threads at the same time.

use std::thread;

const THREADS: u64 = 4;

/// Does the work in each thread, with a seed of its own. A panic in one of them is one here.
pub fn in_threads(work: impl Fn(u64) + Sync) {
    thread::scope(|scope| {
        for seed in 0..THREADS {
            let work = &work;
            scope.spawn(move || work(seed));
        }
    });
}
