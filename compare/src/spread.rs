//! Numbered cases, spread over all cores.

use crate::report::Tally;
use std::sync::atomic::{AtomicU64, Ordering};
use std::thread;

/// Runs the cases from the first to before the end, each with a tally to count in.
pub fn over_cores(first: u64, end: u64, work: impl Fn(u64, &mut Tally) + Sync) -> Tally {
    let next = AtomicU64::new(first);
    let cores = thread::available_parallelism().map_or(1, |cores| cores.get());
    let one_core = || {
        let mut tally = Tally::default();
        loop {
            let case = next.fetch_add(1, Ordering::Relaxed);
            if case >= end {
                return tally;
            }
            work(case, &mut tally);
        }
    };
    let mut whole = Tally::default();
    thread::scope(|scope| {
        let running: Vec<_> = (0..cores).map(|_| scope.spawn(one_core)).collect();
        for thread in running {
            whole.add(thread.join().expect("a thread that compares does not panic"));
        }
    });
    whole.differences.sort_by(|a, b| a.case.cmp(&b.case));
    whole
}
