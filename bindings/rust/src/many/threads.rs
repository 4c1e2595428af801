//! Work on several threads.

use std::iter::from_fn;
use std::sync::atomic::{AtomicUsize, Ordering};
use std::thread::{scope, Builder};

/// What `work` gives for each number below `count`, in their order, by this thread and others, so many in all. Where the system has no further
/// thread, fewer do it.
pub(super) fn in_threads<T: Send>(count: usize, threads: usize, work: impl Fn(usize) -> T + Sync) -> Vec<T> {
    let next = AtomicUsize::new(0);
    let worker = || {
        let mine = from_fn(|| Some(next.fetch_add(1, Ordering::Relaxed)).filter(|&k| k < count));
        mine.map(|k| (k, work(k))).collect::<Vec<_>>()
    };
    let mut done: Vec<(usize, T)> = scope(|scope| {
        let more = 1..threads.min(count);
        let others: Vec<_> = more.map_while(|_| Builder::new().spawn_scoped(scope, worker).ok()).collect();
        let mut done = worker();
        done.extend(others.into_iter().flat_map(|other| other.join().expect("no work panics")));
        done
    });
    done.sort_by_key(|(k, _)| *k);
    done.into_iter().map(|(_, given)| given).collect()
}
