//! Work in numbered pieces, on all cores.

use std::sync::atomic::{AtomicBool, AtomicU64, Ordering};
use std::sync::Mutex;
use std::thread;

/// The results of the pieces in their order, or the trouble of the first piece
/// that is known to have any. After trouble no further piece is begun.
pub fn each<Done, Work>(count: u64, work: Work) -> Result<Vec<Done>, String>
where
    Done: Send,
    Work: Fn(u64) -> Result<Done, String> + Sync,
{
    let cores = thread::available_parallelism().map_or(1, |cores| cores.get());
    let next = AtomicU64::new(0);
    let trouble = AtomicBool::new(false);
    let results = Mutex::new(Vec::new());
    let pieces = || loop {
        let number = next.fetch_add(1, Ordering::Relaxed);
        if number >= count || trouble.load(Ordering::Relaxed) {
            return;
        }
        let result = work(number);
        trouble.fetch_or(result.is_err(), Ordering::Relaxed);
        results.lock().unwrap().push((number, result));
    };
    thread::scope(|scope| {
        for _ in 0..cores {
            scope.spawn(pieces);
        }
    });
    let mut results = results.into_inner().unwrap();
    results.sort_by_key(|&(number, _)| number);
    results.into_iter().map(|(_, result)| result).collect()
}
