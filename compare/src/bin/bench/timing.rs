//! Times of two sides, taken in turn.

use std::time::{Duration, Instant};

/// Measured rounds; each times both sides once.
const ROUNDS: usize = 15;

/// The name of the row that needs a second archive.
pub const UNCHECKED: &str = "step without the whole check";

/// Nanoseconds a call on each side.
pub struct Row {
    name: &'static str,
    archive: f64,
    rust: f64,
}

impl Row {
    /// Times both sides in turn and takes the medians. Each side does so many
    /// calls and says how long they took.
    pub fn measure(
        name: &'static str,
        calls: usize,
        mut archive: impl FnMut() -> Duration,
        mut rust: impl FnMut() -> Duration,
    ) -> Row {
        // One round that doesn't count, to warm up.
        archive();
        rust();
        let (mut archive_times, mut rust_times) = (Vec::new(), Vec::new());
        for _ in 0..ROUNDS {
            archive_times.push(archive());
            rust_times.push(rust());
        }
        let a_call = |times| median(times).as_nanos() as f64 / calls as f64;
        Row {
            name,
            archive: a_call(archive_times),
            rust: a_call(rust_times),
        }
    }

    pub fn print(&self) {
        let Row { name, archive, rust } = self;
        println!("{:28} {:>12.1} {:>12.1} {:>8.2}", name, archive, rust, archive / rust);
    }
}

fn median(mut times: Vec<Duration>) -> Duration {
    times.sort();
    times[times.len() / 2]
}

/// How long the work takes.
pub fn time(work: impl FnOnce()) -> Duration {
    let start = Instant::now();
    work();
    start.elapsed()
}
