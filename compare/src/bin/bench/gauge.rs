//! The step without the whole check, which no public call offers: the other
//! machine's stands in an archive of its own, made for this comparison.

use crate::timing::{time, Row, UNCHECKED};
use compare::machine::*;
use compare::maker::Maker;
use std::hint::black_box;
use std::time::Duration;

#[link(name = "gauge", kind = "static")]
extern "C" {
    /// Steps the events, five numbers each, from an empty plant, and says how
    /// many were accepted.
    fn gauge_accepted(numbers: *const u32, length: usize) -> usize;
}

const EVENTS: usize = 40_000;
const SEED: u64 = 2;
/// An event as numbers: its kind and four fields.
const WORDS: usize = 5;

/// The list of work from an empty plant, the making of which is timed too.
pub fn unchecked_step() -> Result<Row, String> {
    let numbers = work();
    let (theirs, ours) = (archive_accepted(&numbers), rust_accepted(&numbers));
    if theirs != ours {
        return Err(format!("without the whole check {} are accepted, Rust {}", theirs, ours));
    }
    let archive = || timed(&numbers, archive_accepted);
    let rust = || timed(&numbers, rust_accepted);
    Ok(Row::measure(UNCHECKED, EVENTS, archive, rust))
}

fn timed(numbers: &[u32], accepted: fn(&[u32]) -> usize) -> Duration {
    time(|| {
        black_box(accepted(black_box(numbers)));
    })
}

/// Events as in a plant's day: nearly all are accepted.
fn work() -> Vec<u32> {
    let mut maker = Maker::new(SEED, EVENTS as u64);
    let mut numbers = Vec::new();
    for _ in 0..EVENTS {
        let event = maker.fitting();
        maker.take(event);
        numbers.push(event.kind);
        numbers.extend_from_slice(&event.fields);
    }
    numbers
}

fn archive_accepted(numbers: &[u32]) -> usize {
    // Sound: start and length of a live slice, which the call only reads.
    unsafe { gauge_accepted(numbers.as_ptr(), numbers.len()) }
}

/// What the archive's function does, by the Rust machine.
fn rust_accepted(numbers: &[u32]) -> usize {
    let mut machine = empty();
    let mut accepted = 0;
    for words in numbers.chunks_exact(WORDS) {
        let fields = [words[1], words[2], words[3], words[4]];
        let answer = machine.step_unchecked(Event { kind: words[0], fields });
        accepted += usize::from(answer.code == 0);
    }
    accepted
}
