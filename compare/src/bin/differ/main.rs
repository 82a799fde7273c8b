//! `differ [EVENTS [SEED]]` compares the other machine, linked from its archive,
//! with the Rust one, call by call: random lists of events, damaged tables, and
//! tables that are too short or longer than they need be. The same seed always
//! gives the same round. It ends with 1 at the first difference, or when
//! something that the round is for never came up.

#[path = "../../archive.rs"]
mod archive;
mod changes;
mod damage;
mod events;
mod lengths;
mod lists;
mod plants;
mod seen;
mod threads;

use std::env;
use std::process;

/// The events of the lists in a round of the usual size.
const EVENTS: u64 = 5_000_000;
const SEED: u64 = 1;

/// How much is done in a round.
#[derive(Clone, Copy)]
pub struct Round {
    pub events: u64,
    pub seed: u64,
}

fn compare(round: Round) -> Result<(), String> {
    println!("seed {}, {} events", round.seed, round.events);
    let seen = lists::compare_lists(round)?;
    seen.print();
    seen.complete()?;
    let broken = damage::compare_damaged(round)?;
    broken.print();
    broken.complete()?;
    let trials = lengths::compare_lengths(round)?;
    println!("\ntables too short: {} trials; longer: {} trials", trials.short, trials.long);
    println!("\nno difference");
    Ok(())
}

/// None when the arguments can't be read.
fn named_round(arguments: &[String]) -> Option<Round> {
    let mut numbers = Vec::new();
    for word in arguments {
        numbers.push(word.parse().ok()?);
    }
    let (events, seed) = match numbers[..] {
        [] => (EVENTS, SEED),
        [events] => (events, SEED),
        [events, seed] => (events, seed),
        _ => return None,
    };
    Some(Round { events, seed })
}

fn main() {
    let arguments: Vec<String> = env::args().skip(1).collect();
    let Some(round) = named_round(&arguments) else {
        eprintln!("usage: differ [EVENTS [SEED]]");
        process::exit(2);
    };
    if let Err(trouble) = compare(round) {
        eprintln!("differ: {}", trouble);
        process::exit(1);
    }
}
