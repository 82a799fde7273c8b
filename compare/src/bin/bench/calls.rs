//! The public calls, with the whole check.

use crate::archive::Plant;
use crate::timing::{time, Row};
use compare::machine::*;
use compare::maker::Maker;
use std::hint::black_box;
use std::time::Duration;

/// Events of the list, which has all kinds and most refusals.
const EVENTS: usize = 20_000;
const SEED: u64 = 1;
/// Empty plants made in a round.
const EMPTIED: usize = 20_000;
/// How often all series are asked for in a round.
const ASKED: usize = 200;

/// A list of events, and both machines as they stand after it.
pub struct Work {
    events: Vec<Event>,
    plant: Plant,
    machine: Box<Machine>,
}

impl Work {
    /// Fails where the two machines don't do the same.
    pub fn new() -> Result<Work, String> {
        let mut maker = Maker::new(SEED, EVENTS as u64);
        let mut plant = empty_plant();
        let mut events = Vec::new();
        for _ in 0..EVENTS {
            let event = maker.event();
            if plant.step(event) != maker.take(event) || !plant.same(&maker.machine) {
                return Err(format!("the two machines differ at {:?}", event));
            }
            events.push(event);
        }
        for series in 0..SERIES as u32 {
            if plant.holders(series) != maker.machine.holders(series) {
                return Err(format!("the two machines differ in the holders of {}", series));
            }
        }
        let machine = Box::new(maker.machine);
        Ok(Work { events, plant, machine })
    }

    /// The list from an empty plant.
    pub fn step(&self) -> Row {
        let archive = || {
            let mut plant = empty_plant();
            self.each_event(|event| plant.step(event))
        };
        let rust = || {
            let mut machine = Box::new(empty());
            self.each_event(|event| machine.step(event))
        };
        Row::measure("step", EVENTS, archive, rust)
    }

    fn each_event(&self, mut step: impl FnMut(Event) -> Answer) -> Duration {
        time(|| {
            for &event in &self.events {
                black_box(step(black_box(event)));
            }
        })
    }

    pub fn empty(&self) -> Row {
        let mut plant = self.plant.clone();
        let mut machine = self.machine.clone();
        let archive = || {
            time(|| {
                for _ in 0..EMPTIED {
                    black_box(black_box(&mut plant).empty());
                }
            })
        };
        let rust = || {
            time(|| {
                for _ in 0..EMPTIED {
                    black_box(&mut machine).clear();
                }
            })
        };
        Row::measure("empty", EMPTIED, archive, rust)
    }

    /// All series in turn, in the plant after the list.
    pub fn holders(&self) -> Row {
        let archive = || each_series(|series| black_box(&self.plant).holders(series));
        let rust = || each_series(|series| black_box(&self.machine).holders(series));
        Row::measure("holders", ASKED * SERIES, archive, rust)
    }
}

fn each_series(mut holders: impl FnMut(u32) -> Holders) -> Duration {
    time(|| {
        for _ in 0..ASKED {
            for series in 0..SERIES as u32 {
                black_box(holders(black_box(series)));
            }
        }
    })
}

fn empty_plant() -> Plant {
    let mut plant = Plant::zeros();
    plant.empty();
    plant
}
