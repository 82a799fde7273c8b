//! Makes events for a plant. A machine is kept beside them, so that most fit the
//! present tables and a list of them reaches deep states.

mod choices;
mod fitting;
mod refused;

use crate::machine::*;
use crate::random::Random;

/// Series open at the start of the growth, and at the end of the list.
const SERIES_EARLY: u64 = 6;
const SERIES_LATE: u64 = 38;
/// How many past events may come up again.
const PAST: usize = 400;

/// An event; the fields that it doesn't name are 0.
pub fn event(kind: u32, fields: &[u32]) -> Event {
    let mut all = [0; 4];
    all[..fields.len()].copy_from_slice(fields);
    Event { kind, fields: all }
}

pub struct Maker {
    pub machine: Machine,
    pub random: Random,
    /// How many series are open at the end of the list, at most.
    pub series_late: u64,
    made: u64,
    count: u64,
    past: Vec<Event>,
}

impl Maker {
    /// For a list of about so many events from an empty plant.
    pub fn new(seed: u64, count: u64) -> Maker {
        Maker {
            machine: empty(),
            random: Random::new(seed),
            series_late: SERIES_LATE,
            made: 0,
            count,
            past: Vec::new(),
        }
    }

    /// An event that may be the next of the list.
    pub fn event(&mut self) -> Event {
        match self.random.below(100) {
            0..=76 => self.fitting(),
            77..=84 => self.near(),
            85..=88 => self.again(),
            89..=90 => self.bad(),
            _ => self.pointed(),
        }
    }

    /// Steps the machine by the next event of the list. Its tables are whole from
    /// the start and stay so, which spares the check.
    pub fn take(&mut self, event: Event) -> Answer {
        debug_assert!(self.machine.whole());
        self.made += 1;
        self.remember(event);
        self.machine.step_unchecked(event)
    }

    fn remember(&mut self, event: Event) {
        if self.past.len() < PAST {
            self.past.push(event);
        } else {
            let at = self.random.below(PAST as u64) as usize;
            self.past[at] = event;
        }
    }
}
