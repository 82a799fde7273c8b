//! The two machines side by side: the same tables for both, and whether they
//! still agree.

use crate::archive::Plant;
use crate::Round;
use compare::machine::*;
use compare::maker::Maker;
use compare::tables::{COLUMN_NAMES, COLUMN_SIZES};
use std::fmt;

/// Which call of a round is looked at.
#[derive(Clone, Copy)]
pub struct At {
    pub part: &'static str,
    pub seed: u64,
    pub list: u64,
    pub event: u64,
}

impl At {
    /// Before the first event of a list.
    pub fn start(part: &'static str, round: Round, list: u64) -> At {
        At { part, seed: round.seed, list, event: 0 }
    }

    /// No two lists of a round have the same seed.
    pub fn list_seed(&self) -> u64 {
        let part = u64::from(self.part.as_bytes()[0]);
        self.seed.wrapping_mul(1 << 40).wrapping_add((part << 32) + self.list)
    }
}

impl fmt::Display for At {
    fn fmt(&self, out: &mut fmt::Formatter) -> fmt::Result {
        let At { part, seed, list, event } = self;
        write!(out, "{}: seed {}, list {}, event {}", part, seed, list, event)
    }
}

/// A list in four meets stations that have sent nearly all they may: the counts
/// are set by hand where no Release stands, so that the tables stay whole.
pub fn wear(at: At, length: u64, maker: &mut Maker) -> bool {
    if at.list % 4 != 1 || at.event != length / 4 {
        return false;
    }
    for copy in 0..COPIES {
        let series = copy / STATIONS;
        if maker.machine.series_open(series) && maker.machine.release_kind[copy] == VOID {
            maker.machine.sent[copy] = maker.random.within(SENT_MOST - 3, SENT_MOST);
        }
    }
    true
}

/// Gives the other machine the same tables; entries past the sizes stay.
pub fn load(plant: &mut Plant, machine: &Machine) {
    plant.jobs[..JOBS].copy_from_slice(&machine.jobs);
    for (lent, own) in plant.columns.iter_mut().zip(machine.columns()) {
        lent[..own.len()].copy_from_slice(own);
    }
    plant.output[..OUTPUT].copy_from_slice(&machine.output);
}

/// The first entry that differs, in words; the output is the last table.
fn first_difference(plant: &Plant, machine: &Machine) -> String {
    if let Some(difference) = first_in_tables(plant, machine) {
        return difference;
    }
    if plant.output[..OUTPUT] != machine.output {
        return format!("output is {:?}, Rust has {:?}", plant.output, machine.output);
    }
    "all tables are the same".to_string()
}

fn first_in_tables(plant: &Plant, machine: &Machine) -> Option<String> {
    let columns = plant.columns.iter().zip(machine.columns());
    for (name, (lent, own)) in COLUMN_NAMES.iter().zip(columns) {
        if let Some(entry) = (0..own.len()).find(|&entry| lent[entry] != own[entry]) {
            let (theirs, ours) = (lent[entry], own[entry]);
            return Some(format!("{}[{}] is {}, Rust has {}", name, entry, theirs, ours));
        }
    }
    for (slot, (lent, own)) in plant.jobs.iter().zip(&machine.jobs).enumerate() {
        if lent != own {
            return Some(format!("jobs[{}] is {:?}, Rust has {:?}", slot, lent, own));
        }
    }
    None
}

/// Makes an empty plant by the archive, and sees that it is one and that output
/// and extra entries stay. The output may be too short, as it isn't lent.
pub fn make_empty(at: At, plant: &mut Plant) -> Result<(), String> {
    let before = plant.clone();
    let answer = plant.empty();
    if answer != (Answer { code: 0, value: 0 }) {
        return Err(format!("{}: an empty plant: {:?}", at, answer));
    }
    if let Some(difference) = first_in_tables(plant, &empty()) {
        return Err(format!("{}: an empty plant: {}", at, difference));
    }
    if plant.output != before.output {
        return Err(format!("{}: an empty plant: the output was changed", at));
    }
    extra_unchanged(plant, &before)
}

/// Entries past the stated sizes are as they were.
pub fn extra_unchanged(plant: &Plant, before: &Plant) -> Result<(), String> {
    let mut columns = plant.columns.iter().zip(&before.columns).zip(COLUMN_SIZES);
    let same = plant.jobs[JOBS..] == before.jobs[JOBS..]
        && plant.output.get(OUTPUT..) == before.output.get(OUTPUT..)
        && columns.all(|((lent, before), size)| lent[size..] == before[size..]);
    if same {
        return Ok(());
    }
    Err("an entry past a stated size was changed".to_string())
}

/// The answers to an event, of the other machine and of the Rust one.
pub struct Answers {
    pub theirs: Answer,
    pub ours: Answer,
}

/// Fails where the two machines differ after an event, in whatever it is.
pub fn agree(
    at: At,
    event: Event,
    answers: Answers,
    plant: &Plant,
    machine: &Machine,
) -> Result<(), String> {
    let Answers { theirs, ours } = answers;
    if theirs == ours && plant.same(machine) {
        return Ok(());
    }
    let difference = first_difference(plant, machine);
    Err(format!("{}: {:?}: {:?}, Rust {:?}; {}", at, event, theirs, ours, difference))
}

/// Fails where the two machines don't answer the same about holders.
pub fn same_holders(at: At, plant: &Plant, machine: &Machine, series: u32) -> Result<(), String> {
    let (theirs, ours) = (plant.holders(series), machine.holders(series));
    if theirs == ours {
        return Ok(());
    }
    Err(format!("{}: holders of {}: {:?}, Rust {:?}", at, series, theirs, ours))
}
