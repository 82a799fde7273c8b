//! Random lists of events from an empty plant. After each step the answers and
//! all tables are compared. The Rust machine makes its whole check only where the
//! holders are asked for; the archive makes its own at each step, and would say so
//! if the tables weren't whole.

use crate::archive::Plant;
use crate::events::next_event;
use crate::plants::{agree, load, make_empty, same_holders, wear, Answers, At};
use crate::seen::Seen;
use crate::threads;
use crate::Round;
use compare::machine::*;
use compare::maker::Maker;

/// Short lists begin often, long ones come far.
const LENGTHS: [u64; 3] = [20_000, 500, 4_000];
/// After so many events the holders of all series are compared.
const HOLDERS_EVERY: u64 = 1_000;

pub fn compare_lists(round: Round) -> Result<Seen, String> {
    let lengths = lengths(round.events);
    let parts = threads::each(lengths.len() as u64, |list| {
        compare_list(At::start("lists", round, list), lengths[list as usize])
    })?;
    let mut seen = Seen::nothing();
    for part in &parts {
        seen.add(part);
    }
    Ok(seen)
}

/// How long each list is; together they have all events.
fn lengths(events: u64) -> Vec<u64> {
    let mut lengths = Vec::new();
    let mut left = events;
    for &length in LENGTHS.iter().cycle() {
        if left == 0 {
            break;
        }
        lengths.push(length.min(left));
        left -= length.min(left);
    }
    lengths
}

fn compare_list(mut at: At, length: u64) -> Result<Seen, String> {
    let mut maker = Maker::new(at.list_seed(), length);
    if at.list % 5 == 0 {
        maker.series_late = SERIES as u64;
    }
    let mut plant = emptied(at, &mut maker)?;
    let mut seen = Seen::nothing();
    for number in 0..length {
        at.event = number + 1;
        if wear(at, length, &mut maker) {
            load(&mut plant, &maker.machine);
        }
        let event = next_event(&mut maker);
        let answers = Answers { theirs: plant.step(event), ours: maker.take(event) };
        seen.note(event, answers.ours, &maker.machine);
        agree(at, event, answers, &plant, &maker.machine)?;
        if at.event % HOLDERS_EVERY == 0 || at.event == length {
            all_holders(at, &plant, &maker.machine)?;
        }
    }
    Ok(seen)
}

/// An empty plant made of tables that were full of other numbers.
fn emptied(at: At, maker: &mut Maker) -> Result<Plant, String> {
    let random = &mut maker.random;
    let mut plant = Plant::zeros();
    for column in &mut plant.columns {
        column.fill_with(|| random.word());
    }
    plant.jobs.fill(Job { mark: 1, station: 9, locks: [Lock { series: 7, mode: 7, count: 7 }; 4] });
    plant.output.fill_with(|| random.word());
    make_empty(at, &mut plant)?;
    // The output has stayed as it was.
    maker.machine.output.copy_from_slice(&plant.output);
    Ok(plant)
}

fn all_holders(at: At, plant: &Plant, machine: &Machine) -> Result<(), String> {
    let too_large = [SERIES as u32, u32::MAX];
    for series in (0..SERIES as u32).chain(too_large) {
        same_holders(at, plant, machine, series)?;
    }
    Ok(())
}
