//! Whole plants from deep in random lists, with one or two changes each: refusal
//! 2 comes exactly when a rule is broken, and else the step is compared.

use crate::archive::Plant;
use crate::changes::damage;
use crate::events::next_event;
use crate::plants::{agree, load, same_holders, wear, Answers, At};
use crate::threads;
use crate::Round;
use compare::machine::*;
use compare::maker::Maker;
use compare::tables::COLUMN_NAMES;

/// Events of each list that plants are taken from.
const LENGTH: u64 = 3_000;
/// After so many events a plant is taken and so often damaged.
const PLANT_EVERY: u64 = 50;
const DAMAGES: u64 = 25;
/// Events of the round for each list here: eight for one damage.
const EVENTS_A_LIST: u64 = 8 * LENGTH / PLANT_EVERY * DAMAGES;

/// How many damages broke each rule first. Place 0 is for those that left the
/// tables whole.
pub struct Broken([u64; 6]);

pub fn compare_damaged(round: Round) -> Result<Broken, String> {
    let lists = round.events.div_ceil(EVENTS_A_LIST);
    let parts = threads::each(lists, |list| damage_list(At::start("damage", round, list)))?;
    let mut broken = Broken([0; 6]);
    for part in &parts {
        for (count, more) in broken.0.iter_mut().zip(part.0) {
            *count += more;
        }
    }
    Ok(broken)
}

fn damage_list(mut at: At) -> Result<Broken, String> {
    let mut maker = Maker::new(at.list_seed(), LENGTH);
    let mut plant = Plant::zeros();
    let mut broken = Broken([0; 6]);
    for number in 0..LENGTH {
        at.event = number + 1;
        wear(at, LENGTH, &mut maker);
        let event = next_event(&mut maker);
        maker.take(event);
        if at.event % PLANT_EVERY == 0 {
            for _ in 0..DAMAGES {
                let rule = compare_one(at, &mut maker, &mut plant)?;
                broken.0[rule.map_or(0, |rule| rule as usize)] += 1;
            }
        }
    }
    Ok(broken)
}

/// Damages the present plant once, and gives the rule that this broke.
fn compare_one(at: At, maker: &mut Maker, plant: &mut Plant) -> Result<Option<Rule>, String> {
    let mut machine = maker.machine.clone();
    damage(&mut maker.random, &mut machine);
    machine.output.fill_with(|| maker.random.word());
    let damaged = machine.clone();
    load(plant, &damaged);
    let rule = damaged.first_broken();
    let series = maker.random.below(SERIES as u64 + 1) as u32;
    let event = next_event(maker);
    let compared = same_holders(at, plant, &machine, series).and_then(|()| {
        let answers = Answers { theirs: plant.step(event), ours: machine.step(event) };
        let refusal = right_refusal(at, &answers, rule, &damaged, plant);
        agree(at, event, answers, plant, &machine).and(refusal)
    });
    match compared {
        Ok(()) => Ok(rule),
        Err(trouble) => Err(format!("{}\n{}", trouble, told(rule, &maker.machine, &damaged))),
    }
}

/// Refusal 2 comes exactly when a rule is broken, and a refusal changes nothing.
fn right_refusal(
    at: At,
    answers: &Answers,
    rule: Option<Rule>,
    damaged: &Machine,
    plant: &Plant,
) -> Result<(), String> {
    let code = answers.theirs.code;
    if (code == Refusal::NotWhole as u32) != rule.is_some() {
        return Err(format!("{}: code {} with {:?} broken", at, code, rule));
    }
    if code != 0 && !plant.same(damaged) {
        return Err(format!("{}: refusal {} changed a table", at, code));
    }
    Ok(())
}

/// The damage in words.
fn told(rule: Option<Rule>, whole: &Machine, damaged: &Machine) -> String {
    let mut words = format!("broken first: {:?}; changed:", rule);
    let columns = whole.columns().into_iter().zip(damaged.columns());
    for (name, (before, after)) in COLUMN_NAMES.iter().zip(columns) {
        for entry in (0..before.len()).filter(|&entry| before[entry] != after[entry]) {
            let (before, after) = (before[entry], after[entry]);
            words += &format!(" {}[{}] from {} to {};", name, entry, before, after);
        }
    }
    for (slot, (before, after)) in whole.jobs.iter().zip(&damaged.jobs).enumerate() {
        if before != after {
            words += &format!(" jobs[{}] from {:?} to {:?};", slot, before, after);
        }
    }
    words
}

impl Broken {
    pub fn print(&self) {
        let all: u64 = self.0.iter().sum();
        println!("\ndamaged plants: {}, by the rule broken first", all);
        println!("{:8} {:>8}", "none", self.0[0]);
        for (number, count) in self.0.iter().enumerate().skip(1) {
            println!("W{:<7} {:>8}", number, count);
        }
    }

    /// Fails unless each rule was broken, and none, some time.
    pub fn complete(&self) -> Result<(), String> {
        match self.0.iter().position(|&count| count == 0) {
            None => Ok(()),
            Some(0) => Err("every damage broke a rule".to_string()),
            Some(number) => Err(format!("no damage broke W{}", number)),
        }
    }
}
