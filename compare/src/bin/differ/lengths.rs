//! Tables of other lengths: refusal 1 where one is too short, and entries past
//! the stated sizes, which are neither read nor touched.

use crate::archive::Plant;
use crate::changes::damage;
use crate::events::next_event;
use crate::plants::{agree, extra_unchanged, load, make_empty, same_holders, Answers, At};
use crate::threads;
use crate::Round;
use compare::machine::*;
use compare::maker::Maker;
use compare::random::Random;
use compare::tables::{COLUMN_NAMES, COLUMN_SIZES};

/// The twelve tables by number: the job slots, the columns, the output.
const TABLES: usize = 12;
const SLOTS: usize = 0;
const LENT_OUTPUT: usize = TABLES - 1;

/// Events of a list before the first plant is taken and between two plants.
const EVENTS_BETWEEN: u64 = 200;
const PLANTS: u64 = 5;
/// Events of the round for each list here.
const EVENTS_A_LIST: u64 = 10_000;
/// Trials with several tables at a time, for each plant.
const SEVERAL: usize = 8;
/// A table has at most so many extra entries.
const EXTRA_MOST: u32 = 20;
/// Events that are tried in tables with extra entries.
const STEPS: u64 = 5;

/// How many trials there were.
pub struct Trials {
    pub short: u64,
    pub long: u64,
}

pub fn compare_lengths(round: Round) -> Result<Trials, String> {
    let lists = round.events.div_ceil(EVENTS_A_LIST);
    let parts = threads::each(lists, |list| try_list(At::start("tables", round, list)))?;
    let mut trials = Trials { short: 0, long: 0 };
    for part in parts {
        trials.short += part.short;
        trials.long += part.long;
    }
    Ok(trials)
}

fn try_list(mut at: At) -> Result<Trials, String> {
    let mut maker = Maker::new(at.list_seed(), PLANTS * EVENTS_BETWEEN);
    let mut trials = Trials { short: 0, long: 0 };
    for number in 0..PLANTS * EVENTS_BETWEEN {
        at.event = number + 1;
        let event = next_event(&mut maker);
        maker.take(event);
        if at.event % EVENTS_BETWEEN == 0 {
            trials.short += try_short(at, &mut maker)?;
            trials.long += try_long(at, &mut maker)?;
        }
    }
    Ok(trials)
}

fn size(table: usize) -> usize {
    match table {
        SLOTS => JOBS,
        LENT_OUTPUT => OUTPUT,
        column => COLUMN_SIZES[column - 1],
    }
}

fn name(table: usize) -> &'static str {
    match table {
        SLOTS => "jobs",
        LENT_OUTPUT => "output",
        column => COLUMN_NAMES[column - 1],
    }
}

/// Cuts a table, or adds entries to it that would matter if they were read.
fn set_length(plant: &mut Plant, table: usize, length: usize, random: &mut Random) {
    match table {
        SLOTS => {
            let jobs = plant.jobs.clone();
            plant.jobs.resize_with(length, || extra_job(&jobs, random));
        }
        LENT_OUTPUT => plant.output.resize_with(length, || random.word()),
        column => plant.columns[column - 1].resize_with(length, || random.word()),
    }
}

/// One of the plant's own jobs, which would break W4, or any numbers.
fn extra_job(jobs: &[Job], random: &mut Random) -> Job {
    if random.one_in(2) {
        return random.pick(jobs).unwrap_or_default();
    }
    let mut job = Job { mark: random.within(0, 2), station: random.word(), ..Job::default() };
    for lock in &mut job.locks {
        *lock = Lock { series: random.word(), mode: random.within(0, 3), count: random.word() };
    }
    job
}

/// Other lengths for some of the tables.
type Lengths = Vec<(usize, usize)>;

fn told(lengths: &Lengths) -> String {
    let words = lengths.iter().map(|&(table, length)| format!("{} of {}", name(table), length));
    words.collect::<Vec<String>>().join(", ")
}

/// Too short by one, empty, and anything between.
fn short_lengths(table: usize, random: &mut Random) -> [usize; 3] {
    let size = size(table);
    [size - 1, 0, random.below(size as u64) as usize]
}

fn long_length(table: usize, random: &mut Random) -> usize {
    size(table) + random.within(1, EXTRA_MOST) as usize
}

/// Each table by itself, and then several at a time.
fn try_short(at: At, maker: &mut Maker) -> Result<u64, String> {
    let mut all: Vec<Lengths> = Vec::new();
    for table in 0..TABLES {
        for length in short_lengths(table, &mut maker.random) {
            all.push(vec![(table, length)]);
        }
    }
    for _ in 0..SEVERAL {
        all.push(several_short(&mut maker.random));
    }
    for lengths in &all {
        let tried = refused_short(at, maker, lengths);
        tried.map_err(|trouble| format!("{}: {}: {}", at, told(lengths), trouble))?;
    }
    Ok(all.len() as u64)
}

/// At least one too short; of the others some are longer than they need be.
fn several_short(random: &mut Random) -> Lengths {
    let surely = random.below(TABLES as u64) as usize;
    let mut lengths = Vec::new();
    for table in 0..TABLES {
        if table == surely || random.one_in(4) {
            lengths.push((table, short_lengths(table, random)[random.below(3) as usize]));
        } else if random.one_in(4) {
            lengths.push((table, long_length(table, random)));
        }
    }
    lengths
}

/// The present tables with these lengths, damaged at times: refusal 1 comes
/// before all others.
fn refused_short(at: At, maker: &mut Maker, lengths: &Lengths) -> Result<(), String> {
    let mut machine = maker.machine.clone();
    if maker.random.one_in(3) {
        damage(&mut maker.random, &mut machine);
    }
    let mut plant = Plant::zeros();
    load(&mut plant, &machine);
    for &(table, length) in lengths {
        set_length(&mut plant, table, length, &mut maker.random);
    }
    let before = plant.clone();
    let event = next_event(maker);
    let series = maker.random.below(SERIES as u64 + 1) as u32;
    short_answer(plant.step(event), &format!("{:?}", event))?;
    unchanged(&plant, &before)?;
    let lent = |&(table, length): &(usize, usize)| table != LENT_OUTPUT && length < size(table);
    if lengths.iter().any(lent) {
        return others_refused(&mut plant, &before, series);
    }
    // The other calls aren't lent the output.
    same_holders(at, &plant, &machine, series)?;
    make_empty(at, &mut plant)
}

/// The calls without the output.
fn others_refused(plant: &mut Plant, before: &Plant, series: u32) -> Result<(), String> {
    let holders = plant.holders(series);
    if holders != (Holders { code: 1, set: 0, count: 0, lowest: 0 }) {
        return Err(format!("holders of {}: {:?}", series, holders));
    }
    unchanged(plant, before)?;
    short_answer(plant.empty(), "an empty plant")?;
    unchanged(plant, before)
}

fn short_answer(answer: Answer, call: &str) -> Result<(), String> {
    if answer == (Answer { code: 1, value: 0 }) {
        return Ok(());
    }
    Err(format!("{}: {:?} and not SHORT", call, answer))
}

fn unchanged(plant: &Plant, before: &Plant) -> Result<(), String> {
    if plant == before {
        return Ok(());
    }
    Err("a table was changed".to_string())
}

/// Each table by itself with extra entries, and then several at a time.
fn try_long(at: At, maker: &mut Maker) -> Result<u64, String> {
    let random = &mut maker.random;
    let mut all: Vec<Lengths> = Vec::new();
    for table in 0..TABLES {
        all.push(vec![(table, long_length(table, random))]);
    }
    for _ in 0..SEVERAL {
        let longer: Vec<usize> = (0..TABLES).filter(|_| random.one_in(2)).collect();
        all.push(longer.iter().map(|&table| (table, long_length(table, random))).collect());
    }
    for lengths in &all {
        let tried = same_with_extra(at, maker, lengths);
        tried.map_err(|trouble| format!("{}: {}: {}", at, told(lengths), trouble))?;
    }
    Ok(all.len() as u64)
}

/// The plant goes on by some events, in tables with extra entries.
fn same_with_extra(at: At, maker: &mut Maker, lengths: &Lengths) -> Result<(), String> {
    let mut plant = Plant::zeros();
    load(&mut plant, &maker.machine);
    for &(table, length) in lengths {
        set_length(&mut plant, table, length, &mut maker.random);
    }
    let before = plant.clone();
    for _ in 0..STEPS {
        let event = next_event(maker);
        let answers = Answers { theirs: plant.step(event), ours: maker.take(event) };
        agree(at, event, answers, &plant, &maker.machine)?;
        extra_unchanged(&plant, &before)?;
        let series = maker.random.below(SERIES as u64 + 1) as u32;
        same_holders(at, &plant, &maker.machine, series)?;
    }
    make_empty(at, &mut plant)
}
