//! Random changes to whole tables. Some break a rule, some just miss it.

use compare::machine::*;
use compare::random::Random;
use compare::tables::{COLUMNS_BY_SERIES, COLUMN_SIZES};
use std::mem;

/// One or two changes.
pub fn damage(random: &mut Random, machine: &mut Machine) {
    for _ in 0..random.within(1, 2) {
        change(random, machine);
    }
}

fn change(random: &mut Random, machine: &mut Machine) {
    match random.below(24) {
        0..=4 => change_entry(random, machine),
        5 | 6 => change_token(random, machine),
        7 => swap_entries(random, machine),
        8 => turn_station(random, machine),
        9 => close_series(random, machine),
        10 | 11 => receive(random, machine),
        12 => send_once_more(random, machine),
        13 => value_at_bound(random, machine),
        14 | 15 => change_release(random, machine),
        16 | 17 => change_job(random, machine),
        18 | 19 => change_lock(random, machine),
        20 | 21 => move_lock(random, machine),
        22 => add_lock(random, machine),
        _ => swap_jobs(random, machine),
    }
}

/// Numbers at which some rule begins or ends to hold.
const BOUNDS: [u32; 18] = [
    0, 1, 2, 3, 7, 8, 9, 15, 16, 63, 64, SENT_MOST, SENT_MOST + 1, NUMBER_MOST, NUMBER_MOST + 1,
    NUMBER_MOST + 2, 1 << 31, u32::MAX,
];

/// Another number for an entry, often one that could stand there.
fn number_near(random: &mut Random, old: u32) -> u32 {
    match random.below(8) {
        0..=2 => old.wrapping_add(1),
        3 | 4 => old.wrapping_sub(1),
        5 => random.word(),
        6 => random.within(0, 3),
        _ => BOUNDS[random.below(BOUNDS.len() as u64) as usize],
    }
}

fn any_station(random: &mut Random) -> usize {
    random.below(STATIONS as u64) as usize
}

/// One of so many, once in `rarely` any, and else one of which the test holds.
fn mostly(random: &mut Random, rarely: u64, size: usize, test: impl Fn(usize) -> bool) -> usize {
    if random.one_in(rarely) {
        return random.below(size as u64) as usize;
    }
    let choices: Vec<usize> = (0..size).filter(|&index| test(index)).collect();
    random.pick(&choices).unwrap_or(0)
}

/// Mostly one that is open.
fn any_series(random: &mut Random, machine: &Machine) -> usize {
    mostly(random, 16, SERIES, |series| machine.series_open(series))
}

fn any_copy(random: &mut Random, machine: &Machine) -> usize {
    place(any_series(random, machine), any_station(random))
}

/// Mostly one that is open.
fn any_job(random: &mut Random, machine: &Machine) -> usize {
    mostly(random, 6, JOBS, |job| machine.job_open(job))
}

/// Mostly a used place of the job, or the one after.
fn any_place(random: &mut Random, job: &Job) -> usize {
    if random.one_in(4) {
        return random.below(LOCK_PLACES as u64) as usize;
    }
    random.below(job.used() as u64 + 1).min(LOCK_PLACES as u64 - 1) as usize
}

/// An entry of the column; where entries belong to series, mostly to an open one.
fn any_entry(random: &mut Random, machine: &Machine, column: usize) -> usize {
    let size = COLUMN_SIZES[column];
    if column >= COLUMNS_BY_SERIES {
        return random.below(size as u64) as usize;
    }
    let of_series = size / SERIES;
    any_series(random, machine) * of_series + random.below(of_series as u64) as usize
}

fn change_entry(random: &mut Random, machine: &mut Machine) {
    let column = random.below(COLUMN_SIZES.len() as u64) as usize;
    let entry = any_entry(random, machine, column);
    let other = any_entry(random, machine, column);
    let copied = random.one_in(5);
    let numbers = &mut machine.columns_mut()[column];
    numbers[entry] = if copied {
        numbers[other]
    } else {
        number_near(random, numbers[entry])
    };
}

/// Two entries of one series, or two others of one column.
fn swap_entries(random: &mut Random, machine: &mut Machine) {
    let column = random.below(COLUMN_SIZES.len() as u64) as usize;
    let entry = any_entry(random, machine, column);
    let neighbour = entry ^ random.below(8) as usize;
    let other = any_entry(random, machine, column);
    let by = if random.one_in(3) { other } else { neighbour };
    machine.columns_mut()[column].swap(entry, by);
}

/// A copy of another kind, or a copy's or Release's value off by one.
fn change_token(random: &mut Random, machine: &mut Machine) {
    let copy = any_copy(random, machine);
    match random.below(4) {
        0 | 1 => machine.kinds[copy] = random.within(VOID, EXCLUSIVE),
        2 => machine.values[copy] = machine.values[copy].wrapping_add(1),
        _ => machine.release_value[copy] = machine.release_value[copy].wrapping_add(1),
    }
}

fn turn_station(random: &mut Random, machine: &mut Machine) {
    machine.stations[any_station(random)] ^= 1;
}

/// Only by its first number, or by that and the last.
fn close_series(random: &mut Random, machine: &mut Machine) {
    let series = any_series(random, machine);
    machine.firsts[series] = 0;
    if random.one_in(2) {
        machine.lasts[series] = 0;
    }
}

/// A received number at, just below or just above the sender's count.
fn receive(random: &mut Random, machine: &mut Machine) {
    let series = any_series(random, machine);
    let (from, to) = (any_station(random), any_station(random));
    let sent = machine.sent[place(series, from)];
    let number = sent.saturating_add(random.within(0, 3)).saturating_sub(2);
    machine.received[place(series, to) * STATIONS + from] = number;
}

/// With a standing Release, the transfer is then under way once more.
fn send_once_more(random: &mut Random, machine: &mut Machine) {
    let copy = any_copy(random, machine);
    machine.sent[copy] = machine.sent[copy].wrapping_add(1);
}

/// A copy's or a Release's value at or just past an end of its range.
fn value_at_bound(random: &mut Random, machine: &mut Machine) {
    let copy = any_copy(random, machine);
    let (first, last) = (machine.firsts[copy / STATIONS], machine.lasts[copy / STATIONS]);
    let ends = [first.wrapping_sub(1), first, last.wrapping_add(1), last.wrapping_add(2)];
    let value = ends[random.below(4) as usize];
    if machine.release_kind[copy] != VOID && random.one_in(2) {
        machine.release_value[copy] = value;
    } else {
        machine.values[copy] = value;
    }
}

/// A Release gone, written new, sent to another station, or of another kind.
fn change_release(random: &mut Random, machine: &mut Machine) {
    let copy = any_copy(random, machine);
    match random.below(4) {
        0 => {
            machine.release_kind[copy] = VOID;
            machine.release_to[copy] = 0;
            machine.release_value[copy] = 0;
        }
        1 => {
            machine.release_kind[copy] = random.within(SHARED, EXCLUSIVE);
            machine.release_to[copy] = any_station(random) as u32;
            machine.release_value[copy] = machine.values[copy];
        }
        2 => machine.release_to[copy] = random.within(0, STATIONS as u32),
        _ => machine.release_kind[copy] = random.within(VOID, EXCLUSIVE + 1),
    }
}

fn change_job(random: &mut Random, machine: &mut Machine) {
    let slot = any_job(random, machine);
    let job = &mut machine.jobs[slot];
    match random.below(4) {
        0 => job.mark ^= 1,
        1 => job.mark = number_near(random, job.mark),
        2 => job.station = random.within(0, STATIONS as u32),
        _ => job.station = number_near(random, job.station),
    }
}

fn change_lock(random: &mut Random, machine: &mut Machine) {
    let slot = any_job(random, machine);
    let number = any_place(random, &machine.jobs[slot]);
    let series = any_series(random, machine) as u32;
    let room = room_of(machine, &machine.jobs[slot], number);
    let lock = &mut machine.jobs[slot].locks[number];
    match random.below(7) {
        0 => lock.series = series,
        1 => lock.series = number_near(random, lock.series),
        2 => lock.mode = random.within(0, EXCLUSIVE + 1),
        3 => lock.mode = number_near(random, lock.mode),
        4 => lock.count = number_near(random, lock.count),
        5 => lock.count = room,
        _ => lock.count = room.wrapping_add(1),
    }
}

/// What may be drawn under a lock, or 0 where that says nothing.
fn room_of(machine: &Machine, job: &Job, number: usize) -> u32 {
    let (series, station) = (job.locks[number].series as usize, job.station as usize);
    if job.mark == 1 && series < SERIES && station < STATIONS && machine.series_open(series) {
        let end = machine.lasts[series].wrapping_add(1);
        return end.wrapping_sub(machine.values[place(series, station)]);
    }
    0
}

/// Within a job or from one to another; it may stay where it was as well.
fn move_lock(random: &mut Random, machine: &mut Machine) {
    let from = any_job(random, machine);
    let to = if random.one_in(2) { from } else { any_job(random, machine) };
    let (old, new) = (
        any_place(random, &machine.jobs[from]),
        any_place(random, &machine.jobs[to]),
    );
    let copied = random.one_in(3);
    let lock = machine.jobs[from].locks[old];
    let there = mem::replace(&mut machine.jobs[to].locks[new], lock);
    if !copied {
        machine.jobs[from].locks[old] = there;
    }
}

/// A further lock, of the kind that the station's copy has.
fn add_lock(random: &mut Random, machine: &mut Machine) {
    let slot = any_job(random, machine);
    let series = any_series(random, machine);
    let job = &mut machine.jobs[slot];
    let (next, station) = (job.used(), job.station as usize);
    if next < LOCK_PLACES && station < STATIONS {
        let mode = machine.kinds[place(series, station)];
        job.locks[next] = Lock { series: series as u32, mode, count: 0 };
    }
}

/// Breaks nothing: no rule goes by the number of a slot.
fn swap_jobs(random: &mut Random, machine: &mut Machine) {
    let (one, other) = (any_job(random, machine), random.below(JOBS as u64) as usize);
    machine.jobs.swap(one, other);
}
