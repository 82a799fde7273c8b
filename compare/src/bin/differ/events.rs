//! Events for the comparison: those of the list maker, and some that no event
//! line can say or that fit by chance only.

use compare::machine::*;
use compare::maker::{event, Maker};

pub fn next_event(maker: &mut Maker) -> Event {
    match maker.random.below(40) {
        0 => spoiled(maker),
        1..=4 => by_chance(maker),
        _ => maker.event(),
    }
}

/// A fitting event with any number as its kind or as a field, an unused one too.
fn spoiled(maker: &mut Maker) -> Event {
    let mut event = maker.fitting();
    let number = match maker.random.below(3) {
        0 => maker.random.within(0, 20),
        1 => 1 << maker.random.below(32),
        _ => maker.random.word(),
    };
    match maker.random.below(5) {
        4 => event.kind = number,
        field => event.fields[field as usize] = number,
    }
    event
}

/// Every number in its range and nothing else, so that one event often has
/// several grounds for a refusal.
fn by_chance(maker: &mut Maker) -> Event {
    let kind = maker.random.within(OPEN, RESTART);
    let job = maker.random.below(JOBS as u64) as u32;
    let series = any_series(maker);
    let station = maker.random.below(STATIONS as u64) as u32;
    let to = maker.random.below(STATIONS as u64) as u32;
    let number = near_sent(maker, series, station);
    match kind {
        OPEN => event(kind, &[series, 1, number, station]),
        BEGIN => event(kind, &[job, station]),
        LOCKX | LOCKS | READ => event(kind, &[job, series]),
        DRAW => event(kind, &[job, series, number]),
        COMMIT | ABORT => event(kind, &[job]),
        SEND | SHARE => event(kind, &[series, station, to]),
        DEMOTE | DROP | PROMOTE => event(kind, &[series, station]),
        GRANT | ACK => event(kind, &[series, station, to, number]),
        _ => event(kind, &[station]),
    }
}

/// Mostly an open one.
fn any_series(maker: &mut Maker) -> u32 {
    let any = maker.random.below(SERIES as u64) as u32;
    if maker.random.one_in(5) {
        return any;
    }
    maker.open_series().unwrap_or(any)
}

/// A number near the last transfer's.
fn near_sent(maker: &mut Maker, series: u32, from: u32) -> u32 {
    let sent = maker.machine.sent[place(series as usize, from as usize)];
    (sent + maker.random.within(0, 2)).saturating_sub(1)
}
