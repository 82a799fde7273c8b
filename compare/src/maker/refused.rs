//! Events that are often refused.

use super::{event, Maker};
use crate::machine::*;

impl Maker {
    /// A fitting event with one field changed a little.
    pub(super) fn near(&mut self) -> Event {
        let mut event = self.fitting();
        let at = self.random.below(FIELDS[event.kind as usize] as u64) as usize;
        let field = event.fields[at];
        event.fields[at] = match self.random.below(4) {
            0 => field.wrapping_add(1),
            1 => field.saturating_sub(1),
            2 => self.random.below(8) as u32,
            _ => self.open_series().unwrap_or(0),
        };
        event
    }

    /// An event from before: repeated and late messages, jobs that are gone.
    pub(super) fn again(&mut self) -> Event {
        let messages: Vec<Event> = self
            .past
            .iter()
            .filter(|event| event.kind == GRANT || event.kind == ACK)
            .cloned()
            .collect();
        let all = self.past.clone();
        let chosen = if self.random.one_in(3) {
            self.random.pick(&all)
        } else {
            self.random.pick(&messages)
        };
        chosen.unwrap_or_else(|| event(RESTART, &[0]))
    }

    /// Refusal 3, mostly: unknown kinds and fields at and past their limits.
    pub(super) fn bad(&mut self) -> Event {
        if self.random.one_in(5) {
            let kind = self.random.pick(&[0, 18, 19, 100, u32::MAX]).unwrap_or(0);
            return event(kind, &[0, 0, 0, 0]);
        }
        let limits = [
            0, 1, 7, 8, 15, 16, 63, 64, 255, 256, 9_999, 10_000, NUMBER_MOST,
            NUMBER_MOST + 1, 1 << 31, u32::MAX,
        ];
        let mut event = self.fitting();
        let at = self.random.below(FIELDS[event.kind as usize] as u64) as usize;
        if let Some(limit) = self.random.pick(&limits) {
            event.fields[at] = limit;
        }
        if event.kind == SEND && self.random.one_in(3) {
            event.fields[2] = event.fields[1];
        }
        event
    }

    /// Aims at one refusal that chance alone would seldom meet.
    pub(super) fn pointed(&mut self) -> Event {
        let found = match self.random.below(14) {
            0 => self.second_lock(),
            1 | 2 => self.fifth_lock(),
            3 => self.second_draw(),
            4 | 5 => self.draw_past_room(),
            6 => self.draw_without_lock(),
            7 | 8 => self.send_while_waiting(),
            9 => self.lone_token(),
            10 => self.early_message(),
            11 => self.locked_copy(),
            12 => self.at_down_station(),
            _ => self.taken(),
        };
        match found {
            Some(event) => event,
            None => self.fitting(),
        }
    }

    /// Refusal 8.
    fn second_lock(&mut self) -> Option<Event> {
        let (job, lock) = self.lock_where(|lock| lock.mode != 0)?;
        let kind = self.random.within(LOCKX, LOCKS);
        Some(event(kind, &[job, lock.series]))
    }

    /// Refusal 9, or 8 where the job locks that series already.
    fn fifth_lock(&mut self) -> Option<Event> {
        let full = |&job: &u32| self.machine.jobs[job as usize].used() == LOCK_PLACES;
        let choices: Vec<u32> = (0..JOBS as u32).filter(full).collect();
        let job = self.random.pick(&choices)?;
        let series = self.open_series()?;
        let kind = self.random.within(LOCKX, LOCKS);
        Some(event(kind, &[job, series]))
    }

    /// Refusal 13, also where the count would be too much.
    fn second_draw(&mut self) -> Option<Event> {
        let (job, lock) = self.lock_where(|lock| lock.count != 0)?;
        let count = self.random.pick(&[1, NUMBER_MOST])?;
        Some(event(DRAW, &[job, lock.series, count]))
    }

    /// Refusal 14, mostly by one.
    fn draw_past_room(&mut self) -> Option<Event> {
        let (job, lock, room) = self.undrawn_lock(0)?;
        let count = if self.random.one_in(4) {
            NUMBER_MOST
        } else {
            room + 1
        };
        Some(event(DRAW, &[job, lock.series, count]))
    }

    /// Refusal 12: under a share lock, or by another job.
    fn draw_without_lock(&mut self) -> Option<Event> {
        if self.random.one_in(2) {
            let (job, lock) = self.lock_where(|lock| lock.mode == SHARED)?;
            return Some(event(DRAW, &[job, lock.series, 1]));
        }
        let (job, series) = (self.open_job()?, self.open_series()?);
        if self.random.one_in(2) {
            return Some(event(READ, &[job, series]));
        }
        Some(event(DRAW, &[job, series, 1]))
    }

    /// Refusal 15.
    fn send_while_waiting(&mut self) -> Option<Event> {
        let (series, from) = self.copy_where(|machine, series, from| {
            machine.release_stands(series, from)
                && machine.kinds[place(series, from)] != VOID
                && machine.station_up(from)
        })?;
        let copy = self.machine.kinds[place(series as usize, from as usize)];
        let kind = if copy == EXCLUSIVE { SEND } else { SHARE };
        Some(event(kind, &[series, from, (from + 1) % 8]))
    }

    /// Refusal 17, or an accepted DROP or PROMOTE.
    fn lone_token(&mut self) -> Option<Event> {
        let (series, station) = self.copy_where(|machine, series, station| {
            machine.kinds[place(series, station)] == SHARED
                && machine.copy_free(series, station)
                && machine.station_up(station)
        })?;
        let kind = self.random.within(DROP, PROMOTE);
        Some(event(kind, &[series, station]))
    }

    /// Refusal 18: an ACK before its GRANT, or the number after the last.
    fn early_message(&mut self) -> Option<Event> {
        let (series, from) = self.copy_where(|machine, series, from| {
            machine.undelivered(series, from) && machine.station_up(from)
        })?;
        let mut event = self.standing(ACK, series, from);
        match self.random.below(3) {
            0 => {}
            1 => event.fields[3] += 1,
            _ => {
                event.kind = GRANT;
                event.fields[3] += 1;
            }
        }
        Some(event)
    }

    /// Refusal 11.
    fn locked_copy(&mut self) -> Option<Event> {
        let (job, lock) = self.lock_where(|lock| lock.mode != 0)?;
        let station = self.machine.jobs[job as usize].station;
        let to = (station + 1) % 8;
        if lock.mode == SHARED {
            let kind = self.random.within(DROP, PROMOTE);
            return Some(event(kind, &[lock.series, station]));
        }
        if self.random.one_in(3) {
            return Some(event(DEMOTE, &[lock.series, station]));
        }
        if self.random.one_in(2) {
            return Some(event(SEND, &[lock.series, station, to]));
        }
        let other = self.open_job()?;
        if self.machine.jobs[other as usize].station != station {
            return None;
        }
        Some(event(LOCKX, &[other, lock.series]))
    }

    /// Refusal 6, and 7 for the stations that are up.
    fn at_down_station(&mut self) -> Option<Event> {
        let up = self.random.below(8) as u32;
        if self.random.one_in(4) {
            return Some(event(RESTART, &[up]));
        }
        let down = self.down_station()?;
        let series = self.open_series()?;
        let job = self.random.below(16) as u32;
        let to = (down + 1) % 8;
        Some(match self.random.below(9) {
            0 => event(OPEN, &[self.random.below(64) as u32, 1, 100, down]),
            1 => event(BEGIN, &[job, down]),
            2 => event(DEMOTE, &[series, down]),
            3 => event(DROP, &[series, down]),
            4 => event(PROMOTE, &[series, down]),
            5 => event(SEND, &[series, down, to]),
            6 => event(SHARE, &[series, down, to]),
            7 => event(GRANT, &[series, to, down, 1]),
            _ => event(CRASH, &[down]),
        })
    }

    /// Refusal 4.
    fn taken(&mut self) -> Option<Event> {
        if self.random.one_in(2) {
            let series = self.open_series()?;
            return Some(event(OPEN, &[series, 1, 100, 0]));
        }
        let job = self.open_job()?;
        Some(event(BEGIN, &[job, 0]))
    }
}
