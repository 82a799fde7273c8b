//! Events that the present tables accept.

use super::{event, Maker, SERIES_EARLY};
use crate::machine::*;

/// How often each kind is tried, by kind.
const WEIGHTS: [u64; 18] = [
    0, 6, 14, 60, 16, 70, 10, 10, 1, 14, 4, 12, 7, 14, 34, 22, 1, 3,
];

impl Maker {
    /// An event that the present tables accept; a sender with 9,999 transfers isn't
    /// told apart.
    pub fn fitting(&mut self) -> Event {
        let all: u64 = WEIGHTS.iter().sum();
        loop {
            let mut left = self.random.below(all);
            let mut kind = 0;
            while left >= WEIGHTS[kind] {
                left -= WEIGHTS[kind];
                kind += 1;
            }
            if let Some(event) = self.fit(kind as u32) {
                return event;
            }
        }
    }

    /// None when no such event is found to fit.
    fn fit(&mut self, kind: u32) -> Option<Event> {
        match kind {
            OPEN => self.fit_open(),
            BEGIN => self.fit_begin(),
            LOCKX => self.fit_lock(kind, EXCLUSIVE),
            LOCKS => self.fit_lock(kind, SHARED),
            DRAW => self.fit_draw(),
            READ => self.fit_read(),
            COMMIT => self.fit_commit(),
            ABORT => self.open_job().map(|job| event(kind, &[job])),
            SEND => self.fit_transfer(kind, EXCLUSIVE),
            SHARE => self.fit_transfer(kind, SHARED),
            DEMOTE => self.fit_change(kind, EXCLUSIVE),
            DROP | PROMOTE => self.fit_change(kind, SHARED),
            GRANT => self.fit_grant(),
            ACK => self.fit_ack(),
            CRASH => self.fit_crash(),
            _ => self.down_station().map(|station| event(RESTART, &[station])),
        }
    }

    fn fit_open(&mut self) -> Option<Event> {
        let open = (0..SERIES).filter(|&s| self.machine.series_open(s)).count() as u64;
        let more = (self.series_late - SERIES_EARLY) * self.made / self.count;
        if open >= SERIES_EARLY + more {
            return None;
        }
        let closed = |&s: &u32| !self.machine.series_open(s as usize);
        let choices: Vec<u32> = (0..SERIES as u32).filter(closed).collect();
        let series = self.random.pick(&choices)?;
        let station = self.up_station()?;
        let (first, last) = self.bounds();
        Some(event(OPEN, &[series, first, last, station]))
    }

    /// Some series end soon, so that draws come to the last number.
    fn bounds(&mut self) -> (u32, u32) {
        match self.random.below(16) {
            0 => (1, 1),
            1 => (NUMBER_MOST, NUMBER_MOST),
            2 => (NUMBER_MOST - self.random.within(50, 5_000), NUMBER_MOST),
            3..=5 => {
                let first = self.random.within(1, 90_000);
                (first, first + self.random.within(1, 2_000))
            }
            6 => (1, NUMBER_MOST),
            _ => {
                let first = self.random.within(1, 100_000_000);
                (first, first + self.random.within(1_000_000, 800_000_000))
            }
        }
    }

    fn fit_begin(&mut self) -> Option<Event> {
        let closed = |&job: &u32| !self.machine.job_open(job as usize);
        let choices: Vec<u32> = (0..JOBS as u32).filter(closed).collect();
        let job = self.random.pick(&choices)?;
        let station = self.up_station()?;
        Some(event(BEGIN, &[job, station]))
    }

    fn fit_lock(&mut self, kind: u32, copy: u32) -> Option<Event> {
        let mut choices = Vec::new();
        for (slot, job) in self.machine.jobs.iter().enumerate() {
            if job.mark == 0 || job.used() == LOCK_PLACES {
                continue;
            }
            let station = job.station as usize;
            for series in 0..SERIES {
                if self.machine.kinds[place(series, station)] == copy
                    && job.lock_on(series).is_none()
                    && (copy == SHARED || self.machine.copy_free(series, station))
                {
                    choices.push([slot as u32, series as u32]);
                }
            }
        }
        // Of two choices the job with more locks, so that some become full.
        let (one, other) = (self.random.pick(&choices)?, self.random.pick(&choices)?);
        let used = |fields: [u32; 2]| self.machine.jobs[fields[0] as usize].used();
        let fields = if used(one) < used(other) { other } else { one };
        Some(event(kind, &fields))
    }

    fn fit_draw(&mut self) -> Option<Event> {
        let (job, lock, room) = self.undrawn_lock(1)?;
        let count = match self.random.below(40) {
            0 if room < 5_000 => room,
            1..=8 => self.random.within(1, room.min(20_000)),
            _ => self.random.within(1, room.min(60)),
        };
        Some(event(DRAW, &[job, lock.series, count]))
    }

    fn fit_read(&mut self) -> Option<Event> {
        let (job, lock) = self.lock_where(|lock| lock.mode != 0)?;
        Some(event(READ, &[job, lock.series]))
    }

    /// Of two open jobs the one with more draws, as longer jobs reach more.
    fn fit_commit(&mut self) -> Option<Event> {
        let (one, other) = (self.open_job()?, self.open_job()?);
        let job = if self.draws(one) < self.draws(other) {
            other
        } else {
            one
        };
        Some(event(COMMIT, &[job]))
    }

    fn draws(&self, job: u32) -> usize {
        let locks = &self.machine.jobs[job as usize].locks;
        locks.iter().filter(|lock| lock.count != 0).count()
    }

    fn fit_transfer(&mut self, kind: u32, copy: u32) -> Option<Event> {
        let (series, from) = self.copy_where(|machine, series, station| {
            machine.kinds[place(series, station)] == copy
                && machine.station_up(station)
                && !machine.release_stands(series, station)
                && (copy == SHARED || machine.copy_free(series, station))
        })?;
        let to = self.low_station();
        if to == from {
            return None;
        }
        Some(event(kind, &[series, from, to]))
    }

    fn fit_change(&mut self, kind: u32, copy: u32) -> Option<Event> {
        let (series, station) = self.copy_where(|machine, series, station| {
            let under_way = (0..STATIONS).any(|from| machine.undelivered(series, from));
            machine.kinds[place(series, station)] == copy
                && machine.station_up(station)
                && machine.copy_free(series, station)
                && match kind {
                    DROP => machine.other_share(series, station),
                    PROMOTE => !machine.other_share(series, station) && !under_way,
                    _ => true,
                }
        })?;
        Some(event(kind, &[series, station]))
    }

    fn fit_grant(&mut self) -> Option<Event> {
        if self.random.one_in(6) {
            return self.repeat();
        }
        let (series, from) = self.copy_where(|machine, series, from| {
            let to = machine.release_to[place(series, from)] as usize;
            machine.undelivered(series, from) && machine.station_up(to)
        })?;
        Some(self.standing(GRANT, series, from))
    }

    /// A GRANT of a transfer that has arrived before.
    fn repeat(&mut self) -> Option<Event> {
        let (series, to) = self.copy_where(|machine, series, to| {
            machine.station_up(to)
                && (0..STATIONS).any(|from| machine.highest_received(series, from, to) > 0)
        })?;
        let from = self.random.below(8) as u32;
        let (s, f, t) = (series as usize, from as usize, to as usize);
        match self.machine.highest_received(s, f, t) {
            0 => None,
            highest => {
                let number = self.random.within(1, highest).max(self.random.within(1, highest));
                Some(event(GRANT, &[series, from, to, number]))
            }
        }
    }

    fn fit_ack(&mut self) -> Option<Event> {
        if self.random.one_in(6) {
            return self.late();
        }
        let (series, from) = self.copy_where(|machine, series, from| {
            machine.release_stands(series, from)
                && !machine.undelivered(series, from)
                && machine.station_up(from)
        })?;
        Some(self.standing(ACK, series, from))
    }

    /// An ACK of a transfer whose Release may be gone.
    fn late(&mut self) -> Option<Event> {
        let (series, from) = self.copy_where(|machine, series, from| {
            machine.station_up(from) && machine.sent[place(series, from)] > 0
        })?;
        let to = self.random.below(8) as u32;
        if to == from {
            return None;
        }
        let sent = self.machine.sent[place(series as usize, from as usize)];
        let number = self.random.within(1, sent);
        Some(event(ACK, &[series, from, to, number]))
    }

    /// A GRANT or ACK of the Release that stands there.
    pub(super) fn standing(&self, kind: u32, series: u32, from: u32) -> Event {
        let at = place(series as usize, from as usize);
        let to = self.machine.release_to[at];
        event(kind, &[series, from, to, self.machine.sent[at]])
    }

    /// Never more than three stations down, so that the plant goes on.
    fn fit_crash(&mut self) -> Option<Event> {
        let down = self.machine.stations.iter().filter(|&&mark| mark == 0).count();
        if down >= 3 {
            return None;
        }
        let station = self.random.below(8) as u32;
        if !self.machine.station_up(station as usize) {
            return None;
        }
        Some(event(CRASH, &[station]))
    }
}
