//! Choices from the present tables.

use super::Maker;
use crate::machine::*;

impl Maker {
    /// Low stations come more often, so that much meets at a few places.
    pub(super) fn low_station(&mut self) -> u32 {
        self.random.below(8).min(self.random.below(8)) as u32
    }

    pub(super) fn open_job(&mut self) -> Option<u32> {
        let open = |&job: &u32| self.machine.job_open(job as usize);
        let choices: Vec<u32> = (0..JOBS as u32).filter(open).collect();
        self.random.pick(&choices)
    }

    pub fn open_series(&mut self) -> Option<u32> {
        let open = |&series: &u32| self.machine.series_open(series as usize);
        let choices: Vec<u32> = (0..SERIES as u32).filter(open).collect();
        self.random.pick(&choices)
    }

    pub(super) fn up_station(&mut self) -> Option<u32> {
        let station = self.low_station();
        if self.machine.station_up(station as usize) {
            Some(station)
        } else {
            None
        }
    }

    pub(super) fn down_station(&mut self) -> Option<u32> {
        let down = |&station: &u32| !self.machine.station_up(station as usize);
        let choices: Vec<u32> = (0..STATIONS as u32).filter(down).collect();
        self.random.pick(&choices)
    }

    pub(super) fn lock_where<F: Fn(&Lock) -> bool>(&mut self, fits: F) -> Option<(u32, Lock)> {
        let mut choices = Vec::new();
        for (slot, job) in self.machine.jobs.iter().enumerate() {
            for lock in job.locks.iter().filter(|lock| fits(lock)) {
                choices.push((slot as u32, *lock));
            }
        }
        self.random.pick(&choices)
    }

    /// An exclusive lock without a draw, where at least this may be drawn.
    pub(super) fn undrawn_lock(&mut self, least: u32) -> Option<(u32, Lock, u32)> {
        let mut choices = Vec::new();
        for (slot, job) in self.machine.jobs.iter().enumerate() {
            for lock in &job.locks {
                if lock.mode != EXCLUSIVE || lock.count != 0 {
                    continue;
                }
                let room = self.machine.room(lock.series as usize, job.station as usize);
                if room >= least {
                    choices.push((slot as u32, *lock, room));
                }
            }
        }
        self.random.pick(&choices)
    }

    /// A series and station of an open series.
    pub(super) fn copy_where<F>(&mut self, fits: F) -> Option<(u32, u32)>
    where
        F: Fn(&Machine, usize, usize) -> bool,
    {
        let mut choices = Vec::new();
        for series in (0..SERIES).filter(|&series| self.machine.series_open(series)) {
            for station in 0..STATIONS {
                if fits(&self.machine, series, station) {
                    choices.push((series as u32, station as u32));
                }
            }
        }
        self.random.pick(&choices)
    }
}
