//! The other machine, behind its C interface. All unsafe code for it is here.

use compare::machine::{Answer, Event, Holders, Job, Machine, JOBS, OUTPUT};
use compare::tables::COLUMN_SIZES;

// Each table comes as its start and its length in entries.
#[link(name = "abi", kind = "static")]
extern "C" {
    #[rustfmt::skip]
    fn druvisha_empty(
        jobs: *mut Job, jobs_length: usize,
        firsts: *mut u32, firsts_length: usize,
        lasts: *mut u32, lasts_length: usize,
        kinds: *mut u32, kinds_length: usize,
        values: *mut u32, values_length: usize,
        sent: *mut u32, sent_length: usize,
        release_to: *mut u32, release_to_length: usize,
        release_kind: *mut u32, release_kind_length: usize,
        release_value: *mut u32, release_value_length: usize,
        received: *mut u32, received_length: usize,
        stations: *mut u32, stations_length: usize,
    ) -> Answer;

    #[rustfmt::skip]
    fn druvisha_step(
        jobs: *mut Job, jobs_length: usize,
        firsts: *mut u32, firsts_length: usize,
        lasts: *mut u32, lasts_length: usize,
        kinds: *mut u32, kinds_length: usize,
        values: *mut u32, values_length: usize,
        sent: *mut u32, sent_length: usize,
        release_to: *mut u32, release_to_length: usize,
        release_kind: *mut u32, release_kind_length: usize,
        release_value: *mut u32, release_value_length: usize,
        received: *mut u32, received_length: usize,
        stations: *mut u32, stations_length: usize,
        output: *mut u32, output_length: usize,
        event: Event,
    ) -> Answer;

    #[rustfmt::skip]
    fn druvisha_holders(
        jobs: *const Job, jobs_length: usize,
        firsts: *const u32, firsts_length: usize,
        lasts: *const u32, lasts_length: usize,
        kinds: *const u32, kinds_length: usize,
        values: *const u32, values_length: usize,
        sent: *const u32, sent_length: usize,
        release_to: *const u32, release_to_length: usize,
        release_kind: *const u32, release_kind_length: usize,
        release_value: *const u32, release_value_length: usize,
        received: *const u32, received_length: usize,
        stations: *const u32, stations_length: usize,
        series: u32,
    ) -> Holders;
}

/// Calls a function with start and length of each of the eleven tables, and
/// then the further arguments. `$start` is `as_ptr` or `as_mut_ptr`.
macro_rules! call {
    ($function:ident, $start:ident, $jobs:expr, $columns:expr $(, $more:expr)*) => {{
        let [
            firsts, lasts, kinds, values, sent, release_to, release_kind, release_value,
            received, stations,
        ] = $columns;
        $function(
            $jobs.$start(), $jobs.len(),
            firsts.$start(), firsts.len(),
            lasts.$start(), lasts.len(),
            kinds.$start(), kinds.len(),
            values.$start(), values.len(),
            sent.$start(), sent.len(),
            release_to.$start(), release_to.len(),
            release_kind.$start(), release_kind.len(),
            release_value.$start(), release_value.len(),
            received.$start(), received.len(),
            stations.$start(), stations.len(),
            $($more),*
        )
    }};
}

/// The tables that are lent to the other machine; any lengths.
#[derive(Clone, Debug, PartialEq, Eq)]
pub struct Plant {
    pub jobs: Vec<Job>,
    /// In the order of `COLUMN_NAMES`.
    pub columns: [Vec<u32>; 10],
    pub output: Vec<u32>,
}

impl Plant {
    /// Tables of the stated sizes, all zero, which is no empty plant.
    pub fn zeros() -> Plant {
        Plant {
            jobs: vec![Job::default(); JOBS],
            columns: COLUMN_SIZES.map(|size| vec![0; size]),
            output: vec![0; OUTPUT],
        }
    }

    /// Makes an empty plant of the tables; the output isn't lent.
    pub fn empty(&mut self) -> Answer {
        // Sound: start and length of one live vector each, borrowed mutably
        // until the call is over, so that no two overlap.
        unsafe { call!(druvisha_empty, as_mut_ptr, self.jobs, &mut self.columns) }
    }

    pub fn step(&mut self, event: Event) -> Answer {
        let (start, length) = (self.output.as_mut_ptr(), self.output.len());
        // Sound: as in `empty`, and the output is one more vector.
        unsafe {
            call!(druvisha_step, as_mut_ptr, self.jobs, &mut self.columns, start, length, event)
        }
    }

    pub fn holders(&self, series: u32) -> Holders {
        // Sound: start and length of one live vector each, which the call only
        // reads and which nothing changes until it is over.
        unsafe { call!(druvisha_holders, as_ptr, self.jobs, &self.columns, series) }
    }

    /// Whether all tables and the output are those of the Rust machine; entries
    /// past the stated sizes don't count.
    pub fn same(&self, machine: &Machine) -> bool {
        let mut columns = self.columns.iter().zip(machine.columns());
        columns.all(|(lent, own)| lent[..own.len()] == *own)
            && self.jobs[..JOBS] == machine.jobs
            && self.output[..OUTPUT] == machine.output
    }
}
