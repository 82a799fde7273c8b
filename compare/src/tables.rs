//! The tables of a plant one after another, for what is done to each alike.

use crate::machine::{Machine, COPIES, RECEIVED, SERIES, STATIONS};

/// The columns of numbers, in the order of the C interface. The job slots come
/// before them and the output after them.
pub const COLUMN_NAMES: [&str; 10] = [
    "firsts", "lasts", "kinds", "values", "sent", "release_to", "release_kind", "release_value",
    "received", "stations",
];

/// The stated size of each column.
pub const COLUMN_SIZES: [usize; 10] = [
    SERIES, SERIES, COPIES, COPIES, COPIES, COPIES, COPIES, COPIES, RECEIVED, STATIONS,
];

/// How many columns have entries for each series: all but the stations.
pub const COLUMNS_BY_SERIES: usize = 9;

impl Machine {
    pub fn columns(&self) -> [&[u32]; 10] {
        [
            &self.firsts, &self.lasts, &self.kinds, &self.values, &self.sent, &self.release_to,
            &self.release_kind, &self.release_value, &self.received, &self.stations,
        ]
    }

    pub fn columns_mut(&mut self) -> [&mut [u32]; 10] {
        [
            &mut self.firsts, &mut self.lasts, &mut self.kinds, &mut self.values, &mut self.sent,
            &mut self.release_to, &mut self.release_kind, &mut self.release_value,
            &mut self.received, &mut self.stations,
        ]
    }
}
