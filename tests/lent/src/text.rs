//! Tables and frames written as rows.

use plain::Parameters;

use crate::record::{row_of_set, Record, Station};
use crate::rows::row;

pub const PERCENT: u32 = 65_536;

/// A text of rows in the making.
pub struct Text(pub String);

/// Which output, station, number and time a frame names.
#[derive(Clone, Copy, Debug)]
pub struct Head {
    pub station: u8,
    pub number: u32,
    pub time: u64,
    pub output: u8,
}

pub fn clock(time: u64) -> Vec<u8> {
    let mut bytes = vec![0x01];
    bytes.extend(&time.to_be_bytes()[2..]);
    bytes
}

/// A frame of a station: its kind, the common bytes, then what the kind adds.
pub fn call(kind: u8, head: Head, adds: &[u8]) -> Vec<u8> {
    let mut bytes = vec![kind, head.station];
    bytes.extend(head.number.to_be_bytes());
    bytes.extend(&head.time.to_be_bytes()[2..]);
    bytes.push(head.output);
    bytes.extend(adds);
    bytes
}

impl Text {
    pub fn comment(&mut self, words: &str) {
        self.0.push_str(&format!("# {words}\n"));
    }

    pub fn table(&mut self, outputs: usize, stations: usize, time: u64) {
        self.0
            .push_str(&row('t', &[outputs as u64, stations as u64, time]));
    }

    /// The set that is kept from here on.
    pub fn keep(&mut self, set: &Parameters) {
        self.0.push_str(&row('p', &row_of_set(set)));
    }

    /// A start with that set over what is lent.
    pub fn start(&mut self, set: &Parameters) {
        self.0.push_str(&row('b', &row_of_set(set)));
    }

    pub fn output(&mut self, place: usize, record: &Record) {
        self.0.push_str(&row('o', &record.row(place)));
    }

    pub fn station(&mut self, place: usize, record: &Station) {
        self.0.push_str(&row('s', &record.row(place)));
    }

    pub fn frame(&mut self, bytes: &[u8]) {
        let numbers: Vec<u64> = bytes.iter().map(|byte| u64::from(*byte)).collect();
        self.0.push_str(&row('f', &numbers));
    }

    pub fn left(&mut self) {
        self.0.push_str("l\n");
    }
}
