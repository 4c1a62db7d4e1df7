//! Copies, and frames that refusals 2 to 8 turn down.

use crate::body::clock;
use crate::list::{Generator, Planned};
use crate::suites::tags::in_other_form;
use crate::timing::When;

/// Kinds that document 02 makes known after the suites that send them as unknown
/// ones were made, with their bytes: §9, §11 and §12.
fn length_to_come(kind: u8) -> Option<usize> {
    match kind {
        0x06 | 0x07 => Some(13),
        0x30..=0x3A => Some(30),
        _ => None,
    }
}

impl Generator {
    /// A copy of a station's latest first arrival, or of any earlier frame.
    pub(crate) fn copy_of_earlier(&mut self) -> Vec<u8> {
        let station = self.some_station();
        let wanted = self.random.below(10);
        let latest = self.panel.latest_of_station(station);
        let last_arrival = self.panel.first_arrivals().last();
        let copied = match wanted {
            0..=3 => latest,
            4..=6 => last_arrival,
            _ => None,
        };
        if let Some(arrival) = copied {
            let bytes = arrival.bytes.clone();
            // What means the same is no copy for that.
            if self.suite.tables.tagged > 0 && self.random.chance(10) {
                return in_other_form(&bytes).unwrap_or(bytes);
            }
            return bytes;
        }
        if self.frames.is_empty() {
            return Vec::new();
        }
        let index = self.random.below(self.frames.len() as u64) as usize;
        self.frames[index].clone()
    }

    /// A good frame with one thing spoilt, and often a second one, so that the
    /// order of the refusals shows.
    pub(crate) fn hostile_frame(&mut self) -> Vec<u8> {
        let output = self.some_output();
        let tables = &self.suite.tables;
        let (tagged, reads) = (tables.tagged > 0, tables.spoilt_reads);
        let body = match tagged && self.random.chance(10) {
            true => self.body_for_a_sentence(),
            false if reads > 0 && self.random.chance(reads) => self.read_to_be_spoilt(),
            false => self.any_body(output),
        };
        let mut bytes = self.frame_of(&Planned {
            output,
            body: Some(body),
            when: When::Whenever,
            station: None,
        });
        self.spoil(&mut bytes);
        if self.random.chance(35) {
            self.spoil(&mut bytes);
        }
        // Refused 2 as long as its kind is unknown, and 3 from then on: it never
        // touches the panel, so that the list goes on as before.
        let kind = bytes.first().copied().unwrap_or(0);
        let unknown = self.suite.tables.length_of_kind(kind).is_none();
        if unknown && length_to_come(kind) == Some(bytes.len()) {
            bytes.push(0);
        }
        bytes
    }

    fn some_kind(&mut self) -> u8 {
        self.random.pick(self.suite.tables.kinds).0
    }

    fn spoil(&mut self, bytes: &mut Vec<u8>) {
        let whole_head = bytes.len() >= 13;
        match self.random.below(12) {
            0 => bytes.clear(),
            1 => self.spoil_kind(bytes),
            2 | 3 => self.spoil_length(bytes),
            4 if whole_head => {
                let stations = self.panel.parameters().stations as u8;
                bytes[1] = self
                    .random
                    .pick(&[stations, stations + 1, 16, 127, 128, 255]);
            }
            5 if whole_head => bytes[2..6].fill(0),
            6 if whole_head => {
                let outputs = self.panel.outputs().len() as u8;
                bytes[12] = self.random.pick(&[outputs, outputs + 1, 64, 128, 255]);
            }
            7 if whole_head => self.take_latest_number(bytes),
            8 if whole_head => self.take_older_number(bytes),
            9 | 10 if whole_head => self.make_late(bytes),
            11 => *bytes = self.late_clock(),
            _ => self.spoil_length(bytes),
        }
    }

    fn spoil_kind(&mut self, bytes: &mut Vec<u8>) {
        let kind = match self.random.below(3) {
            0 => self.random.pick(self.suite.tables.unknown_kinds),
            1 => self.random.bits() as u8,
            _ => self.some_kind(),
        };
        match bytes.first_mut() {
            Some(first) => *first = kind,
            None => bytes.push(kind),
        }
    }

    /// Too short or too long, by one byte or by many.
    fn spoil_length(&mut self, bytes: &mut Vec<u8>) {
        if self.random.chance(30) {
            *bytes = vec![self.some_kind()];
        }
        let tables = &self.suite.tables;
        let length = bytes
            .first()
            .and_then(|kind| tables.length_of_kind(*kind))
            .unwrap_or(7);
        let wrong = match self.random.below(8) {
            0 | 1 => length - 1,
            2 | 3 => length + 1,
            4 => self.random.between(1, length as u64 - 1) as usize,
            5 => self.random.between(length as u64 + 1, 40) as usize,
            6 => self.random.pick(&[7, 13, 14, 17, 18, 21, 25, 26, 31]),
            _ if self.random.one_in(20) => self.random.between(100, 3_000) as usize,
            _ => length + 1,
        };
        let filling = self.random.bits() as u8;
        bytes.resize(wrong, filling);
    }

    /// "Station's last number, other bytes" - or the same, which is a copy.
    fn take_latest_number(&mut self, bytes: &mut Vec<u8>) {
        let station = self.some_station();
        let Some(latest) = self.panel.latest_of_station(station) else {
            return;
        };
        if self.random.chance(50) {
            bytes[1] = station;
            bytes[2..6].copy_from_slice(&latest.number.to_be_bytes());
        } else if self.random.chance(20) {
            // All but the kind, in the length of the kind that was.
            *bytes = latest.bytes.clone();
            let kinds = self.suite.tables.kinds.iter();
            let others: Vec<u8> = kinds
                .filter(|(kind, length)| *kind != bytes[0] && *length == bytes.len())
                .map(|(kind, _)| *kind)
                .collect();
            // A tagged command has its length to itself.
            if !others.is_empty() {
                bytes[0] = self.random.pick(&others);
            }
        } else {
            // All but one bit of the frame that the station keeps, though not
            // of its kind, station and number.
            *bytes = latest.bytes.clone();
            let places = bytes.len() as u64;
            let place = self.random.between(6, places - 1) as usize;
            bytes[place] ^= 1 << self.random.below(8);
        }
    }

    fn take_older_number(&mut self, bytes: &mut [u8]) {
        let station = self.some_station();
        let Some(latest) = self.panel.latest_of_station(station) else {
            return;
        };
        let number = latest.number;
        if number > 1 {
            let older = match self.random.below(2) {
                0 => number - 1,
                _ => self.random.between(1, u64::from(number) - 1) as u32,
            };
            bytes[1] = station;
            bytes[2..6].copy_from_slice(&older.to_be_bytes());
        }
    }

    fn earlier_time(&mut self) -> u64 {
        let now = self.panel.time();
        match self.random.below(3) {
            _ if now == 0 => 0,
            0 => now - 1,
            1 => 0,
            _ => self.random.below(now),
        }
    }

    fn make_late(&mut self, bytes: &mut [u8]) {
        let time = self.earlier_time();
        bytes[6..12].copy_from_slice(&time.to_be_bytes()[2..]);
    }

    fn late_clock(&mut self) -> Vec<u8> {
        clock(self.earlier_time())
    }
}
