//! Lent records as rows of numbers (crates/lent_rows has the same places), with
//! a name for each number. Slots are counted from 0 here: slot 6 is 5.

use plain::Parameters;

/// The most numbers of a row: an output's place and its 48 fields.
pub const NUMBERS: usize = 49;
pub const STATION_NUMBERS: usize = 35;
pub const LONGEST_FRAME: usize = 31;

#[derive(Clone, Copy, Debug, PartialEq, Eq)]
pub enum Activity {
    Still,
    Moving {
        owner: u8,
        start: u32,
        target: u32,
        length: u32,
        over: u64,
        /// Units a second of a ramp; nothing for a fade.
        rate: Option<u32>,
    },
    Warned {
        delay: bool,
        owner: u8,
        level: u32,
        turn: u64,
        over: u64,
    },
}

/// The last command: its operation, its two fields and its duration, as the
/// row has them.
#[derive(Clone, Copy, Debug, PartialEq, Eq)]
pub struct Last {
    pub operation: u8,
    pub first: u32,
    pub second: u32,
    /// 0: none, 1: cancels, 2: lasts.
    pub duration: u8,
    pub lasts: u32,
}

#[derive(Clone, Copy, Debug, PartialEq, Eq)]
pub struct Record {
    pub default: u32,
    pub fade: u32,
    /// Patterns of REALs.
    pub ramp: u32,
    pub step: u32,
    pub enable: bool,
    pub blink: u32,
    pub delay: u32,
    pub min: u32,
    pub max: u32,
    pub slot: u8,
    pub live: u16,
    pub levels: [u32; 16],
    pub activity: Activity,
    /// The slot of the running duration, and when it is due.
    pub timer: Option<(u8, u64)>,
    pub burning: u64,
    pub last: Last,
    pub active: u32,
    pub inactive: u32,
    pub reverse: bool,
    pub binary: bool,
}

#[derive(Clone, Copy, Debug, PartialEq, Eq)]
pub struct Station {
    pub answer: plain::Answer,
    pub number: u32,
    pub frame: [u8; LONGEST_FRAME],
}

/// What is lent beside the two tables: the panel time and the set that the
/// panel was started with (§6, §8), whatever its numbers are.
#[derive(Clone, Copy, Debug, PartialEq, Eq)]
pub struct Kept {
    pub time: u64,
    pub parameters: Parameters,
}

impl Kept {
    /// The old panel's set.
    pub fn at(time: u64, outputs: usize) -> Kept {
        Kept {
            time,
            parameters: Parameters::of_old_panel(outputs as u32),
        }
    }
}

/// A set as a row has it: stations, outputs, longest fade, longest duration, and
/// the word that marks tenants (§8). A number that is left out is 0.
pub fn set_of_row(row: &[u64; NUMBERS]) -> Parameters {
    Parameters {
        stations: word(row[0]),
        outputs: word(row[1]),
        fade: word(row[2]),
        duration: word(row[3]),
        tenants: word(row[4]),
    }
}

pub fn row_of_set(set: &Parameters) -> [u64; 5] {
    [
        set.stations,
        set.outputs,
        set.fade,
        set.duration,
        set.tenants,
    ]
    .map(u64::from)
}

/// What is too great for a field becomes the greatest that it holds.
fn byte(number: u64) -> u8 {
    number.try_into().unwrap_or(u8::MAX)
}

fn word(number: u64) -> u32 {
    number.try_into().unwrap_or(u32::MAX)
}

/// A record knows one NaN.
fn real(number: u64) -> u32 {
    let pattern = word(number);
    if f32::from_bits(pattern).is_nan() {
        0x7FC0_0000
    } else {
        pattern
    }
}

impl Record {
    /// As document 01 has it.
    pub fn fresh() -> Record {
        Record {
            default: 0,
            fade: 1_000,
            ramp: 10.0_f32.to_bits(),
            step: 5.0_f32.to_bits(),
            enable: false,
            blink: 0,
            delay: 0,
            min: 65_536,
            max: 6_553_600,
            slot: 15,
            live: 0,
            levels: [0; 16],
            activity: Activity::Still,
            timer: None,
            burning: 0,
            last: Last {
                operation: 0,
                first: 0,
                second: 0,
                duration: 0,
                lasts: 0,
            },
            active: 50 * 65_536,
            inactive: 45 * 65_536,
            reverse: false,
            binary: false,
        }
    }

    pub fn of_row(row: &[u64; NUMBERS]) -> Record {
        Record {
            default: word(row[1]),
            fade: word(row[2]),
            ramp: real(row[3]),
            step: real(row[4]),
            enable: row[5] > 0,
            blink: word(row[6]),
            delay: word(row[7]),
            min: word(row[8]),
            max: word(row[9]),
            slot: byte(row[10]),
            live: row[11].try_into().unwrap_or(u16::MAX),
            levels: std::array::from_fn(|index| word(row[12 + index])),
            activity: match row[28] {
                0 => Activity::Still,
                1 => Activity::Moving {
                    owner: byte(row[29]),
                    start: word(row[30]),
                    target: word(row[31]),
                    length: word(row[32]),
                    over: row[33],
                    rate: (row[34] > 0).then_some(word(row[35])),
                },
                _ => Activity::Warned {
                    delay: row[29] > 0,
                    owner: byte(row[30]),
                    level: word(row[31]),
                    turn: row[32],
                    over: row[33],
                },
            },
            timer: (row[36] > 0).then_some((byte(row[37]), row[38])),
            burning: row[39],
            last: Last::of_numbers(row[40], row[41], row[42], row[43], row[44]),
            active: word(row[45]),
            inactive: word(row[46]),
            reverse: row[47] > 0,
            binary: row[48] > 0,
        }
    }

    pub fn row(&self, place: usize) -> [u64; NUMBERS] {
        let mut row = [0; NUMBERS];
        let settings = [
            place as u64,
            self.default.into(),
            self.fade.into(),
            self.ramp.into(),
            self.step.into(),
            self.enable.into(),
            self.blink.into(),
            self.delay.into(),
            self.min.into(),
            self.max.into(),
            self.slot.into(),
            self.live.into(),
        ];
        row[..12].copy_from_slice(&settings);
        row[12..28].copy_from_slice(&self.levels.map(u64::from));
        let activity = match self.activity {
            Activity::Still => [0; 8],
            Activity::Moving {
                owner,
                start,
                target,
                length,
                over,
                rate,
            } => [
                1,
                owner.into(),
                start.into(),
                target.into(),
                length.into(),
                over,
                rate.is_some().into(),
                rate.unwrap_or(0).into(),
            ],
            Activity::Warned {
                delay,
                owner,
                level,
                turn,
                over,
            } => [
                2,
                delay.into(),
                owner.into(),
                level.into(),
                turn,
                over,
                0,
                0,
            ],
        };
        row[28..36].copy_from_slice(&activity);
        if let Some((slot, due)) = self.timer {
            row[36..39].copy_from_slice(&[1, slot.into(), due]);
        }
        let last = &self.last;
        row[39..].copy_from_slice(&[
            self.burning,
            last.operation.into(),
            last.first.into(),
            last.second.into(),
            last.duration.into(),
            last.lasts.into(),
            self.active.into(),
            self.inactive.into(),
            self.reverse.into(),
            self.binary.into(),
        ]);
        row
    }

    pub fn is_live(&self, slot: u8) -> bool {
        slot < 16 && self.live >> slot & 1 == 1
    }

    pub fn store(&mut self, slot: u8, level: u32) {
        self.live |= 1 << slot;
        self.levels[usize::from(slot)] = level;
    }

    /// The lowest live slot.
    pub fn winner(&self) -> Option<u8> {
        (0..16).find(|slot| self.is_live(*slot))
    }

    /// "The winner's level, or Relinquish_Default with no live slot; if above
    /// zero it is brought into Min..Max."
    pub fn present_value(&self) -> u32 {
        let level = match self.winner() {
            Some(slot) => self.levels[usize::from(slot)],
            None => self.default,
        };
        if level > 0 {
            level.max(self.min).min(self.max)
        } else {
            0
        }
    }
}

impl Last {
    /// A number means nothing where its operation or duration has no such
    /// field. An operation above 10 is the last one.
    fn of_numbers(operation: u64, first: u64, second: u64, duration: u64, lasts: u64) -> Last {
        let operation = operation.min(10) as u8;
        let duration = duration.min(2) as u8;
        Last {
            operation,
            first: match operation {
                0 | 5 | 6 | 10 => 0,
                _ => real(first),
            },
            second: match operation {
                2 => word(second),
                4 => real(second),
                _ => 0,
            },
            duration,
            lasts: if duration == 2 { word(lasts) } else { 0 },
        }
    }
}

impl Station {
    pub fn fresh() -> Station {
        Station {
            answer: plain::Answer::Done,
            number: 0,
            frame: [0; LONGEST_FRAME],
        }
    }

    pub fn of_row(row: &[u64; NUMBERS]) -> Station {
        Station {
            answer: match row[1] {
                0 => plain::Answer::Done,
                1 => plain::Answer::Value(word(row[2])),
                2 => plain::Answer::Absent,
                _ => plain::Answer::Refused(byte(row[2])),
            },
            number: word(row[3]),
            frame: std::array::from_fn(|index| byte(row[4 + index])),
        }
    }

    pub fn row(&self, place: usize) -> [u64; STATION_NUMBERS] {
        let mut row = [0; STATION_NUMBERS];
        let (case, number) = match self.answer {
            plain::Answer::Done => (0, 0),
            plain::Answer::Value(value) => (1, value.into()),
            plain::Answer::Absent => (2, 0),
            plain::Answer::Refused(number) => (3, number.into()),
        };
        row[..4].copy_from_slice(&[place as u64, case, number, self.number.into()]);
        row[4..].copy_from_slice(&self.frame.map(u64::from));
        row
    }
}
