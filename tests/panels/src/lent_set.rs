//! Starts and frames over tables that are lent with a set (§6, §8), which no list
//! brings about: a list lends as many records as its heading says, and keeps
//! the set that it was started with.

use crate::{Answer, Parameters};

/// What the first output's record holds.
#[derive(Clone, Copy, Debug)]
pub enum Held {
    Nothing,
    FadeTime(u32),
    BlinkTime(u32),
    BlinkWarnDelay(u32),
    /// A fade that has just begun, of this length.
    Movement(u32),
    /// A duration that is due in so many milliseconds.
    Duration(u64),
}

#[derive(Clone, Copy, Debug)]
pub enum Asked {
    Start(Parameters),
    /// A clock of the panel's own time.
    Clock,
    /// The empty string.
    NoByte,
}

#[derive(Clone, Copy, Debug)]
pub struct LentSet {
    pub outputs: u32,
    pub stations: u32,
    pub kept: Parameters,
    pub held: Held,
    pub asked: Asked,
    pub answer: Answer,
}

/// What stands in the lent tables after it.
#[derive(Clone, Copy, Debug, PartialEq, Eq)]
pub enum Left {
    AsItWas,
    /// Every record fresh, time 0, and the set of the start.
    Started,
    Otherwise,
}

/// Panel time; the burning time of the first output; the number that the first
/// station has.
pub const TIME: u64 = 7;
pub const BURNING: u64 = 5;
pub const NUMBER: u32 = 3;
/// A frame that the first station may keep: a read.
pub const KIND: u8 = 0x05;
pub const CLOCK: [u8; 7] = [0x01, 0, 0, 0, 0, 0, TIME as u8];

const DONE: Answer = Answer::Done;
const TABLES: Answer = Answer::Refused(1);
const PARAMETER: Answer = Answer::Refused(17);
const DAY: u32 = 86_400_000;
/// The greatest longest fade (§7).
const FOUR_HOURS: u32 = 14_400_000;

fn set(stations: u32, outputs: u32, fade: u32, duration: u32) -> Parameters {
    Parameters {
        stations,
        outputs,
        fade,
        duration,
        tenants: 0,
    }
}

/// The sets of a shop, each with one number at an end of its range or beside
/// it, and whether a panel may be started so.
fn sets() -> Vec<(Parameters, bool)> {
    let mut sets = Vec::new();
    for (number, good) in [(0, false), (1, true), (32, true), (33, false)] {
        sets.push((set(number, 2, 500, 600), good));
    }
    for (number, good) in [(0, false), (1, true), (64, true), (65, false)] {
        sets.push((set(3, number, 500, 600), good));
    }
    for number in [
        99,
        100,
        FOUR_HOURS - 1,
        FOUR_HOURS,
        FOUR_HOURS + 1,
        DAY,
        DAY + 1,
    ] {
        sets.push((set(3, 2, number, 600), (100..=FOUR_HOURS).contains(&number)));
        sets.push((set(3, 2, 500, number), (100..=DAY).contains(&number)));
    }
    sets
}

pub fn lent_sets() -> Vec<LentSet> {
    let mut all = counts();
    all.extend(numbers());
    all.extend(records());
    all.extend(marks());
    all
}

impl LentSet {
    /// A frame over tables of the counts that are kept.
    fn kept(kept: Parameters, asked: Asked, answer: Answer) -> LentSet {
        LentSet {
            outputs: kept.outputs,
            stations: kept.stations,
            kept,
            held: Held::Nothing,
            asked,
            answer,
        }
    }

    pub fn left(&self) -> Left {
        match (self.asked, self.answer) {
            (Asked::Start(_), DONE) => Left::Started,
            _ => Left::AsItWas,
        }
    }
}

/// One record too few, as many, and one too many, of each table.
fn counts() -> Vec<LentSet> {
    let kept = set(3, 2, 500, 600);
    let mut all = Vec::new();
    for outputs in [1, 2, 3] {
        for stations in [2, 3, 4] {
            let answer = match (outputs, stations) {
                (2, 3) => DONE,
                _ => TABLES,
            };
            for asked in [Asked::Clock, Asked::Start(kept)] {
                all.push(LentSet {
                    outputs,
                    stations,
                    ..LentSet::kept(kept, asked, answer)
                });
            }
        }
    }
    all
}

/// Each number of the kept set and of the start's; 17 comes before 1, and 1
/// before all other refusals.
fn numbers() -> Vec<LentSet> {
    let other = set(5, 7, 800, 900);
    let mut all = Vec::new();
    for (kept, good) in sets() {
        let (of_frame, of_start) = match good {
            true => (DONE, DONE),
            false => (TABLES, PARAMETER),
        };
        all.push(LentSet::kept(kept, Asked::Clock, of_frame));
        if !good {
            all.push(LentSet::kept(kept, Asked::NoByte, TABLES));
        }
        for (more, answer) in [(0, of_start), (1, if good { TABLES } else { PARAMETER })] {
            let asked = Asked::Start(kept);
            all.push(LentSet {
                outputs: kept.outputs + more,
                stations: kept.stations,
                ..LentSet::kept(other, asked, answer)
            });
        }
    }
    all
}

/// What a record may hold at each longest fade.
fn records() -> Vec<LentSet> {
    let mut all = Vec::new();
    for longest in [
        100,
        500,
        1_000,
        799_999,
        800_000,
        800_001,
        FOUR_HOURS - 1,
        FOUR_HOURS,
    ] {
        let most = longest.max(800_000);
        for (held, good) in [
            (Held::FadeTime(99), false),
            (Held::FadeTime(100), true),
            (Held::FadeTime(longest), true),
            (Held::FadeTime(longest + 1), false),
            (Held::FadeTime(DAY), false),
            (Held::Movement(1), true),
            (Held::Movement(most), true),
            (Held::Movement(most + 1), false),
            (Held::Movement(DAY), false),
            (Held::BlinkTime(FOUR_HOURS + 1), true),
            (Held::BlinkWarnDelay(FOUR_HOURS + 1), true),
            (Held::BlinkTime(DAY), true),
            (Held::BlinkTime(DAY + 1), false),
            (Held::BlinkWarnDelay(DAY), true),
            (Held::BlinkWarnDelay(DAY + 1), false),
            (Held::Duration(u64::MAX - TIME), true),
        ] {
            let answer = if good { DONE } else { TABLES };
            let kept = set(3, 2, longest, 600);
            all.push(LentSet {
                held,
                ..LentSet::kept(kept, Asked::Clock, answer)
            });
        }
    }
    all
}

/// Marks of stations that are there and of none, kept and in a start. A start
/// that is refused leaves those that are kept.
fn marks() -> Vec<LentSet> {
    let good = set(3, 2, 500, 600);
    let mut all = Vec::new();
    for before in [0, 1, 5, 7, 8, 1 << 31, u32::MAX] {
        let with_marks = |set: Parameters, tenants| Parameters { tenants, ..set };
        let kept = with_marks(good, before);
        all.push(LentSet::kept(kept, Asked::Clock, DONE));
        let broken = with_marks(set(3, 2, 99, 600), before);
        all.push(LentSet::kept(broken, Asked::NoByte, TABLES));
        for tenants in [0, 2, 7, 8, 1 << 31, u32::MAX] {
            for (started, answer) in [
                (good, DONE),
                (set(3, 2, 99, 600), PARAMETER),
                (set(4, 2, 500, 600), TABLES),
            ] {
                let asked = Asked::Start(with_marks(started, tenants));
                all.push(LentSet::kept(kept, asked, answer));
            }
        }
    }
    all
}
