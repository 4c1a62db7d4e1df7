//! Words that events of all sorts share.

use std::fmt;

use plain::frame::*;
use plain::movement::{Movement, Pace};
use plain::{Answer, Output};

pub const BOTH: [bool; 2] = [false, true];

/// Document 01's longest duration and blink times, in milliseconds.
pub const DAY: u64 = 86_400_000;

/// The kinds of document 01's commands, in the order of their operations; §1
/// brings the same ones.
pub const COMMANDS: [u8; 11] = [
    STOP,
    FADE_TO,
    FADE_TO_OVER,
    RAMP_TO,
    RAMP_TO_AT_RATE,
    STEP_UP,
    STEP_DOWN,
    STEP_UP_BY,
    STEP_DOWN_BY,
    GOTO,
    RELINQUISH,
];

/// Commands that can leave an output dark: a step down ends at Min.
pub const DARKENING: [u8; 6] = [
    FADE_TO,
    FADE_TO_OVER,
    RAMP_TO,
    RAMP_TO_AT_RATE,
    GOTO,
    RELINQUISH,
];

/// A byte that the paper writes in hexadecimal.
#[derive(Clone, Copy, PartialEq, Eq, PartialOrd, Ord)]
pub struct Hexadecimal(pub u8);

impl From<u8> for Hexadecimal {
    fn from(byte: u8) -> Hexadecimal {
        Hexadecimal(byte)
    }
}

impl fmt::Debug for Hexadecimal {
    fn fmt(&self, formatter: &mut fmt::Formatter) -> fmt::Result {
        write!(formatter, "{:02X}", self.0)
    }
}

/// An answer without its value.
#[derive(Clone, Copy, Debug, PartialEq, Eq, PartialOrd, Ord)]
pub enum Answered {
    Done,
    Value,
    Absent,
    Refused(u8),
}

impl From<Answer> for Answered {
    fn from(answer: Answer) -> Answered {
        match answer {
            Answer::Done => Answered::Done,
            Answer::Value(_) => Answered::Value,
            Answer::Absent => Answered::Absent,
            Answer::Refused(number) => Answered::Refused(number),
        }
    }
}

/// What an output is doing when a frame acts on it.
#[derive(Clone, Copy, Debug, PartialEq, Eq, PartialOrd, Ord)]
pub enum Situation {
    Dark,
    Lit,
    Moving,
    WarningDark,
    WarningLit,
}

impl Situation {
    pub const ALL: [Situation; 5] = [
        Situation::Dark,
        Situation::Lit,
        Situation::Moving,
        Situation::WarningDark,
        Situation::WarningLit,
    ];

    pub fn of(output: &Output) -> Situation {
        if output.movement.is_some() {
            Situation::Moving
        } else if let Some(warning) = &output.warning {
            match warning.gone < warning.dark_time {
                true => Situation::WarningDark,
                false => Situation::WarningLit,
            }
        } else if output.present_value() > 0 {
            Situation::Lit
        } else {
            Situation::Dark
        }
    }

    pub fn is_warning(self) -> bool {
        matches!(self, Situation::WarningDark | Situation::WarningLit)
    }
}

/// How the slot that a frame acts on stands to the winner before it.
#[derive(Clone, Copy, Debug, PartialEq, Eq, PartialOrd, Ord)]
pub enum Rank {
    /// A lower number than the winner's, or there is no winner.
    Stronger,
    Winner,
    Weaker,
}

impl Rank {
    pub fn of(output: &Output, priority: u8) -> Rank {
        match output.winner() {
            Some(winner) if winner == priority => Rank::Winner,
            Some(winner) if winner < priority => Rank::Weaker,
            _ => Rank::Stronger,
        }
    }
}

pub fn is_ramp(movement: &Movement) -> bool {
    matches!(movement.pace, Pace::Ramp { .. })
}

pub fn goes_up(movement: &Movement) -> bool {
    movement.to > movement.from
}
