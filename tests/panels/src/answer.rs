//! An answer of any panel, and how it is written.

use std::fmt;

#[derive(Clone, Copy, Debug, PartialEq, Eq)]
pub enum Answer {
    Done,
    Value(u32),
    Absent,
    Refused(u8),
}

impl fmt::Display for Answer {
    fn fmt(&self, formatter: &mut fmt::Formatter) -> fmt::Result {
        match self {
            Answer::Done => write!(formatter, "Done"),
            Answer::Value(value) => write!(formatter, "Value {value:08X}"),
            Answer::Absent => write!(formatter, "Absent"),
            Answer::Refused(number) => write!(formatter, "Refused {number}"),
        }
    }
}

impl From<plain::Answer> for Answer {
    fn from(answer: plain::Answer) -> Answer {
        match answer {
            plain::Answer::Done => Answer::Done,
            plain::Answer::Value(value) => Answer::Value(value),
            plain::Answer::Absent => Answer::Absent,
            plain::Answer::Refused(number) => Answer::Refused(number),
        }
    }
}
