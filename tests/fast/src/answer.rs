//! Answers and the refusals of the paper's table, with those of §1, §3 and §6.

#[derive(Clone, Copy, Debug, PartialEq, Eq)]
pub enum Answer {
    Done,
    Value(u32),
    Absent,
    Refused(Refusal),
}

#[derive(Clone, Copy, Debug, PartialEq, Eq)]
#[repr(u8)]
pub enum Refusal {
    Records = 1,
    Kind = 2,
    Length = 3,
    StationOrNumber = 4,
    Output = 5,
    NumberTaken = 6,
    NumberPassed = 7,
    Late = 8,
    Property = 9,
    Priority = 10,
    Real = 11,
    WholeNumber = 12,
    MinimumOverMaximum = 13,
    Tagging = 14,
    TaggedField = 15,
    RelayValues = 16,
    Parameters = 17,
}

impl Refusal {
    pub fn number(self) -> u8 {
        self as u8
    }
}

impl From<Refusal> for Answer {
    fn from(refusal: Refusal) -> Answer {
        Answer::Refused(refusal)
    }
}
