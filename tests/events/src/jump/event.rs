//! The events of §4.

use crate::light::Way;
use crate::words::Hexadecimal;

/// Numbers of milliseconds that 32 bits do not tell from small ones, and those
/// beside them.
#[derive(Clone, Copy, Debug, PartialEq, Eq, PartialOrd, Ord)]
pub enum Far {
    /// 2^31, the least that a sign would make negative.
    TwoTo31,
    OneBelowTwoTo32,
    TwoTo32,
    OneAbove,
    FiveAbove,
    /// 2^32 and the movement's length less 1.
    LengthLessOneAbove,
    LengthAbove,
    TwoTo40,
}

impl Far {
    pub const ALL: [Far; 8] = [
        Far::TwoTo31,
        Far::OneBelowTwoTo32,
        Far::TwoTo32,
        Far::OneAbove,
        Far::FiveAbove,
        Far::LengthLessOneAbove,
        Far::LengthAbove,
        Far::TwoTo40,
    ];

    pub fn milliseconds(self, length: u64) -> u64 {
        match self {
            Far::TwoTo31 => 1 << 31,
            Far::OneBelowTwoTo32 => (1 << 32) - 1,
            Far::TwoTo32 => 1 << 32,
            Far::OneAbove => (1 << 32) + 1,
            Far::FiveAbove => (1 << 32) + 5,
            Far::LengthLessOneAbove => (1 << 32) + length - 1,
            Far::LengthAbove => (1 << 32) + length,
            Far::TwoTo40 => 1 << 40,
        }
    }

    pub fn of(milliseconds: u64, length: u64) -> Option<Far> {
        Far::ALL
            .into_iter()
            .find(|far| far.milliseconds(length) == milliseconds)
    }
}

/// What it is that is so far.
#[derive(Clone, Copy, Debug, PartialEq, Eq, PartialOrd, Ord)]
pub enum Measure {
    /// A jump from the millisecond in which the movement starts.
    FromStart,
    /// The jump's end from the movement's start, the jump itself being shorter.
    SinceStart,
    /// The jump itself, from the middle of the movement.
    FromMiddle,
}

/// What makes the jump.
#[derive(Clone, Copy, Debug, PartialEq, Eq, PartialOrd, Ord)]
pub enum Arrival {
    Clock,
    Read(Hexadecimal),
    Write,
    Property,
    Command,
}

/// How a moment of a movement stands to that at which the low 32 bits of the
/// panel's time are 0.
#[derive(Clone, Copy, Debug, PartialEq, Eq, PartialOrd, Ord)]
pub enum Wrap {
    Before,
    LastBefore,
    At,
    After,
}

#[derive(Clone, Copy, Debug, PartialEq, Eq, PartialOrd, Ord)]
pub enum JumpEvent {
    /// Out of a movement.
    Far {
        ramp: bool,
        up: bool,
        measure: Measure,
        far: Far,
    },
    /// By 2^31 ms or more, out of a movement of the output that the frame is
    /// for, or of any by a clock.
    By { way: Way, arrival: Arrival },
    /// A frame comes to such a moment of a movement that goes across it.
    Wrap {
        ramp: bool,
        wrap: Wrap,
        /// Whether the panel's time is 2^40 or more.
        from_two_to_40: bool,
    },
}
