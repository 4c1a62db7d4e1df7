//! The events of §2.

use crate::words::{Hexadecimal, Rank};

#[derive(Clone, Copy, Debug, PartialEq, Eq, PartialOrd, Ord)]
pub enum Course {
    RiseFromZero,
    FallToZero,
    BetweenLit,
}

/// What sort of movement it is.
#[derive(Clone, Copy, Debug, PartialEq, Eq, PartialOrd, Ord)]
pub struct Way {
    pub course: Course,
    pub ramp: bool,
}

/// How a moment stands to that at which a movement's light begins or ends.
#[derive(Clone, Copy, Debug, PartialEq, Eq, PartialOrd, Ord)]
pub enum Place {
    /// Two milliseconds or more before the first lit one.
    Dark,
    LastDark,
    FirstLit,
    SecondLit,
    Lit,
    /// The next millisecond is dark.
    LastLit,
    /// The movement is over with the next millisecond, and the light is not.
    LastMoving,
    /// The movement is over with this millisecond.
    AtEnd,
    /// It was over before.
    PastEnd,
}

impl Place {
    /// Where a millisecond more or less makes a difference.
    pub fn is_edge(self) -> bool {
        matches!(
            self,
            Place::Dark | Place::LastDark | Place::FirstLit | Place::LastLit | Place::LastMoving
        )
    }
}

/// What a frame does to an output, or asks of it.
#[derive(Clone, Copy, Debug, PartialEq, Eq, PartialOrd, Ord)]
pub enum Act {
    Write { lit: bool, rank: Rank },
    Empty { rank: Rank },
    Property(Hexadecimal),
    Read(Hexadecimal),
    Command(Hexadecimal),
}

#[derive(Clone, Copy, Debug, PartialEq, Eq, PartialOrd, Ord)]
pub enum LightEvent {
    /// From one accepted frame to the next, in a movement.
    Stretch {
        way: Way,
        begins: Place,
        ends: Place,
    },
    Acted {
        way: Way,
        place: Place,
        act: Act,
    },
    /// A command replaces the movement by another one, or by none.
    Retargeted {
        way: Way,
        place: Place,
        into: Option<Way>,
    },
    /// In the dark part of a rise, a fade or a ramp to zero: from zero.
    CommandedBackToZero {
        kind: Hexadecimal,
    },
    /// A duration falls due at such a moment.
    DurationFired {
        way: Way,
        place: Place,
        own_movement: bool,
    },
    /// A frame comes to such a moment of a fade by one percent over four hours,
    /// which is dark for longer than any other movement (since §7).
    LongestDarkPart {
        place: Place,
    },
    /// A frame comes to the first lit millisecond of a fade that was dark for
    /// more than one, and just then or before it one unit was full.
    FirstUnit {
        just_then: bool,
    },
    /// A millisecond more or less would be read.
    ElapsedReadAtSecond {
        just_before: bool,
    },
}
