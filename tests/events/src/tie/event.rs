//! The events of §5.

use crate::words::Hexadecimal;

/// How a REAL stands to the middle of two units.
#[derive(Clone, Copy, Debug, PartialEq, Eq, PartialOrd, Ord)]
pub enum Tie {
    /// In it. The unit below is even, so it goes down.
    LowerEven,
    /// In it. The unit above is even, so it goes up.
    UpperEven,
    /// One pattern below it.
    JustBelow,
    /// One pattern above it.
    JustAbove,
}

/// How far a REAL is from the next one.
#[derive(Clone, Copy, Debug, PartialEq, Eq, PartialOrd, Ord)]
pub enum Span {
    /// Only rates and steps are rounded there.
    BelowOne,
    BelowSixtyFour,
    /// Half a unit: every second REAL is a tie, and the others are units.
    FromSixtyFour,
}

/// What a REAL is written for.
#[derive(Clone, Copy, Debug, PartialEq, Eq, PartialOrd, Ord)]
pub enum Field {
    /// Kind 02.
    Slot,
    Level {
        kind: Hexadecimal,
        tagged: bool,
    },
    Rate {
        tagged: bool,
    },
    Step {
        kind: Hexadecimal,
        tagged: bool,
    },
    /// Written to a property.
    Property(Hexadecimal),
    /// Ramp_Rate or Step_Increment, in a command that has none of its own.
    Setting {
        kind: Hexadecimal,
    },
}

/// A REAL above 0 and below 1 whose rounding would go wrong before it is raised.
#[derive(Clone, Copy, Debug, PartialEq, Eq, PartialOrd, Ord)]
pub enum Small {
    /// Half a unit or less: the nearest even unit is 0.
    NextToZero,
    /// Exactly between two other units.
    BetweenUnits,
}

/// Which of two values that are compared lies below a tie.
#[derive(Clone, Copy, Debug, PartialEq, Eq, PartialOrd, Ord)]
pub enum Decider {
    Written,
    Stored,
}

#[derive(Clone, Copy, Debug, PartialEq, Eq, PartialOrd, Ord)]
pub enum TieEvent {
    /// And it shows: a level is stored, a step is made in full, or a ramp's
    /// level is read where the unit on the other side would give another.
    Rounded { field: Field, tie: Tie, span: Span },
    /// In_Process is read when a ramp at the rate on the other side would be over.
    StillRuns { field: Field, tie: Tie },
    /// A level becomes 65,536.
    Raised { field: Field, small: Small },
    /// Refusal 13 or 16 would be decided otherwise if halves went up.
    Decided {
        property: Hexadecimal,
        taken: bool,
        by: Decider,
    },
    /// Min's REAL lies above Max, or Max's below Min, and both are one unit.
    SameBound { property: Hexadecimal },
}
