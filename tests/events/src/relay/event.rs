//! The events of §3.

use crate::words::{Hexadecimal, Situation};

/// What has moved Present_Value, or one of the two values.
#[derive(Clone, Copy, Debug, PartialEq, Eq, PartialOrd, Ord)]
pub enum Mover {
    /// Kind 02, where it starts no warning.
    Write,
    Empty,
    /// Plain or in tags.
    Command(Hexadecimal),
    Property(Hexadecimal),
    Duration,
    WarningStart,
    WarningTurn,
    WarningEnd {
        lit: bool,
    },
}

/// How Present_Value stands to the two values; 'just' is one unit.
#[derive(Clone, Copy, Debug, PartialEq, Eq, PartialOrd, Ord)]
pub enum Stand {
    BelowInactive,
    JustBelowInactive,
    AtInactive,
    JustAboveInactive,
    Between,
    JustBelowActive,
    AtActive,
    JustAboveActive,
    AboveActive,
}

/// How a value that is written to 17 or 18 stands to the other one.
#[derive(Clone, Copy, Debug, PartialEq, Eq, PartialOrd, Ord)]
pub enum Gap {
    Wide,
    OneUnit,
    /// The REAL is less than a unit away, and becomes the next unit.
    OneUnitByRounding,
    Equal,
    /// The REAL is another one, and becomes the same unit.
    EqualByRounding,
    /// A REAL between 0 and 1, and the other value is one percent.
    EqualByRaising,
    CrossedByOne,
    Crossed,
}

#[derive(Clone, Copy, Debug, PartialEq, Eq, PartialOrd, Ord)]
pub enum RelayEvent {
    /// Present_Value or a value has moved.
    Judged {
        by: Mover,
        was_active: bool,
        stand: Stand,
    },
    /// In what the output was doing before.
    Turned {
        by: Mover,
        situation: Situation,
        active: bool,
    },
    /// A duration and a warning's turn or end fall due in that millisecond.
    TurnedWithDuration {
        by: Mover,
    },
    /// With no dark time Present_Value stays at first, here between the values.
    WarningStartsLit {
        active: bool,
    },
    /// A movement starts, and Progress_Value would turn the relay the other way.
    LightLagsBehind {
        ramp: bool,
        active: bool,
    },
    /// Between two frames.
    TurnsOnTheWay {
        turns: u8,
    },
    /// It has turned between two frames, and neither Present_Value at the
    /// second nor the relay at the first says how.
    RememberedFromTheWay {
        active: bool,
    },
    Written {
        property: Hexadecimal,
        gap: Gap,
    },
    /// 0, 1 or 100 percent.
    WrittenAtEdge {
        property: Hexadecimal,
        percent: u32,
        taken: bool,
    },
    PolarityWritten {
        from_reverse: bool,
        to_reverse: bool,
        active: bool,
    },
    Read {
        property: Hexadecimal,
        situation: Situation,
        active: bool,
        reverse: bool,
    },
    /// The frame before was refused 16.
    ReadAfterRefusal {
        property: Hexadecimal,
    },
    /// A frame would be in time but for one that was refused 16.
    LateAfterRefusal,
}
