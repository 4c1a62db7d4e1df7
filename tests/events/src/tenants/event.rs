//! The events of §8.

use plain::Parameter;

use crate::words::{Answered, Hexadecimal};

/// The letters among the digits of a word.
#[derive(Clone, Copy, Debug, PartialEq, Eq, PartialOrd, Ord)]
pub enum Letters {
    Upper,
    Lower,
    Both,
}

/// Which bits of the word are set.
#[derive(Clone, Copy, Debug, PartialEq, Eq, PartialOrd, Ord)]
pub enum Marked {
    None,
    All,
    /// Bit 0 alone.
    First,
    /// The last station's alone.
    Last,
    /// The first bit alone that no station has.
    Beyond,
    /// Bit 31 alone, where there is no station 31.
    Top,
}

/// A level beside a whole number of percent.
#[derive(Clone, Copy, Debug, PartialEq, Eq, PartialOrd, Ord)]
pub enum Beside {
    UnitBelow,
    Whole,
    UnitAbove,
}

#[derive(Clone, Copy, Debug, PartialEq, Eq, PartialOrd, Ord)]
pub enum TenantEvent {
    /// The word `tenants` of a list whose panel is started, by how many other
    /// words stand between it and `outputs C`, and after it.
    Word {
        before: usize,
        after: usize,
    },
    LeftOut,
    Digits {
        digits: usize,
    },
    Cased(Letters),
    /// A zero stands first and others after it.
    LeadingZero,
    /// 17 for this number, whatever the word.
    NotStarted(Parameter),
    /// The first or the last station reads what tells a tenant from a service
    /// station.
    Told {
        stations: u32,
        marked: Marked,
        last: bool,
    },
    /// The first number that no station has reads, and its bit is set: 4.
    BeyondReads {
        stations: u32,
    },
    Read {
        property: Hexadecimal,
        tenant: bool,
        answered: Answered,
    },
    /// A tenant and a service station read the same in one moment, with no
    /// first arrival between them.
    InTurn {
        property: Hexadecimal,
        tenant_first: bool,
    },
    /// Present_Value or Progress_Value of an output that does not move.
    Shown {
        property: Hexadecimal,
        tenant: bool,
        beside: Beside,
    },
    /// Progress_Value in a movement.
    Moving {
        upward: bool,
        tenant: bool,
        beside: Beside,
    },
    /// Progress_Value is just this one.
    Level {
        level: u32,
        tenant: bool,
    },
    Slot {
        slot: u8,
        live: bool,
        tenant: bool,
    },
    /// Present_Value is read while this slot shows a level between two percents.
    Winner {
        slot: u8,
        tenant: bool,
    },
    /// Another level, rate or step, no whole number of percent: it is read as it is.
    Exact {
        property: Hexadecimal,
        tenant: bool,
    },
    /// Burning time of a second or more.
    Burning {
        tenant: bool,
    },
    /// A copy of a read: of slots 1 to 6, or of anything else. The output may
    /// have changed so that the read would be answered otherwise now.
    Copy {
        tenant: bool,
        of_hidden_slot: bool,
        changed: bool,
    },
    /// A read that is late for a tenant's read of a hidden slot alone: that has
    /// brought the panel to its time.
    LateForHidden,
    /// A read that never arrives.
    TurnedDown {
        tenant: bool,
        refusal: u8,
    },
    /// A write or a command that is carried out.
    Acted {
        kind: Hexadecimal,
        tenant: bool,
    },
}
