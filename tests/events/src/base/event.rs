//! The events of document 01, and one variant for those of each change.

use crate::four_hours::FourHoursEvent;
use crate::jump::JumpEvent;
use crate::light::LightEvent;
use crate::relay::RelayEvent;
use crate::set::SetEvent;
use crate::tags::TaggedEvent;
use crate::tenants::TenantEvent;
use crate::tie::TieEvent;
use crate::words::{Answered, Hexadecimal, Rank, Situation};

#[derive(Clone, Copy, Debug, PartialEq, Eq, PartialOrd, Ord)]
pub enum Phase {
    Dark,
    Lit,
}

/// What ends a warning before its time.
#[derive(Clone, Copy, Debug, PartialEq, Eq, PartialOrd, Ord)]
pub enum Breaker {
    ZeroAtItsOwnSlot,
    ZeroAtAnotherSlotAboveSix,
    ZeroBelowSix,
    LitAtItsOwnSlot,
    LitAtAnotherSlotAboveSix,
    LitBelowSix,
    Command(Hexadecimal),
}

/// A condition of the warning's start that a write of zero does not meet.
#[derive(Clone, Copy, Debug, PartialEq, Eq, PartialOrd, Ord)]
pub enum NoWarning {
    PriorityBelowSeven,
    BlinkDisabled,
    NoTime,
    AlreadyRunning,
    StrongerSlotLive,
    WasDark,
    DefaultLit,
    WeakerSlotLit,
}

#[derive(Clone, Copy, Debug, PartialEq, Eq, PartialOrd, Ord)]
pub enum FiredIn {
    Rest,
    ItsOwnMovement,
    AnotherMovement,
    WarningAtItsOwnSlot,
    WarningElsewhere,
}

/// What else falls into the millisecond in which a duration fires.
#[derive(Clone, Copy, Debug, PartialEq, Eq, PartialOrd, Ord)]
pub enum Coincidence {
    MovementEnd { own_movement: bool },
    WarningTurn { own_slot: bool },
    WarningEnd { own_slot: bool, lit: bool },
}

#[derive(Clone, Copy, Debug, PartialEq, Eq, PartialOrd, Ord)]
pub enum Step {
    UpWithin,
    UpToMinimum,
    UpToMaximum,
    DownWithin,
    DownToMinimum,
    DownToZeroGivesMinimum,
    DownFromZero,
}

#[derive(Clone, Copy, Debug, PartialEq, Eq, PartialOrd, Ord)]
pub enum Stop {
    AtZero,
    RaisedToMinimum,
    AsReached,
}

/// How far a frame or a clock takes the panel's time.
#[derive(Clone, Copy, Debug, PartialEq, Eq, PartialOrd, Ord)]
pub enum Jump {
    None,
    OneMillisecond,
    UpToASecond,
    UpToAnHour,
    UpToADay,
    Days,
    From2To40,
    From2To47,
}

impl Jump {
    pub const ALL: [Jump; 8] = [
        Jump::None,
        Jump::OneMillisecond,
        Jump::UpToASecond,
        Jump::UpToAnHour,
        Jump::UpToADay,
        Jump::Days,
        Jump::From2To40,
        Jump::From2To47,
    ];

    pub fn of(milliseconds: u64) -> Jump {
        match milliseconds {
            0 => Jump::None,
            1 => Jump::OneMillisecond,
            2..=1_000 => Jump::UpToASecond,
            1_001..=3_600_000 => Jump::UpToAnHour,
            3_600_001..=86_400_000 => Jump::UpToADay,
            _ if milliseconds < 1 << 40 => Jump::Days,
            _ if milliseconds < 1 << 47 => Jump::From2To40,
            _ => Jump::From2To47,
        }
    }
}

#[derive(Clone, Copy, Debug, PartialEq, Eq, PartialOrd, Ord)]
pub enum Event {
    // Refusals 2 to 8, copies, clocks.
    NoByte,
    UnknownKind,
    TooShort {
        kind: Hexadecimal,
    },
    TooLong {
        kind: Hexadecimal,
    },
    StationOverSeven,
    NumberZero,
    OutputNotInTable,
    SameNumberOtherBytes,
    /// All bytes but the first are the same.
    SameNumberOtherKind,
    OlderNumberSameBytes,
    OlderNumberOtherBytes,
    LateFrame,
    LateClock,
    Copy {
        late: bool,
        answer: Answered,
    },
    ClockAccepted,
    HighestNumber,
    Jump(Jump),
    /// The greatest time that a frame can name.
    LastMillisecond,
    /// A first arrival at the last output of the largest table.
    LastOutputOf64,

    // First arrivals.
    FirstArrival {
        kind: Hexadecimal,
        answer: Answered,
    },
    PropertyRead {
        property: Hexadecimal,
        answer: Answered,
    },
    PropertyWritten {
        property: Hexadecimal,
        answer: Answered,
        situation: Situation,
    },
    PartOfSecondCleared,
    ElapsedActiveTimeReadAtMost,
    ProgressReadBelowOnePercent,
    BoundMovesWarningLevel,
    /// Fade_Time in a fade, or Ramp_Rate in a ramp, that the movement would
    /// take if it did not keep its own.
    PaceWrittenInMovement {
        ramp: bool,
        slower: bool,
    },
    SlotWritten {
        lit: bool,
        situation: Situation,
        rank: Rank,
    },
    SlotEmptied {
        was_live: bool,
        situation: Situation,
        rank: Rank,
    },

    /// Tagged commands, which are not counted as `Command` and `Copy`.
    Tagged(TaggedEvent),
    /// Where the light of a movement begins or ends.
    Light(LightEvent),
    /// Relays (§3).
    Relay(RelayEvent),
    /// Far jumps and movements (§4).
    Jumped(JumpEvent),
    /// REALs between two units (§5).
    Tie(TieEvent),
    /// Sets of parameters (§6).
    Set(SetEvent),
    /// Fade times of four hours and more (§7).
    FourHours(FourHoursEvent),
    /// Tenants and service stations (§8).
    Tenant(TenantEvent),

    // Commands.
    Command {
        kind: Hexadecimal,
        situation: Situation,
        rank: Rank,
    },
    CommandFromBelowOnePercent,
    LosingCommandLeavesMovement,
    Stepped(Step),
    Stopped(Stop),

    // Movements.
    MovementStarted {
        ramp: bool,
        up: bool,
        replaces: bool,
    },
    MovementReplacedByNone {
        kind: Hexadecimal,
    },
    MovementRanOut {
        ramp: bool,
        up: bool,
    },
    /// The longest fade, lived to its end: four hours since §7.
    LongestFadeRanOut,

    // Durations.
    DurationSet {
        replaces_other_slot: Option<bool>,
        slot_live: bool,
        winner: bool,
    },
    DurationCancelled {
        other_slot: Option<bool>,
    },
    DurationLeftRunning {
        kind: Hexadecimal,
        own_slot: bool,
    },
    DurationFired {
        fired_in: FiredIn,
        slot_live: bool,
    },
    DurationFiredTogetherWith(Coincidence),
    /// The longest duration, lived to its end.
    WholeDayDurationFired,

    // Warnings.
    NoWarningOnlyFor(NoWarning),
    WarningStarted {
        dark: bool,
        lit: bool,
        in_movement: bool,
    },
    WarningStartedAt {
        slot: u8,
    },
    WarningStartedByMinusZero,
    /// A command darkens where a write of zero would start a warning.
    CommandInsteadOfWarning {
        kind: Hexadecimal,
    },
    WarningTurned,
    /// Slot 6 then holds a level that is not shown as it is.
    WarningTurnedOutOfRange,
    WarningRanOut {
        dark: bool,
        lit: bool,
        own_slot_live: bool,
    },
    /// Blink_Warn_Delay is 0 by then and was not at its start, or the reverse.
    WarningRanOutUnderOtherDelay {
        lit: bool,
    },
    /// The longest warning, two days, lived to its end.
    TwoDayWarningRanOut,
    WarningBroken {
        by: Breaker,
        phase: Phase,
    },
    SlotEmptiedInWarning {
        own_slot: bool,
        was_live: bool,
    },
}
