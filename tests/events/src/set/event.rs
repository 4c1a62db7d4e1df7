//! The events of §6.

use plain::Parameter;

use crate::edges::WholeField;

/// How a whole number stands to the longest that the set allows.
#[derive(Clone, Copy, Debug, PartialEq, Eq, PartialOrd, Ord)]
pub enum Longest {
    /// It is that, and is taken.
    Reached,
    /// It is one more, and is refused 12.
    Passed,
}

/// When a movement is looked at, by a read of Progress_Value or In_Process.
#[derive(Clone, Copy, Debug, PartialEq, Eq, PartialOrd, Ord)]
pub enum Moment {
    OnTheWay,
    LastMillisecond,
    /// In the millisecond in which it is over.
    Over,
}

impl Moment {
    pub const ALL: [Moment; 3] = [Moment::OnTheWay, Moment::LastMillisecond, Moment::Over];
}

/// What sort of movement it is that is looked at.
#[derive(Clone, Copy, Debug, PartialEq, Eq, PartialOrd, Ord)]
pub enum Lasting {
    /// FADE_TO by a Fade_Time that was never written.
    FreshFadeTime,
    /// A fade as long as the longest fade.
    LongestFade,
    /// A ramp of 800,000 ms, longer than the longest fade.
    SlowestRamp,
}

/// Of a station, by its number.
#[derive(Clone, Copy, Debug, PartialEq, Eq, PartialOrd, Ord)]
pub enum Place {
    /// The last one, and its frame is a first arrival.
    Last,
    /// The first number that no station has: refused 4.
    Beyond,
}

#[derive(Clone, Copy, Debug, PartialEq, Eq, PartialOrd, Ord)]
pub enum SetEvent {
    /// The words after `outputs C` of a list whose panel is started.
    Words([Option<Parameter>; 3]),
    /// Of two numbers out of range the first one is named.
    Named {
        first: Parameter,
        second: Parameter,
    },
    /// A fade time or a duration, where the set has this longest one.
    Whole {
        field: WholeField,
        longest: u32,
        at: Longest,
    },
    /// A fade time or a duration above the one longest number and not above the
    /// other: the wrong one would decide otherwise.
    Between {
        field: WholeField,
        taken: bool,
    },
    /// A blink time of a day, or one more, where both longest numbers are less.
    Day {
        field: WholeField,
        at: Longest,
    },
    /// A blink time that is taken though it is one more than a longest number.
    Above {
        field: WholeField,
        than: Parameter,
    },
    /// Property 02 is read, and it was never written.
    FreshRead {
        longest: u32,
    },
    Looked {
        lasting: Lasting,
        longest: u32,
        moment: Moment,
    },
    /// The longest duration empties its slot.
    DurationFires {
        longest: u32,
    },
    Station {
        stations: u32,
        place: Place,
    },
    /// A copy of a station's latest frame, in a panel of 30 or 32 stations.
    Copy {
        stations: u32,
        station: u8,
    },
    /// A first arrival under a number that another station has passed, in such a
    /// panel.
    OwnNumber {
        stations: u32,
        station: u8,
    },
}
