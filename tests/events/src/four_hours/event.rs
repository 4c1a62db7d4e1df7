//! The events of §7.

use plain::Parameter;

use crate::edges::WholeField;
use crate::set::Moment;

#[derive(Clone, Copy, Debug, PartialEq, Eq, PartialOrd, Ord)]
pub enum FourHoursEvent {
    /// A panel is started with this longest fade or duration; with none where
    /// the heading leaves it out.
    Started {
        parameter: Parameter,
        number: Option<u32>,
    },
    /// 17, for this number alone.
    NotStarted { parameter: Parameter, number: u32 },
    /// A fade time where the set has this longest fade; a duration or a blink
    /// time where it has that too, and the longest duration is a day.
    Whole {
        field: WholeField,
        value: u32,
        longest: u32,
        taken: bool,
    },
    /// The same in a list whose heading leaves both longest numbers out.
    LeftOut {
        field: WholeField,
        value: u32,
        taken: bool,
    },
    /// A longer fade time in a frame that is refused for something else first.
    RefusedBefore { field: WholeField, refusal: u8 },
    /// A longer fade time beside a duration that is out of range too.
    BesideBadDuration { field: WholeField },
    /// A longer fade time in a copy: 12 once more.
    Copy { field: WholeField },
    /// A longer fade time in a frame that never arrives.
    NeverArrives { field: WholeField, refusal: u8 },
    /// A fade of four hours, by where its length came from.
    Looked { by: WholeField, moment: Moment },
}
