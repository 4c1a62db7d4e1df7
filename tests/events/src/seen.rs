//! One frame, by what stood before it and what stands after it.

use plain::frame::{self, STOP, TAGGED_COMMAND};
use plain::last_command::LastCommand;
use plain::panel::FirstArrival;
use plain::{Answer, Output, Panel, Parameters};

/// All that an observer has of a frame.
pub struct Seen<'a> {
    pub bytes: &'a [u8],
    pub answer: Answer,
    /// The outputs and the time before it.
    pub before: &'a [Output],
    pub time: u64,
    /// The list before it.
    pub arrivals: &'a [FirstArrival],
    pub clocks: &'a [u64],
    pub after: &'a Panel,
}

impl<'a> Seen<'a> {
    pub fn is_first_arrival(&self) -> bool {
        self.after.first_arrivals().len() > self.arrivals.len()
    }

    pub fn is_accepted_clock(&self) -> bool {
        self.after.accepted_clocks().len() > self.clocks.len()
    }

    /// Milliseconds by which it has taken the panel on.
    pub fn jump(&self) -> u64 {
        self.after.time() - self.time
    }

    /// The latest first arrival of the frame's station before it.
    pub fn latest_of_station(&self) -> Option<&'a FirstArrival> {
        let station = frame::station(self.bytes);
        self.arrivals
            .iter()
            .rev()
            .find(|arrival| arrival.station == station)
    }
}

/// A first arrival and the output it is for.
pub struct Act<'a> {
    pub bytes: &'a [u8],
    pub answer: Answer,
    /// The output brought to the frame's time; its burning time is not counted.
    pub arrived: &'a Output,
    /// After the act.
    pub after: &'a Output,
    pub parameters: &'a Parameters,
}

impl Act<'_> {
    pub fn is_done(&self) -> bool {
        self.answer == Answer::Done
    }

    pub fn is_refused(&self) -> bool {
        matches!(self.answer, Answer::Refused(_))
    }

    pub fn kind(&self) -> u8 {
        self.bytes[0]
    }

    /// The command that was carried out, in either form.
    pub fn command(&self) -> Option<Carried> {
        let command = LastCommand::of_frame(self.bytes).filter(|_| self.is_done())?;
        Some(Carried {
            kind: STOP + command.operation,
            tagged: self.kind() == TAGGED_COMMAND,
            slot: self.arrived.settings.lighting_command_priority,
            command,
        })
    }

    pub fn starts_warning(&self) -> bool {
        self.arrived.warning.is_none() && self.after.warning.is_some()
    }
}

#[derive(Clone, Copy)]
pub struct Carried {
    pub command: LastCommand,
    /// The plain kind of its operation.
    pub kind: u8,
    pub tagged: bool,
    /// The slot that it acts on.
    pub slot: u8,
}
