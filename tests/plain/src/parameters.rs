//! §6: "The start takes a set of parameters", and "they are kept in the panel's
//! record"; with them the word of §8 that marks stations as tenants.

use std::ops::RangeInclusive;

use crate::settings::{FOUR_HOURS, LONGEST, SHORTEST};

/// As lists name the word of §8.
pub const TENANTS: &str = "tenants";

/// Any numbers; those that may be started are told by `out_of_range`.
#[derive(Clone, Copy, Debug, PartialEq, Eq)]
pub struct Parameters {
    pub stations: u32,
    pub outputs: u32,
    /// The longest fade time and the longest duration, in milliseconds.
    pub fade: u32,
    pub duration: u32,
    /// §8: "a 32-bit word's bit n, if set, makes station n a tenant, else
    /// service". It is never out of range: bits at or above the number of
    /// stations mean nothing.
    pub tenants: u32,
}

#[derive(Clone, Copy, Debug, PartialEq, Eq, PartialOrd, Ord)]
pub enum Parameter {
    Stations,
    Outputs,
    Fade,
    Duration,
}

impl Parameter {
    /// As §6 lists them.
    pub const ALL: [Parameter; 4] = [
        Parameter::Stations,
        Parameter::Outputs,
        Parameter::Fade,
        Parameter::Duration,
    ];

    /// As lists name it.
    pub fn name(self) -> &'static str {
        match self {
            Parameter::Stations => "stations",
            Parameter::Outputs => "outputs",
            Parameter::Fade => "fade",
            Parameter::Duration => "duration",
        }
    }

    /// "Stations 1 to 32, outputs 1 to 64, longest fade time 100 to", since §7,
    /// 14,400,000; the longest duration ends at 86,400,000 as it did.
    pub fn range(self) -> RangeInclusive<u32> {
        match self {
            Parameter::Stations => 1..=32,
            Parameter::Outputs => 1..=64,
            Parameter::Fade => SHORTEST..=FOUR_HOURS,
            Parameter::Duration => SHORTEST..=LONGEST,
        }
    }
}

impl Parameters {
    /// "The old panel is the set 8, its output count", and §7: "The old panel's
    /// set now ends in 14,400,000, 86,400,000."
    pub fn of_old_panel(outputs: u32) -> Parameters {
        Parameters {
            stations: 8,
            outputs,
            fade: FOUR_HOURS,
            duration: LONGEST,
            tenants: 0,
        }
    }

    pub fn of(&self, parameter: Parameter) -> u32 {
        match parameter {
            Parameter::Stations => self.stations,
            Parameter::Outputs => self.outputs,
            Parameter::Fade => self.fade,
            Parameter::Duration => self.duration,
        }
    }

    pub fn set(&mut self, parameter: Parameter, number: u32) {
        match parameter {
            Parameter::Stations => self.stations = number,
            Parameter::Outputs => self.outputs = number,
            Parameter::Fade => self.fade = number,
            Parameter::Duration => self.duration = number,
        }
    }

    /// The first one; nothing of a set that may be started.
    pub fn out_of_range(&self) -> Option<Parameter> {
        Parameter::ALL
            .into_iter()
            .find(|parameter| !parameter.range().contains(&self.of(*parameter)))
    }

    /// The mark of a station, 0 to 31.
    pub fn is_tenant(&self, station: u8) -> bool {
        self.tenants / 2_u32.pow(station.into()) % 2 == 1
    }

    /// "Fade times: 100 to" the longest fade, which §7 ends at four hours.
    pub fn is_fade_time(&self, milliseconds: u32) -> bool {
        (SHORTEST..=self.fade).contains(&milliseconds)
    }

    /// "0 cancels, 100 to 86,400,000 sets", now to the longest duration.
    pub fn is_duration(&self, milliseconds: u32) -> bool {
        milliseconds == 0 || (SHORTEST..=self.duration).contains(&milliseconds)
    }

    /// "A fresh Fade_Time is the smaller of 1,000 and the longest fade."
    pub fn fresh_fade_time(&self) -> u32 {
        self.fade.min(1_000)
    }
}
