//! The set of numbers that a panel is started with (§6, §8), and what is lent
//! beside the two tables.

use crate::output::{Output, LONGEST_TIME, SHORTEST_TIME};
use crate::station::Station;

/// The longest fade time and the longest duration are in milliseconds.
#[derive(Clone, Copy, Debug, PartialEq, Eq)]
pub struct Parameters {
    pub stations: u32,
    pub outputs: u32,
    pub longest_fade: u32,
    pub longest_duration: u32,
    /// Bit n marks station n as a tenant (§8).
    pub tenants: u32,
}

/// The panel's own record.
#[derive(Clone, Copy, Debug)]
pub struct PanelRecord {
    pub time: u64,
    pub parameters: Parameters,
}

const MOST_STATIONS: u32 = 32;
const MOST_OUTPUTS: u32 = 64;
/// Four hours: a dawn. No panel has a longer fade.
const LONGEST_FADE: u32 = 14_400_000;
/// How long a ramp takes from 0 to 100 percent at the least rate.
const LONGEST_RAMP: u32 = 800_000;
/// A fresh Fade_Time where fades may last that long.
const USUAL_FADE: u32 = 1_000;

impl Parameters {
    /// Whether a panel may be started with them.
    pub fn are_in_range(&self) -> bool {
        (1..=MOST_STATIONS).contains(&self.stations)
            && (1..=MOST_OUTPUTS).contains(&self.outputs)
            && (SHORTEST_TIME..=LONGEST_FADE).contains(&self.longest_fade)
            && (SHORTEST_TIME..=LONGEST_TIME).contains(&self.longest_duration)
    }

    /// Whether the tables have just as many records.
    pub fn fit(&self, outputs: &[Output], stations: &[Station]) -> bool {
        outputs.len() == self.outputs as usize && stations.len() == self.stations as usize
    }

    /// No station has a number above 31.
    pub fn is_tenant(&self, station: u8) -> bool {
        self.tenants & 1 << station != 0
    }

    pub fn fresh_fade(&self) -> u32 {
        USUAL_FADE.min(self.longest_fade)
    }

    /// A ramp may outlast every fade.
    pub fn longest_movement(&self) -> u32 {
        LONGEST_RAMP.max(self.longest_fade)
    }
}
