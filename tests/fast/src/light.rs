//! Burning time by the light itself (§2): the millisecond from t to t + 1
//! counts if Progress_Value at t is above zero.
//!
//! A movement never turns back, so its lit moments follow one another: it is
//! enough to know the first of them and the first one after the last.

use std::ops::Range;

use crate::output::{Movement, Output, Pace};

impl Output {
    /// Counts the milliseconds from `now` to `until`, between which nothing
    /// falls due.
    pub fn burn(&mut self, now: u64, until: u64) {
        let milliseconds = match &self.movement {
            Some(movement) => {
                let lit = movement.lit_moments();
                let first = now.max(lit.start);
                let end = until.min(lit.end);
                end.saturating_sub(first)
            }
            None if self.present_value() > 0 => until - now,
            None => 0,
        };
        self.burning += milliseconds;
    }
}

impl Movement {
    /// The moments from the beginning to before the end at which the level is
    /// above zero.
    fn lit_moments(&self) -> Range<u64> {
        match (self.from, self.to) {
            // Only a lent record has a movement that goes nowhere.
            (0, 0) => self.end()..self.end(),
            (0, _) => self.moment_of(1)..self.end(),
            (from, 0) => self.began..self.moment_of(from),
            _ => self.began..self.end(),
        }
    }

    /// The first moment at which the level is `units` away from where it began.
    fn moment_of(&self, units: u32) -> u64 {
        self.began + u64::from(self.gone_when(units))
    }

    /// The same in milliseconds since the beginning, for which 32 bits are
    /// enough (§4). The way is not 0; a lent ramp may come there only past its
    /// end, and its length stands for that.
    fn gone_when(&self, units: u32) -> u32 {
        let units = u64::from(units);
        let length = u64::from(self.length);
        let way = u64::from(self.from.abs_diff(self.to));
        let gone = match self.pace {
            Pace::Fade => (units * length).div_ceil(way),
            // Only a lent record has a ramp that stands still.
            Pace::Ramp {
                units_per_second: 0,
            } => length,
            Pace::Ramp { units_per_second } => (1_000 * units)
                .div_ceil(units_per_second.into())
                .min(length),
        };
        gone as u32
    }
}
