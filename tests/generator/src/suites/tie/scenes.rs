//! Scenes: REALs exactly between two units, and beside them, in every
//! field, so that the unit they become is read or shows in what follows.

use plain::frame::*;
use plain::real::{self, level_as_real};
use plain::settings::*;

use crate::list::Generator;
use crate::timing::When;
use crate::values::{ABSENT, PRIORITIES, REAL_HUNDRED_PERCENT, REAL_ONE_PERCENT};

use super::values as ties;

/// Two properties of which one may not be above the other, with the least and
/// the greatest of their values.
#[derive(Clone, Copy)]
struct Compared {
    lower: (u8, u32),
    higher: (u8, u32),
}

const BOUNDS: Compared = Compared {
    lower: (MINIMUM, REAL_ONE_PERCENT),
    higher: (MAXIMUM, REAL_HUNDRED_PERCENT),
};
const RELAY_VALUES: Compared = Compared {
    lower: (BINARY_INACTIVE_VALUE, 0),
    higher: (BINARY_ACTIVE_VALUE, REAL_HUNDRED_PERCENT),
};

impl Generator {
    pub(crate) fn plan_tie(&mut self, output: u8) {
        match self.random.below(23) {
            0 | 1 => self.plan_tie_in_slot(output),
            2..=6 => self.plan_tie_of_command(output),
            7..=9 => {
                for _ in 0..self.random.between(1, 3) {
                    self.plan_tie_of_property(output);
                }
            }
            10..=16 => self.plan_ties_of_rates_and_steps(output),
            _ => {
                for _ in 0..self.random.between(1, 3) {
                    self.plan_comparison_at_a_tie(output);
                }
            }
        }
    }

    /// As far apart as can be.
    fn plan_apart(&mut self, output: u8, compared: Compared) {
        for (property, value) in [compared.higher, compared.lower] {
            self.plan_setting(output, property, value);
        }
    }

    /// Whatever they will have become by then.
    fn plan_apart_again(&mut self, output: u8, compared: Compared) {
        for (property, value) in [compared.higher, compared.lower] {
            self.plan_property(output, property, value);
        }
    }

    fn plan_tie_in_slot(&mut self, output: u8) {
        let priority = self.random.pick(&PRIORITIES);
        for _ in 0..self.random.between(1, 3) {
            let bits = ties::rounded_or_raised(&mut self.random);
            self.plan_write(output, priority, bits);
            self.plan_read(output, FIRST_SLOT + priority - 1, When::Now);
        }
    }

    /// The level is in the slot at once, whatever the light does and whichever
    /// slot wins. What is kept of the command is what was written.
    fn plan_tie_of_command(&mut self, output: u8) {
        let priority = self.random.pick(&PRIORITIES);
        self.plan_apart(output, BOUNDS);
        self.plan_command_priority(output, priority, When::Now);
        for _ in 0..self.random.between(1, 4) {
            let kind = self
                .random
                .pick(&[FADE_TO, FADE_TO_OVER, RAMP_TO, RAMP_TO_AT_RATE, GOTO]);
            let level = ties::rounded_or_raised(&mut self.random);
            self.plan_command_to(output, kind, level);
            self.plan_read(output, FIRST_SLOT + priority - 1, When::Now);
        }
        self.plan_read(output, LAST_LEVEL, When::Now);
    }

    /// Read back in units, or bit for bit.
    fn plan_tie_of_property(&mut self, output: u8) {
        let property = self.random.pick(&[
            RELINQUISH_DEFAULT,
            RAMP_RATE,
            STEP_INCREMENT,
            MINIMUM,
            MAXIMUM,
            BINARY_ACTIVE_VALUE,
            BINARY_INACTIVE_VALUE,
        ]);
        let value = match property {
            RAMP_RATE | STEP_INCREMENT => ties::rate_or_step(&mut self.random),
            MINIMUM | MAXIMUM => ties::level(&mut self.random),
            _ => ties::rounded_or_raised(&mut self.random),
        };
        let compared = match property {
            MINIMUM | MAXIMUM => Some(BOUNDS),
            BINARY_ACTIVE_VALUE | BINARY_INACTIVE_VALUE => Some(RELAY_VALUES),
            _ => None,
        };
        if let Some(compared) = compared {
            self.plan_apart(output, compared);
        }
        self.plan_property(output, property, value);
        self.plan_read(output, property, When::Now);
        match compared {
            Some(compared) => self.plan_apart_again(output, compared),
            // Else nothing darkens any more.
            None if property == RELINQUISH_DEFAULT => self.plan_property(output, property, 0),
            None => {}
        }
    }

    fn plan_ties_of_rates_and_steps(&mut self, output: u8) {
        let own = self.plan_winning_slot(output);
        self.plan_command_priority(output, own, When::Now);
        for _ in 0..self.random.between(1, 3) {
            match self.random.chance(50) {
                true => self.plan_tie_of_rate(output),
                false => self.plan_tie_of_step(output),
            }
        }
    }

    /// After a second a ramp is a unit ahead of one at the next lower rate; so
    /// it lasts that long, if there is room. A slow one over four percent is
    /// some milliseconds longer, too, than one at the next higher rate.
    fn plan_tie_of_rate(&mut self, output: u8) {
        let slow = self.random.chance(30);
        let rate = match slow {
            true => ties::slow_rate(&mut self.random),
            false => ties::rate_or_step(&mut self.random),
        };
        let units = real::rate_or_step(rate).expect("a rate");
        let way = match slow {
            true => 4 * real::ONE_PERCENT,
            false => (units + units / 4).clamp(real::ONE_PERCENT, real::HUNDRED_PERCENT),
        };
        let (from, to) = self.random.pick(&[(0, way), (way, 0)]);
        self.plan_command(output, GOTO, &[level_as_real(from), 0]);
        if self.random.chance(50) {
            self.plan_property(output, RAMP_RATE, rate);
            self.plan_command(output, RAMP_TO, &[level_as_real(to), ABSENT]);
            self.plan_read(output, RAMP_RATE, When::Now);
        } else {
            let fields = [level_as_real(to), rate, ABSENT];
            self.plan_command(output, RAMP_TO_AT_RATE, &fields);
            self.plan_read(output, LAST_RATE, When::Now);
        }
        let almost = self.random.between(700, 1_000);
        self.plan_read(output, PROGRESS_VALUE, When::After(almost));
        self.plan_read(output, PROGRESS_VALUE, When::After(1_000 - almost));
        let last = When::Left(1);
        let when = self.random.pick(&[last, last, When::Due]);
        self.plan_read(output, IN_PROCESS, when);
    }

    /// From even and odd levels, and never beyond Min or Max.
    fn plan_tie_of_step(&mut self, output: u8) {
        let step = ties::rate_or_step(&mut self.random);
        let units = real::rate_or_step(step).expect("a step");
        let room = (real::HUNDRED_PERCENT - units).saturating_sub(real::ONE_PERCENT);
        let beside = self.random.below(u64::from(room) + 1) as u32;
        let lowest = match room {
            // Too far but for a step up from the dark.
            0 => 0,
            _ => real::ONE_PERCENT + beside,
        };
        let up = room == 0 || self.random.chance(50);
        let (from, of_setting, by) = match up {
            true => (lowest, STEP_UP, STEP_UP_BY),
            false => (lowest + units, STEP_DOWN, STEP_DOWN_BY),
        };
        self.plan_command(output, GOTO, &[level_as_real(from), 0]);
        if self.random.chance(50) {
            self.plan_property(output, STEP_INCREMENT, step);
            self.plan_command(output, of_setting, &[ABSENT]);
            self.plan_read(output, STEP_INCREMENT, When::Now);
        } else {
            self.plan_command(output, by, &[step, ABSENT]);
            self.plan_read(output, LAST_STEP, When::Now);
        }
        self.plan_read(output, PRESENT_VALUE, When::Now);
    }

    /// One of two properties is written with a unit, and the other one with the
    /// tie above or below that unit: refusals 13 and 16 then hang on where the
    /// tie goes, whichever of the two comes first.
    fn plan_comparison_at_a_tie(&mut self, output: u8) {
        let compared = self.random.pick(&[BOUNDS, RELAY_VALUES]);
        let percent = u64::from(real::ONE_PERCENT);
        let unit = self.random.between(percent + 1, 100 * percent - 3) as u32;
        // Halves that go up are no news.
        let unit = match self.random.chance(75) {
            true => unit / 2 * 2,
            false => unit,
        };
        let tie = ties::about_tie_above(&mut self.random, unit);
        let exact = level_as_real(self.random.pick(&[unit, unit + 1]));
        let (lower, higher) = (compared.lower.0, compared.higher.0);
        let (first, second) = self.random.pick(&[(lower, higher), (higher, lower)]);
        let (before, after) = self.random.pick(&[(exact, tie), (tie, exact)]);
        self.plan_apart(output, compared);
        for (property, value) in [(first, before), (second, after)] {
            self.plan_property(output, property, value);
        }
        self.plan_read(output, second, When::Now);
        self.plan_read(output, first, When::Now);
        self.plan_apart_again(output, compared);
    }
}
