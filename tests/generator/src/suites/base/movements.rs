//! Sequences that start movements, live whole days and bring outputs to rest.

use plain::frame::*;
use plain::settings::*;

use crate::body::Body;
use crate::list::Generator;
use crate::timing::When;
use crate::values::{self, ABSENT, LONGEST};

impl Generator {
    /// Commands act on a slot that wins.
    pub(crate) fn plan_winning_priority(&mut self, output: u8, when: When) {
        let winner = self.output(output).winner().unwrap_or(16);
        let stronger: Vec<u8> = values::PRIORITIES
            .into_iter()
            .filter(|priority| *priority <= winner)
            .collect();
        let priority = self.random.pick(&stronger);
        if self.output(output).settings.lighting_command_priority != priority {
            self.plan_command_priority(output, priority, when);
        }
    }

    /// Starts a movement of a slot that wins.
    pub(crate) fn plan_movement(&mut self, output: u8) {
        self.plan_winning_priority(output, When::Whenever);
        let level = values::good_level(&mut self.random);
        let fade_time = values::short_time(&mut self.random);
        let duration = match self.random.below(10) {
            // In the millisecond of the movement's end, and beside it.
            0 | 1 => fade_time,
            2 => (fade_time - 1).max(100),
            3 => fade_time + 1,
            4 => values::good_duration(&mut self.random),
            _ => ABSENT,
        };
        match self.random.below(4) {
            0 => self.plan_command(output, FADE_TO, &[level, duration]),
            1 | 2 => self.plan_command(output, FADE_TO_OVER, &[level, fade_time, duration]),
            _ => {
                let kind = self.random.pick(&[RAMP_TO, RAMP_TO_AT_RATE]);
                let rate = values::usual_percentage(&mut self.random);
                if kind == RAMP_TO {
                    self.plan_command(output, kind, &[level, duration]);
                } else {
                    self.plan_command(output, kind, &[level, rate, duration]);
                }
            }
        }
    }

    /// In a movement, ties a duration to another slot, to fire with the
    /// movement's end or before it.
    pub(crate) fn plan_second_slot_with_duration(&mut self, output: u8) {
        let Some(movement) = &self.output(output).movement else {
            return;
        };
        let left = movement.length - movement.gone;
        let owner = movement.owner;
        if left < 100 {
            return;
        }
        let mut other = self.random.pick(&values::PRIORITIES);
        if other == owner {
            other = if owner == 16 { 15 } else { 16 };
        }
        self.plan_command_priority(output, other, When::Now);
        let duration = if self.random.chance(60) {
            left
        } else {
            self.random.between(100, left)
        } as u32;
        let level = values::good_level(&mut self.random);
        if other > owner && self.random.chance(60) {
            self.plan_command(output, GOTO, &[level, duration]);
        } else {
            self.plan_command(output, RELINQUISH, &[duration]);
        }
    }

    /// The longest movement, duration or warning, lived to its end.
    pub(crate) fn plan_whole_day(&mut self, output: u8) {
        let level = values::lit_level(&mut self.random);
        self.plan_no_other_slots(output, 16);
        self.plan_command_priority(output, 16, When::Now);
        self.plan_property(output, RELINQUISH_DEFAULT, 0);
        let mut length = u64::from(LONGEST);
        // Few lists live a day: the first one of a list is a fade, whose level
        // shows on the way, and what comes later is not. Since §7 such a fade is
        // refused 12.
        let choices: &[u8] = match self.budget > 3 * length {
            true => &[0, 1],
            false => &[2, 3, 3],
        };
        match self.random.pick(choices) {
            0 => self.plan_command(output, FADE_TO_OVER, &[level, LONGEST, ABSENT]),
            1 => self.plan_command(output, FADE_TO_OVER, &[level, LONGEST, LONGEST]),
            2 => self.plan_command(output, GOTO, &[level, LONGEST]),
            _ => {
                self.plan_property(output, BLINK_ENABLE, 1);
                self.plan_property(output, BLINK_TIME, LONGEST);
                self.plan_property(output, BLINK_WARN_DELAY, LONGEST);
                self.plan_command(output, GOTO, &[level, 0]);
                self.plan_write(output, 16, 0);
                length *= 2;
            }
        }
        // Looks into it on the way, just before the end and at the end.
        let on_the_way = self.random.between(1, length - 2);
        for (property, jump) in [
            (PROGRESS_VALUE, on_the_way),
            (PROGRESS_VALUE, length - 1 - on_the_way),
            (IN_PROCESS, 0),
            (PRESENT_VALUE, 1),
            (ELAPSED_ACTIVE_TIME, 0),
        ] {
            self.plan(output, Body::Read { property }, When::After(jump));
        }
    }

    /// Ends a warning and a duration, then a movement.
    pub(crate) fn plan_calm(&mut self, output: u8) {
        self.plan_command(output, STOP, &[0]);
        let maximum = plain::real::level_as_real(self.output(output).settings.maximum);
        self.plan_property(output, MAXIMUM, maximum);
    }

    /// Brings every output to rest, then jumps by years or centuries.
    pub(crate) fn plan_calm_and_great_jump(&mut self, output: u8) {
        for other in 0..self.panel.outputs().len() as u8 {
            if !self.output(other).nothing_pending() {
                self.plan_calm(other);
            }
        }
        let jump = match self.random.below(4) {
            0 => 1 << 47,
            1 => 1 << self.random.between(38, 46),
            2 if self.random.one_in(10) => LAST_TIME,
            _ => self.random.between(86_400_001, 1 << 42),
        };
        let body = if self.random.chance(50) {
            let property = ELAPSED_ACTIVE_TIME;
            Body::Read { property }
        } else {
            self.any_read()
        };
        self.plan(output, body, When::After(jump));
    }
}
