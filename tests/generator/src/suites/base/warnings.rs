//! Sequences that lead to a warning, or to a write that misses one condition for
//! it.

use plain::frame::*;
use plain::settings::*;

use crate::body::Body;
use crate::list::Generator;
use crate::timing::When;
use crate::values::{self, ABSENT};

/// How the slot that is to warn is lit beforehand.
#[derive(Clone, Copy)]
enum Lighting {
    Written,
    Commanded,
    /// The zero comes while the slot still moves.
    Moving,
}

impl Generator {
    /// Leads to a warning, or to a write that misses one condition for it.
    pub(crate) fn plan_warning(&mut self, output: u8) {
        let own = self.random.between(7, 16) as u8;
        let (dark, lit) = self.blink_times();
        self.plan_warning_settings(output, own, dark, lit);

        let duration = self.duration_for_warning(dark, lit);
        if self.random.chance(35) {
            self.plan_duration_elsewhere(output, own, duration);
            self.plan_lighting(output, own, ABSENT);
        } else if self.random.chance(50) {
            self.plan_lighting(output, own, duration);
        } else {
            self.plan_lighting(output, own, ABSENT);
        }
        let mut priority = own;
        if self.random.chance(20) {
            priority = self.miss_a_condition(output, own);
        }
        let bits = values::zero(&mut self.random);
        self.plan_write(output, priority, bits);
    }

    /// All that lets a slot warn, but for its being lit.
    pub(crate) fn plan_warning_settings(&mut self, output: u8, own: u8, dark: u32, lit: u32) {
        self.plan_no_other_slots(output, own);
        self.plan_blink_settings(output, dark, lit);
    }

    pub(crate) fn plan_blink_settings(&mut self, output: u8, dark: u32, lit: u32) {
        self.plan_setting(output, BLINK_TIME, dark);
        self.plan_setting(output, BLINK_WARN_DELAY, lit);
        self.plan_setting(output, BLINK_ENABLE, 1);
        self.plan_setting(output, RELINQUISH_DEFAULT, 0);
    }

    /// Empties what is stronger than the slot, darkens what is weaker.
    pub(crate) fn plan_no_other_slots(&mut self, output: u8, own: u8) {
        for slot in 1..=16 {
            let level = self.output(output).slot(slot);
            if slot == 6 || slot == own || level.is_none() {
                continue;
            }
            if slot < own || (level > Some(0) && self.random.chance(50)) {
                self.plan(output, Body::Empty { priority: slot }, When::Now);
            } else if level > Some(0) {
                self.plan_write(output, slot, 0);
            }
        }
    }

    pub(crate) fn blink_times(&mut self) -> (u32, u32) {
        let random = &mut self.random;
        match random.below(10) {
            0 | 1 => (values::short_blink_time(random), 0),
            2 | 3 => (0, values::short_blink_time(random)),
            4 if random.one_in(20) => (86_400_000, 86_400_000),
            _ => (
                values::short_blink_time(random),
                values::short_blink_time(random),
            ),
        }
    }

    /// A duration that fires at the warning's turn, at its end, or near them.
    fn duration_for_warning(&mut self, dark: u32, lit: u32) -> u32 {
        let wanted = match self.random.below(5) {
            0 => dark,
            1 | 2 => dark + lit,
            3 => dark + lit / 2,
            _ => self.random.between(100, u64::from(dark + lit) + 101) as u32,
        };
        wanted.clamp(100, 86_400_000)
    }

    /// A duration tied to a slot that is not the warning's own: an empty one,
    /// or a weaker one that holds zero.
    fn plan_duration_elsewhere(&mut self, output: u8, own: u8, duration: u32) {
        let mut elsewhere = self.random.pick(&values::PRIORITIES);
        if elsewhere == own {
            elsewhere = 5;
        }
        self.plan_command_priority(output, elsewhere, When::Now);
        if elsewhere > own && self.random.chance(60) {
            self.plan_command(output, GOTO, &[0, duration]);
        } else {
            self.plan_command(output, RELINQUISH, &[duration]);
        }
    }

    fn plan_lighting(&mut self, output: u8, own: u8, duration: u32) {
        let lighting = if duration == ABSENT {
            self.random
                .pick(&[Lighting::Written, Lighting::Commanded, Lighting::Moving])
        } else {
            self.random.pick(&[Lighting::Commanded, Lighting::Moving])
        };
        let level = values::lit_level(&mut self.random);
        match lighting {
            Lighting::Written => self.plan_write(output, own, level),
            Lighting::Commanded => {
                self.plan_command_priority(output, own, When::Now);
                self.plan_command(output, GOTO, &[level, duration]);
            }
            Lighting::Moving => {
                let fade_time = values::short_time(&mut self.random);
                self.plan_command_priority(output, own, When::Now);
                self.plan_command(output, FADE_TO_OVER, &[level, fade_time, duration]);
            }
        }
    }

    /// Spoils one condition for a warning; the priority for the zero.
    fn miss_a_condition(&mut self, output: u8, own: u8) -> u8 {
        let lit = values::lit_level(&mut self.random);
        match self.random.below(7) {
            0 => self.plan_property(output, BLINK_ENABLE, 0),
            1 => {
                self.plan_property(output, BLINK_TIME, 0);
                self.plan_property(output, BLINK_WARN_DELAY, 0);
            }
            2 => self.plan_property(output, RELINQUISH_DEFAULT, lit),
            3 => {
                let stronger = self.random.pick(&[1, 2, 3, 4, 5]);
                self.plan_write(output, stronger, lit);
            }
            4 if own < 16 => {
                let weaker = self.random.between(u64::from(own) + 1, 16) as u8;
                self.plan_write(output, weaker, lit);
            }
            5 => {
                // With nothing else live, the output was dark before.
                self.plan(output, Body::Empty { priority: own }, When::Now);
            }
            _ => {
                let strong = self.random.between(1, 5) as u8;
                self.plan(output, Body::Empty { priority: own }, When::Now);
                self.plan_write(output, strong, lit);
                return strong;
            }
        }
        own
    }
}
