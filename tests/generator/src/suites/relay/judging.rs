//! Scenes: Present_Value is brought to the two values of a relay and to
//! the units beside them, in every way in which it moves.

use events::relay::{Stand, STANDS};
use plain::frame::*;
use plain::real::{self, level_as_real};
use plain::settings::*;

use crate::body::Body;
use crate::list::Generator;
use crate::suites::light::{MIDDLE_PRIORITIES, WEAKEST};
use crate::timing::When;
use crate::values::{self, ABSENT, EDGE_TIMES, REAL_HUNDRED_PERCENT, REAL_ONE_PERCENT, SHORTEST};

/// What a scene aims at.
#[derive(Clone, Copy)]
pub(crate) struct Aim {
    /// Where Present_Value comes to, in units.
    pub level: u32,
    /// The two values, so that it stands to them as is wanted.
    pub active: u32,
    pub inactive: u32,
    /// A level that leaves the relay as it is to be before, in units.
    pub before: u32,
}

impl Aim {
    pub(crate) fn real(&self) -> u32 {
        level_as_real(self.level)
    }

    pub(crate) fn real_before(&self) -> u32 {
        level_as_real(self.before)
    }

    /// The level lies between the two values, where the relay stays as it was.
    pub(crate) fn between(self) -> Aim {
        Aim {
            active: self.level + 300,
            inactive: self.level - 300,
            ..self
        }
    }
}

impl Generator {
    pub(crate) fn plan_relay(&mut self, output: u8) {
        match self.random.below(20) {
            0..=9 => self.plan_judging(output),
            10..=14 => self.plan_relay_in_warning(output),
            15 | 16 => self.plan_turns_on_the_way(output),
            _ => self.plan_value_beside_the_other(output),
        }
        if self.random.chance(30) {
            let polarity = match self.random.chance(20) {
                true => self.random.pick(&EDGE_TIMES),
                false => self.random.below(2) as u32,
            };
            self.plan_property(output, POLARITY, polarity);
        }
        let value = self.random.below(2) as u32;
        let unknown = self.random.pick(&[0x15, 0x16, 0x1C]);
        match self.random.below(20) {
            // Neither can be written.
            0 => self.plan_property(output, BINARY_PRESENT_VALUE, value),
            1 => self.plan_property(output, RELAY_STATE, value),
            2 => self.plan_read(output, unknown, When::Now),
            _ => {}
        }
        self.plan_look_at_relay(output, When::Now);
        if self.random.chance(30) {
            self.plan_look_at_relay(output, When::Due);
        }
    }

    pub(crate) fn some_aim(&mut self) -> Aim {
        // With room for two percent on either side.
        let level = match self.random.chance(50) {
            true => self.random.between(3, 97) as u32 * real::ONE_PERCENT,
            false => {
                let percent = u64::from(real::ONE_PERCENT);
                self.random.between(3 * percent, 97 * percent) as u32
            }
        };
        let stand = self.random.pick(&STANDS);
        let wide = self.random.between(2, 2 * u64::from(real::ONE_PERCENT)) as u32;
        let gap = self.random.pick(&[wide, wide, 2]);
        let (active, inactive) = match stand {
            Stand::JustBelowInactive => (level + 1 + gap, level + 1),
            Stand::AtInactive => (level + gap, level),
            Stand::JustAboveInactive => (level + gap, level - 1),
            Stand::JustBelowActive => (level + 1, level - gap),
            Stand::AtActive => (level, level - gap),
            Stand::JustAboveActive => (level - 1, level - 1 - gap),
            _ => (level + gap, level - gap),
        };
        let before = self.random.pick(&[
            0,
            real::ONE_PERCENT,
            real::HUNDRED_PERCENT,
            real::HUNDRED_PERCENT,
        ]);
        Aim {
            level,
            active,
            inactive,
            before,
        }
    }

    /// In an order in which neither is refused.
    pub(crate) fn plan_relay_values(&mut self, output: u8, active: u32, inactive: u32) {
        let writes = [
            (BINARY_ACTIVE_VALUE, level_as_real(active)),
            (BINARY_INACTIVE_VALUE, level_as_real(inactive)),
        ];
        let raised_first = active > self.output(output).settings.binary_inactive_value;
        let [first, second] = match raised_first {
            true => writes,
            false => [writes[1], writes[0]],
        };
        for (property, value) in [first, second] {
            self.plan_setting(output, property, value);
        }
    }

    /// No other slot is live, and all levels are shown as they are.
    pub(crate) fn plan_alone(&mut self, output: u8, own: u8) {
        for slot in values::PRIORITIES {
            if slot != own && self.output(output).slot(slot).is_some() {
                self.plan(output, Body::Empty { priority: slot }, When::Now);
            }
        }
        self.plan_setting(output, MINIMUM, REAL_ONE_PERCENT);
        self.plan_setting(output, MAXIMUM, REAL_HUNDRED_PERCENT);
        self.plan_command_priority(output, own, When::Now);
    }

    /// Present_Value comes to a level by GOTO, or by a movement from another
    /// one that is still under way.
    pub(crate) fn plan_shown(&mut self, output: u8, level: u32, duration: u32) {
        if self.random.chance(60) {
            self.plan_command(output, GOTO, &[level, duration]);
            return;
        }
        let from = self
            .random
            .pick(&[0, REAL_ONE_PERCENT, REAL_HUNDRED_PERCENT]);
        self.plan_command(output, GOTO, &[from, 0]);
        let command = match self.random.chance(50) {
            true => (FADE_TO_OVER, 5_000),
            false => (RAMP_TO_AT_RATE, 10.0_f32.to_bits()),
        };
        self.plan_command(output, command.0, &[level, command.1, duration]);
    }

    fn plan_judging(&mut self, output: u8) {
        let aim = self.some_aim();
        let own = self.random.pick(&MIDDLE_PRIORITIES);
        self.plan_alone(output, own);
        self.plan_relay_values(output, aim.active, aim.inactive);
        match self.random.below(20) {
            0 => {
                self.plan_shown(output, aim.real_before(), 0);
                self.plan_write(output, own, aim.real());
            }
            1..=3 => self.plan_slot_beneath(output, own, aim),
            4 => self.plan_default_judged(output, own, aim),
            5 | 6 => self.plan_bound_judged(output, aim),
            7..=9 => self.plan_value_across(output, aim),
            10 => self.plan_stop_judged(output, aim),
            11..=14 => self.plan_step_judged(output, aim),
            _ => {
                self.plan_shown(output, aim.real_before(), 0);
                self.plan_command_to_aim(output, aim);
            }
        }
    }

    /// A fade, a ramp or a GOTO: Present_Value is there at once, whatever the
    /// light does.
    pub(crate) fn plan_command_to_aim(&mut self, output: u8, aim: Aim) {
        let kind = self
            .random
            .pick(&[FADE_TO, FADE_TO_OVER, RAMP_TO, RAMP_TO_AT_RATE, GOTO]);
        let level = aim.real();
        match kind {
            FADE_TO_OVER => self.plan_command(output, kind, &[level, 2_000, ABSENT]),
            RAMP_TO_AT_RATE => {
                self.plan_command(output, kind, &[level, REAL_HUNDRED_PERCENT, ABSENT])
            }
            _ => self.plan_command(output, kind, &[level, ABSENT]),
        }
    }

    /// The slot empties, and what a weaker one holds is shown.
    fn plan_slot_beneath(&mut self, output: u8, own: u8, aim: Aim) {
        let duration = self.random.between(SHORTEST.into(), 300) as u32;
        let fires = self.random.chance(40);
        let of_slot = if fires { duration } else { 0 };
        self.plan_shown(output, aim.real_before(), of_slot);
        self.plan_write(output, WEAKEST, aim.real());
        match self.random.chance(50) {
            _ if fires => self.plan_clock(output, When::After(duration.into())),
            true => self.plan(output, Body::Empty { priority: own }, When::Now),
            false => self.plan_command(output, RELINQUISH, &[ABSENT]),
        }
    }

    /// With no live slot, Relinquish_Default is shown.
    fn plan_default_judged(&mut self, output: u8, own: u8, aim: Aim) {
        self.plan(output, Body::Empty { priority: own }, When::Now);
        self.plan_property(output, RELINQUISH_DEFAULT, aim.real_before());
        self.plan_property(output, RELINQUISH_DEFAULT, aim.real());
        self.plan_look_at_relay(output, When::Now);
        self.plan_property(output, RELINQUISH_DEFAULT, 0);
    }

    /// A slot beyond Min or Max is shown as the bound is.
    fn plan_bound_judged(&mut self, output: u8, aim: Aim) {
        let (bound, slot) = self
            .random
            .pick(&[(MINIMUM, REAL_ONE_PERCENT), (MAXIMUM, REAL_HUNDRED_PERCENT)]);
        self.plan_shown(output, slot, 0);
        let before = level_as_real(aim.before.max(real::ONE_PERCENT));
        if before != slot {
            self.plan_property(output, bound, before);
        }
        self.plan_property(output, bound, aim.real());
        self.plan_look_at_relay(output, When::Now);
        self.plan_property(output, bound, slot);
    }

    /// One of the two values is written when Present_Value is there already.
    fn plan_value_across(&mut self, output: u8, aim: Aim) {
        let (property, value, away) = match self.random.chance(50) {
            true => (BINARY_ACTIVE_VALUE, aim.active, real::HUNDRED_PERCENT),
            false => (BINARY_INACTIVE_VALUE, aim.inactive, 0),
        };
        self.plan_shown(output, aim.real_before(), 0);
        // Active is left so by an upper value far above, and by a lower one far
        // below; so is inactive.
        self.plan_property(output, property, level_as_real(away));
        self.plan_shown(output, aim.real(), 0);
        self.plan_property(output, property, level_as_real(value));
    }

    /// STOP puts what the light has reached into the slot.
    fn plan_stop_judged(&mut self, output: u8, aim: Aim) {
        // From as far on the other side, half of the way is the aim.
        let lit = real::ONE_PERCENT..=real::HUNDRED_PERCENT;
        let other_side = (2 * aim.level).checked_sub(aim.before);
        let (from, gone) = match other_side.filter(|level| lit.contains(level)) {
            Some(level) => (level, 200),
            None => (aim.level, 0),
        };
        self.plan_command(output, GOTO, &[level_as_real(from), 0]);
        self.plan_command(output, FADE_TO_OVER, &[aim.real_before(), 400, ABSENT]);
        let fields = vec![ABSENT];
        let stop = Body::Command { kind: STOP, fields };
        self.plan(output, stop, When::After(gone));
    }

    /// A step goes on from the light, and Present_Value with it; from the dark
    /// too.
    fn plan_step_judged(&mut self, output: u8, aim: Aim) {
        let up = self.random.chance(50);
        let step = match up && self.random.chance(20) {
            true => aim.level,
            false => self.random.between(8_192, real::ONE_PERCENT.into()) as u32,
        };
        let from = match up {
            true => aim.level - step,
            false => aim.level + step,
        };
        let by = self.random.chance(50);
        let kind = match (up, by) {
            (true, true) => STEP_UP_BY,
            (true, false) => STEP_UP,
            (false, true) => STEP_DOWN_BY,
            (false, false) => STEP_DOWN,
        };
        let step = level_as_real(step);
        if !by {
            self.plan_property(output, STEP_INCREMENT, step);
        }
        if self.random.chance(40) {
            self.plan_command(output, GOTO, &[aim.real_before(), 0]);
        }
        self.plan_command(output, GOTO, &[level_as_real(from), 0]);
        if self.random.chance(70) {
            self.plan_command(output, FADE_TO_OVER, &[aim.real_before(), 1_000, ABSENT]);
        }
        match by {
            true => self.plan_command(output, kind, &[step, ABSENT]),
            false => self.plan_command(output, kind, &[ABSENT]),
        }
    }

    pub(crate) fn plan_look_at_relay(&mut self, output: u8, when: When) {
        let property = match self.random.below(10) {
            0..=4 => BINARY_PRESENT_VALUE,
            5..=7 => RELAY_STATE,
            _ => self
                .random
                .between(BINARY_ACTIVE_VALUE.into(), POLARITY.into()) as u8,
        };
        self.plan_read(output, property, when);
    }
}
