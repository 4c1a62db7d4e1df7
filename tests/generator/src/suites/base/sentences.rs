//! Scenes made for one sentence of the paper each, which chance alone tries
//! too seldom for the lists of the gate.

use events::words::{COMMANDS, DARKENING};
use plain::frame::*;
use plain::real::{self, level_as_real};
use plain::settings::*;

use crate::body::Body;
use crate::list::Generator;
use crate::timing::When;
use crate::values::{self, ABSENT, REAL_HUNDRED_PERCENT, REAL_ONE_PERCENT};

impl Generator {
    pub(crate) fn plan_sentence(&mut self, output: u8) {
        match self.random.below(13) {
            0 => self.plan_pace_setting_in_movement(output),
            1 => self.plan_refused_bound_in_movement(output),
            2 => self.plan_bound_before_the_turn(output),
            3 => self.plan_command_instead_of_warning(output),
            4 => self.plan_duration_left_running(output),
            5 => self.plan_stop_below_minimum(output),
            6 => self.plan_command_edge(output),
            7 => self.plan_default_out_of_range(output),
            8 => self.plan_two_bad_fields(output),
            9 => self.plan_delay_in_warning(output),
            10 => self.plan_step_out_of_range(output),
            _ => self.plan_property_edge(output),
        }
    }

    /// A level far from what is shown, so that the way is long.
    fn far_level(&mut self, output: u8) -> u32 {
        let shown = self.output(output).progress_value();
        let percent = match shown > 50 * real::ONE_PERCENT {
            true => self.random.between(1, 20),
            false => self.random.between(60, 100),
        };
        (percent as f32).to_bits()
    }

    /// Fade_Time and Ramp_Rate are for the movements to come: one that is
    /// under way keeps its pace, whether the new one is slower or faster.
    fn plan_pace_setting_in_movement(&mut self, output: u8) {
        let level = self.far_level(output);
        let slower = self.random.chance(60);
        self.plan_winning_priority(output, When::Now);
        let length;
        if self.random.chance(50) {
            length = self.random.between(200, 2_000);
            let other = if slower { 3 * length } else { length / 2 };
            self.plan_property(output, FADE_TIME, length as u32);
            self.plan_command(output, FADE_TO, &[level, ABSENT]);
            self.plan_property_after(output, FADE_TIME, other as u32, length / 3);
        } else {
            let rate = self.random.between(30, 80);
            // About the time for half of the way.
            length = 50_000 / rate;
            let other = if slower { rate / 10 } else { rate + 20 } as f32;
            self.plan_property(output, RAMP_RATE, (rate as f32).to_bits());
            self.plan_command(output, RAMP_TO, &[level, ABSENT]);
            self.plan_property_after(output, RAMP_RATE, other.to_bits(), length / 3);
        }
        self.plan_read(output, PROGRESS_VALUE, When::After(length / 3));
        self.plan_read(output, IN_PROCESS, When::Due);
        self.plan_read(output, PROGRESS_VALUE, When::After(1));
    }

    fn plan_property_after(&mut self, output: u8, property: u8, value: u32, jump: u64) {
        let body = Body::WriteProperty { property, value };
        self.plan(output, body, When::After(jump));
    }

    /// Min over Max is refused and ends no movement.
    fn plan_refused_bound_in_movement(&mut self, output: u8) {
        let level = self.far_level(output);
        let fade_time = values::short_time(&mut self.random);
        self.plan_property(output, MAXIMUM, REAL_HUNDRED_PERCENT);
        self.plan_property(output, MINIMUM, 20.0_f32.to_bits());
        self.plan_winning_priority(output, When::Now);
        self.plan_command(output, FADE_TO_OVER, &[level, fade_time, ABSENT]);
        let refused = 10.0_f32.to_bits();
        self.plan_property_after(output, MAXIMUM, refused, u64::from(fade_time / 2));
        self.plan_read(output, IN_PROCESS, When::Now);
        self.plan_read(output, PROGRESS_VALUE, When::After(1));
        self.plan_property(output, MINIMUM, REAL_ONE_PERCENT);
    }

    /// Min over Max is refused in a warning too, and nothing of it changes.
    pub(crate) fn plan_refused_bound_in_warning(&mut self, output: u8, when: When) {
        let (minimum, maximum) = ((MINIMUM, 60.0_f32), (MAXIMUM, 30.0_f32));
        let (taken, refused) = self.random.pick(&[(minimum, maximum), (maximum, minimum)]);
        let (property, value) = (taken.0, taken.1.to_bits());
        self.plan(output, Body::WriteProperty { property, value }, when);
        self.plan_property(output, refused.0, refused.1.to_bits());
        self.plan_read(output, PRESENT_VALUE, When::Now);
        self.plan_property(output, MAXIMUM, REAL_HUNDRED_PERCENT);
        self.plan_property(output, MINIMUM, REAL_ONE_PERCENT);
    }

    /// STOP raises what is reached to Min, but not zero.
    fn plan_stop_below_minimum(&mut self, output: u8) {
        self.plan_property(output, MAXIMUM, REAL_HUNDRED_PERCENT);
        self.plan_property(output, MINIMUM, 20.0_f32.to_bits());
        self.plan_winning_priority(output, When::Now);
        self.plan_command(output, GOTO, &[0, ABSENT]);
        self.plan_command(output, FADE_TO_OVER, &[REAL_HUNDRED_PERCENT, 1_000, ABSENT]);
        // From the millisecond of the start, when zero is reached, to 18 percent.
        let fields = vec![ABSENT];
        let jump = self.random.pick(&[0, 0, 1, 50, 180]);
        self.plan(
            output,
            Body::Command { kind: STOP, fields },
            When::After(jump),
        );
        self.plan_read(output, PROGRESS_VALUE, When::Now);
        self.plan_property(output, MINIMUM, REAL_ONE_PERCENT);
        self.plan_read(output, PRESENT_VALUE, When::Now);
    }

    /// Steps up and down are brought into Min..Max, from the dark too, and so is
    /// the level of a command.
    fn plan_step_out_of_range(&mut self, output: u8) {
        self.plan_property(output, MAXIMUM, 80.0_f32.to_bits());
        self.plan_property(output, MINIMUM, 20.0_f32.to_bits());
        self.plan_winning_priority(output, When::Now);
        let (level, kind) = self.random.pick(&[
            (75.0_f32, STEP_UP_BY),
            (25.0, STEP_DOWN_BY),
            (0.0, STEP_UP_BY),
            (50.0, GOTO),
        ]);
        self.plan_command(output, GOTO, &[level.to_bits(), ABSENT]);
        self.plan_command(output, kind, &[10.0_f32.to_bits(), ABSENT]);
        // What the slot holds shows once more is shown.
        self.plan_property(output, MINIMUM, REAL_ONE_PERCENT);
        self.plan_property(output, MAXIMUM, REAL_HUNDRED_PERCENT);
        self.plan_read(output, PRESENT_VALUE, When::Now);
    }

    /// A command to the level that a movement has reached: no movement is left.
    pub(crate) fn plan_command_to_reached_level(&mut self, output: u8) {
        let reached = self.output(output).progress_value();
        let settings = &self.output(output).settings;
        let level = level_as_real(settings.into_range_if_lit(reached));
        self.plan_winning_priority(output, When::Now);
        let kind = self
            .random
            .pick(&[FADE_TO, FADE_TO_OVER, RAMP_TO, RAMP_TO_AT_RATE]);
        self.plan_command_to(output, kind, level);
        self.plan_read(output, IN_PROCESS, When::Now);
    }

    /// A command of any kind, to a level if it has one, and no duration.
    pub(crate) fn plan_command_to(&mut self, output: u8, kind: u8, level: u32) {
        match kind {
            FADE_TO_OVER => self.plan_command(output, kind, &[level, 200, ABSENT]),
            RAMP_TO_AT_RATE => {
                self.plan_command(output, kind, &[level, REAL_HUNDRED_PERCENT, ABSENT])
            }
            RELINQUISH => self.plan_command(output, kind, &[ABSENT]),
            _ => self.plan_command(output, kind, &[level, ABSENT]),
        }
    }

    /// Min or Max moves past Y in the dark phase: at the turn slot 6 gets Y as
    /// it was, whatever may be shown of it. Or it moves past slot X's level
    /// before the warning: Y is then what was shown, not what the slot held.
    fn plan_bound_before_the_turn(&mut self, output: u8) {
        let own = self.random.between(7, 16) as u8;
        let (dark, lit) = (self.random.between(2, 300), self.random.between(3, 300));
        self.plan_warning_settings(output, own, dark as u32, lit as u32);
        self.plan_property(output, MINIMUM, REAL_ONE_PERCENT);
        self.plan_property(output, MAXIMUM, REAL_HUNDRED_PERCENT);
        self.plan_write(output, own, 50.0_f32.to_bits());
        let (property, bound) = self
            .random
            .pick(&[(MAXIMUM, 30.0_f32), (MINIMUM, 70.0_f32)]);
        if self.random.chance(30) {
            self.plan_property(output, property, bound.to_bits());
        }
        self.plan_write(output, own, 0);
        self.plan_property_after(output, property, bound.to_bits(), dark / 2);
        self.plan_read(output, FIRST_SLOT + 5, When::After(dark - dark / 2));
        self.plan_read(output, PRESENT_VALUE, When::Now);
        self.plan_property(output, MINIMUM, REAL_ONE_PERCENT);
        self.plan_property(output, MAXIMUM, REAL_HUNDRED_PERCENT);
        self.plan_read(output, PRESENT_VALUE, When::After(1));
    }

    /// Whether slot X empties at the end is decided by the delay of the start,
    /// whatever Blink_Warn_Delay has become.
    fn plan_delay_in_warning(&mut self, output: u8) {
        let own = self.random.between(7, 16) as u8;
        let (before, later) = self.random.pick(&[(0, 50), (50, 0)]);
        let dark = self.random.between(1, 300) as u32;
        self.plan_warning_settings(output, own, dark, before);
        let level = values::lit_level(&mut self.random);
        self.plan_write(output, own, level);
        self.plan_write(output, own, 0);
        self.plan_property(output, BLINK_WARN_DELAY, later);
        let end = u64::from(dark + before);
        self.plan_read(output, FIRST_SLOT + own - 1, When::After(end));
    }

    /// Commands never start a warning, also where a write of zero would.
    fn plan_command_instead_of_warning(&mut self, output: u8) {
        let own = self.random.between(7, 16) as u8;
        let (dark, lit) = self.blink_times();
        self.plan_warning_settings(output, own, dark, lit);
        let level = values::lit_level(&mut self.random);
        self.plan_write(output, own, level);
        self.plan_command_priority(output, own, When::Now);
        let kind = self.random.pick(&DARKENING);
        let zero = values::zero(&mut self.random);
        self.plan_command_to(output, kind, zero);
        self.plan_read(output, FIRST_SLOT + 5, When::Now);
    }

    /// A command without a duration leaves the one that runs: the slot empties
    /// in the end, though it was written once more.
    fn plan_duration_left_running(&mut self, output: u8) {
        let slot = self.random.pick(&values::PRIORITIES);
        let duration = self.random.between(100, 1_000) as u32;
        let level = values::lit_level(&mut self.random);
        self.plan_command_priority(output, slot, When::Now);
        self.plan_command(output, GOTO, &[level, duration]);
        let kind = match self.random.chance(40) {
            true => RELINQUISH,
            false => self.random.pick(&COMMANDS),
        };
        if let Body::Command { kind, mut fields } = self.good_command(kind) {
            *fields.last_mut().expect("a duration stands last") = ABSENT;
            self.plan_command(output, kind, &fields);
        }
        self.plan_write(output, slot, level);
        let read = FIRST_SLOT + slot - 1;
        self.plan_read(output, read, When::After(u64::from(duration) - 1));
        self.plan_read(output, read, When::After(1));
    }

    /// Relinquish_Default stands as it was written, below Min too.
    fn plan_default_out_of_range(&mut self, output: u8) {
        self.plan_property(output, MAXIMUM, REAL_HUNDRED_PERCENT);
        self.plan_property(output, MINIMUM, 20.0_f32.to_bits());
        self.plan_property(output, RELINQUISH_DEFAULT, 5.0_f32.to_bits());
        self.plan_read(output, RELINQUISH_DEFAULT, When::Now);
        self.plan_read(output, PRESENT_VALUE, When::Now);
        self.plan_property(output, MINIMUM, REAL_ONE_PERCENT);
        self.plan_property(output, RELINQUISH_DEFAULT, 0);
    }
}
