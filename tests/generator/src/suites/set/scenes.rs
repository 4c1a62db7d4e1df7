//! Scenes: fade times, durations and blink times at the edges that the set
//! gives them, and what goes by the longest ones.

use events::set::SLOWEST_RAMP;
use events::words::COMMANDS;
use plain::frame::{self, *};
use plain::settings::*;
use plain::{Answer, Parameter};

use crate::body::Body;
use crate::list::Generator;
use crate::timing::When;
use crate::values::{self, ABSENT, REAL_HUNDRED_PERCENT, SHORTEST};

/// Ramp_Rate's least value, and a usual one.
const SLOWEST: u32 = 0x3E00_0000;
const USUAL: u32 = 0x4120_0000;

impl Generator {
    pub(crate) fn plan_set(&mut self, output: u8) {
        // It is fresh only once.
        if self.has_fresh_fade_time(output) && self.random.chance(60) {
            return self.plan_fresh_fade_time(output);
        }
        match self.random.below(21) {
            0..=3 => self.plan_fade_times(output),
            4..=7 => self.plan_durations(output),
            8..=10 => self.plan_blink_time(output),
            11 | 12 => self.plan_slowest_ramp(output),
            13 | 14 => self.plan_longest_fade(output),
            15 | 16 => self.plan_longest_duration(output),
            17 | 18 => self.plan_edge_of_stations(output),
            _ => self.plan_turns_of_stations(output),
        }
    }

    fn has_fresh_fade_time(&self, output: u8) -> bool {
        self.panel.first_arrivals().iter().all(|arrival| {
            let bytes = &arrival.bytes;
            bytes[0] != WRITE_PROPERTY
                || frame::output(bytes) != output
                || byte_field(bytes) != FADE_TIME
                || arrival.answer != Answer::Done
        })
    }

    /// Read, and used by a fade that has no time of its own.
    fn plan_fresh_fade_time(&mut self, output: u8) {
        self.plan_read(output, FADE_TIME, When::Now);
        self.plan_moving_from(output, 0);
        self.plan_command(output, FADE_TO, &[REAL_HUNDRED_PERCENT, ABSENT]);
        let way = self.panel.parameters().fresh_fade_time();
        self.plan_looks(output, way.into());
    }

    /// At one end of the whole range, in a slot that wins.
    fn plan_moving_from(&mut self, output: u8, level: u32) {
        let own = self.plan_winning_slot(output);
        self.plan_command_priority(output, own, When::Now);
        self.plan_command(output, GOTO, &[level, 0]);
    }

    /// Somewhere on the way, in the last millisecond and at the end.
    fn plan_looks(&mut self, output: u8, length: u64) {
        let on_the_way = self.random.between(1, length - 2);
        for when in [When::After(on_the_way), When::Left(1), When::Left(0)] {
            let property = self.random.pick(&[PROGRESS_VALUE, IN_PROCESS]);
            self.plan_read(output, property, when);
        }
        self.plan_read(output, PROGRESS_VALUE, When::Now);
    }

    /// The longest one that the set allows, one more, and one of those beside
    /// them and between the two longest ones.
    fn bounded_times(&mut self, bound: Parameter) -> [u32; 3] {
        let parameters = self.panel.parameters();
        let (longest, other) = match bound {
            Parameter::Fade => (parameters.fade, parameters.duration),
            _ => (parameters.duration, parameters.fade),
        };
        let (low, high) = (longest.min(other), longest.max(other));
        let between = self.random.between(low.into(), high.into()) as u32;
        let further = self.random.pick(&[
            longest - 1,
            other,
            other + 1,
            between,
            between,
            SHORTEST,
            SHORTEST - 1,
        ]);
        let mut times = [longest, longest + 1, further];
        times.rotate_left(self.random.below(3) as usize);
        times
    }

    pub(crate) fn plan_fade_times(&mut self, output: u8) {
        for value in self.bounded_times(Parameter::Fade) {
            self.plan_fade_time(output, value);
        }
    }

    pub(crate) fn plan_fade_time(&mut self, output: u8, value: u32) {
        if self.random.chance(40) {
            self.plan_property(output, FADE_TIME, value);
            self.plan_read(output, FADE_TIME, When::Now);
            self.plan_property(output, FADE_TIME, SHORTEST);
        } else {
            let level = values::good_level(&mut self.random);
            self.plan_command(output, FADE_TO_OVER, &[level, value, ABSENT]);
            self.plan_read(output, LAST_FADE_TIME, When::Now);
            // Else the output may be under way for a day.
            self.plan_command(output, GOTO, &[level, 0]);
        }
    }

    fn plan_durations(&mut self, output: u8) {
        for value in self.bounded_times(Parameter::Duration) {
            self.plan_duration(output, value);
        }
        let level = values::good_level(&mut self.random);
        self.plan_command(output, GOTO, &[level, 0]);
    }

    pub(crate) fn plan_duration(&mut self, output: u8, value: u32) {
        let kind = self.random.pick(&COMMANDS);
        if let Body::Command { kind, mut fields } = self.good_command(kind) {
            if kind == FADE_TO_OVER {
                fields[1] = SHORTEST;
            }
            *fields.last_mut().expect("a duration stands last") = value;
            self.plan_command(output, kind, &fields);
        }
        self.plan_read(output, LAST_DURATION, When::Now);
    }

    /// A day is taken whatever the set, and no more.
    fn plan_blink_time(&mut self, output: u8) {
        let property = self.random.pick(&[BLINK_TIME, BLINK_WARN_DELAY]);
        let parameters = self.panel.parameters();
        let (fade, duration) = (parameters.fade, parameters.duration);
        let value = self.random.pick(&[
            LONGEST,
            LONGEST,
            LONGEST + 1,
            LONGEST + 1,
            fade,
            fade + 1,
            duration,
            duration + 1,
        ]);
        self.plan_blink_time_of(output, property, value);
    }

    pub(crate) fn plan_blink_time_of(&mut self, output: u8, property: u8, value: u32) {
        self.plan_property(output, property, value);
        self.plan_read(output, property, When::Now);
        self.plan_property(output, property, 0);
    }

    /// Whether the budget has so many milliseconds, and some for other outputs.
    pub(crate) fn can_live(&self, milliseconds: u32) -> bool {
        self.budget > 5 * u64::from(milliseconds) / 4
    }

    /// Longer than every fade, where fades are short.
    fn plan_slowest_ramp(&mut self, output: u8) {
        if !self.can_live(SLOWEST_RAMP) {
            return self.plan_fade_times(output);
        }
        let (from, to) = self
            .random
            .pick(&[(0, REAL_HUNDRED_PERCENT), (REAL_HUNDRED_PERCENT, 0)]);
        self.plan_moving_from(output, from);
        if self.random.chance(50) {
            self.plan_property(output, RAMP_RATE, SLOWEST);
            self.plan_command(output, RAMP_TO, &[to, ABSENT]);
            self.plan_property(output, RAMP_RATE, USUAL);
        } else {
            self.plan_command(output, RAMP_TO_AT_RATE, &[to, SLOWEST, ABSENT]);
        }
        self.plan_looks(output, SLOWEST_RAMP.into());
    }

    /// By Fade_Time or by a time of its own.
    pub(crate) fn plan_longest_fade(&mut self, output: u8) {
        let longest = self.panel.parameters().fade;
        if !self.can_live(longest) {
            return self.plan_fade_times(output);
        }
        self.plan_moving_from(output, 0);
        if self.random.chance(40) {
            self.plan_property(output, FADE_TIME, longest);
            self.plan_command(output, FADE_TO, &[REAL_HUNDRED_PERCENT, ABSENT]);
            self.plan_property(output, FADE_TIME, SHORTEST);
        } else {
            let fields = [REAL_HUNDRED_PERCENT, longest, ABSENT];
            self.plan_command(output, FADE_TO_OVER, &fields);
        }
        self.plan_looks(output, longest.into());
    }

    /// The slot is looked at just before it empties, and then.
    fn plan_longest_duration(&mut self, output: u8) {
        let longest = self.panel.parameters().duration;
        if !self.can_live(longest) {
            return self.plan_durations(output);
        }
        let own = self.plan_winning_slot(output);
        self.plan_command_priority(output, own, When::Now);
        let fields = [REAL_HUNDRED_PERCENT, longest];
        self.plan_command(output, GOTO, &fields);
        let slot = FIRST_SLOT + own - 1;
        self.plan_read(output, slot, When::After(u64::from(longest) - 1));
        self.plan_read(output, slot, When::After(1));
    }
}
