//! Scenes: fade times, durations and blink times about four hours and a day;
//! longer fade times in frames that are turned down for something else; a fade
//! of four hours over its life.

use events::edges::FOUR_HOUR_EDGES;
use events::four_hours::LONGER;
use plain::frame::*;
use plain::settings::*;

use crate::body::Body;
use crate::list::Generator;
use crate::suites::tags::draft::Draft;
use crate::timing::When;
use crate::values::{self, ABSENT, REAL_ONE_PERCENT};

impl Generator {
    pub(crate) fn plan_four_hours(&mut self, output: u8) {
        let is_longest = self.panel.parameters().fade == FOUR_HOURS;
        if is_longest && self.can_live(FOUR_HOURS) && self.random.chance(50) {
            return self.plan_longest_fade(output);
        }
        let value = self.random.pick(&FOUR_HOUR_EDGES);
        match self.random.below(20) {
            0..=5 => self.plan_fade_time(output, value),
            6 => self.plan_fade_times(output),
            7..=10 => {
                self.plan_duration(output, value);
                let level = values::good_level(&mut self.random);
                self.plan_command(output, GOTO, &[level, 0]);
            }
            11..=13 => {
                let property = self.random.pick(&[BLINK_TIME, BLINK_WARN_DELAY]);
                self.plan_blink_time_of(output, property, value);
            }
            14..=18 => self.plan_longer(output),
            _ if is_longest => self.plan_longest_dark_part(output),
            _ => self.plan_fade_times(output),
        }
    }

    /// The frame is refused for its level or for its tags, for a duration that
    /// is out of range too, or comes too late, or comes again. A duration that
    /// runs goes on.
    fn plan_longer(&mut self, output: u8) {
        if self.random.chance(30) {
            self.plan_duration(output, SHORTEST);
        }
        let (first, last) = LONGER.into_inner();
        let between = self.random.between(first.into(), last.into()) as u32;
        let longer = self.random.pick(&[first, first, last, between]);
        let level = values::good_level(&mut self.random);
        let bad_level = self.random.pick(&[0xBF80_0000, 0x42C8_0001, 0x7FC0_0000]);
        let bad_duration = self.random.pick(&[1, SHORTEST - 1, LONGEST + 1]);
        match self.random.below(7) {
            0 => {
                let duration = self.random.pick(&[ABSENT, bad_duration]);
                self.plan_command(output, FADE_TO_OVER, &[bad_level, longer, duration]);
            }
            1 => self.plan_command(output, FADE_TO_OVER, &[level, longer, bad_duration]),
            2 | 3 => self.plan_longer_in_bad_tags(output, level, longer),
            4 => {
                let body = self.some_fade_time(level, longer);
                self.plan(output, body, When::Late);
            }
            _ => {
                let (body, station) = (self.some_fade_time(level, longer), self.some_station());
                self.plan_from(Some(station), output, Some(body), When::Now);
                self.plan_from(Some(station), output, None, When::Now);
            }
        }
        self.plan_read(output, LAST_FADE_TIME, When::Now);
        self.plan_read(output, FADE_TIME, When::Now);
        if self.random.chance(30) {
            self.plan_read(output, PRESENT_VALUE, When::After(SHORTEST.into()));
        }
    }

    fn plan_longer_in_bad_tags(&mut self, output: u8, level: u32, longer: u32) {
        let kind = FADE_TO_OVER;
        let fields = vec![level, longer, ABSENT];
        let command = Body::Command { kind, fields }.command();
        let mut draft = Draft::of(command.expect("its kind is a command's").tags());
        match self.random.chance(50) {
            true => draft.spoil_tagging(&mut self.random),
            false => draft.spoil_field(&mut self.random),
        }
        self.plan(output, draft.body(), When::Now);
    }

    /// Fade_Time, or that of a command.
    fn some_fade_time(&mut self, level: u32, value: u32) -> Body {
        match self.random.chance(40) {
            true => Body::WriteProperty {
                property: FADE_TIME,
                value,
            },
            false => Body::Command {
                kind: FADE_TO_OVER,
                fields: vec![level, value, ABSENT],
            },
        }
    }

    /// A fade by one percent over four hours has its first unit after 220 ms.
    fn plan_longest_dark_part(&mut self, output: u8) {
        let own = self.plan_winning_slot(output);
        self.plan_command_priority(output, own, When::Now);
        self.plan_command(output, GOTO, &[0, 0]);
        let fields = [REAL_ONE_PERCENT, FOUR_HOURS, ABSENT];
        self.plan_command(output, FADE_TO_OVER, &fields);
        for place in -2..=1 {
            if self.random.chance(60) {
                self.plan_look_at_light(output, When::Light(place));
            }
        }
        self.plan_look_at_burning(output, own);
    }
}
