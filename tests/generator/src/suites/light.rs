//! §2: burning time by the light itself. Movements whose light begins or ends,
//! looked at, cut by clocks and interrupted around that moment.

use events::words::COMMANDS;
use plain::frame::*;
use plain::real;
use plain::settings::*;

use crate::body::Body;
use crate::list::Generator;
use crate::suite::{Suite, Tables};
use crate::suites::{base, tags};
use crate::timing::When;
use crate::values::{self, ABSENT, LONGEST, REAL_HUNDRED_PERCENT, REAL_ONE_PERCENT, SHORTEST};

pub static SUITE: Suite = Suite {
    name: "§2",
    subject: "burning time by the light",
    share: 11,
    at_rest: &[
        (785, Generator::plan_light),
        (15, Generator::plan_calm_and_great_jump),
        (40, Generator::plan_movement),
        (80, Generator::plan_command_at_rest),
        (40, Generator::plan_slot_at_rest),
        (40, Generator::plan_anything_at_rest),
    ],
    in_movement: base::IN_MOVEMENT,
    in_warning: base::IN_WARNING,
    tables: Tables {
        kinds: &tags::KINDS,
        tagged: 20,
        ..base::TABLES
    },
    events: events::light::expected,
    edges: Vec::new,
};

pub(crate) const STRONGEST: u8 = 1;
pub(crate) const WEAKEST: u8 = 16;
/// Priorities with others above and below them.
pub(crate) const MIDDLE_PRIORITIES: [u8; 13] = [2, 3, 4, 5, 7, 8, 9, 10, 11, 12, 13, 14, 15];

/// A movement to come.
struct Moving {
    /// Where it starts, a REAL.
    from: u32,
    kind: u8,
    /// The command's fields but for its duration.
    fields: Vec<u32>,
    /// Milliseconds until its light begins or ends.
    turns: u64,
}

impl Generator {
    /// A slot that wins, between bounds that the levels lie in.
    pub(crate) fn plan_winning_slot(&mut self, output: u8) -> u8 {
        let own = self.random.pick(&MIDDLE_PRIORITIES);
        for stronger in 1..own {
            if self.output(output).slot(stronger).is_some() && stronger != 6 {
                self.plan(output, Body::Empty { priority: stronger }, When::Now);
            }
        }
        self.plan_setting(output, MINIMUM, REAL_ONE_PERCENT);
        self.plan_setting(output, MAXIMUM, REAL_HUNDRED_PERCENT);
        own
    }

    pub(crate) fn plan_light(&mut self, output: u8) {
        let own = self.plan_winning_slot(output);
        if self.random.chance(30) {
            self.plan_property(output, ELAPSED_ACTIVE_TIME, 0);
        }
        let level = values::lit_level(&mut self.random);
        let moving = match self.random.below(20) {
            0..=7 => self.rising_fade(),
            8..=10 => self.ramp(0, level),
            11..=13 => self.short_fade(level, 0),
            14..=15 => self.ramp(level, 0),
            // To Min, and lit all the time.
            16 | 17 => self.ramp(level, REAL_ONE_PERCENT),
            _ => self.short_fade(level, REAL_ONE_PERCENT),
        };
        self.plan_start(output, own, &moving);
        if self.random.chance(85) {
            self.plan_about_the_turn(output, own);
        } else {
            // Across it, with nothing that looks on the way.
            let beyond = self.random.between(0, 300);
            self.plan_clock(output, When::After(moving.turns + beyond));
        }
        self.plan_look_at_burning(output, own);
    }

    /// Mostly one that is dark for a while. Those of a day are refused 12 since
    /// §7.
    fn rising_fade(&mut self) -> Moving {
        let (level, length) = match self.random.below(10) {
            0..=2 => (REAL_ONE_PERCENT, LONGEST),
            3 => (values::lit_level(&mut self.random), LONGEST),
            4 => (
                values::lit_level(&mut self.random),
                values::short_time(&mut self.random),
            ),
            _ => self.fade_lit_early(),
        };
        let units = real::level(level).expect("a level");
        Moving {
            from: 0,
            kind: FADE_TO_OVER,
            fields: vec![level, length],
            turns: length.div_ceil(units).into(),
        }
    }

    /// Lit after so few milliseconds that all of it can be lived; of the fades
    /// that are, the longest and the shortest one too.
    fn fade_lit_early(&mut self) -> (u32, u32) {
        let percent = self.random.pick(&[1.0_f32, 1.0, 1.0, 1.5, 2.0]);
        let turns = self.random.pick(&[1, 2, 3, 3, 4]);
        let units = real::level(percent.to_bits()).expect("a level");
        let longest = turns * units;
        let shortest = (longest - units + 1).max(SHORTEST);
        let between = self.random.between(shortest.into(), longest.into()) as u32;
        let length = self.random.pick(&[shortest, longest, between]);
        (percent.to_bits(), length)
    }

    /// Lit to its last millisecond.
    fn short_fade(&mut self, from: u32, to: u32) -> Moving {
        let length = values::short_time(&mut self.random);
        Moving {
            from,
            kind: FADE_TO_OVER,
            fields: vec![to, length],
            turns: length.into(),
        }
    }

    /// At the least rate too; downward that takes minutes, which few lists have.
    fn ramp(&mut self, from: u32, to: u32) -> Moving {
        let rate = match self.random.below(4) {
            0 if from == 0 || self.random.chance(10) => 0.125_f32.to_bits(),
            1 => REAL_HUNDRED_PERCENT,
            _ => values::usual_percentage(&mut self.random),
        };
        let level = |bits| real::level(bits).expect("a level");
        let rate_units = real::rate_or_step(rate).expect("a rate");
        // To the first unit, or all the way down.
        let units = match from {
            0 => 1,
            _ => level(from).abs_diff(level(to)),
        };
        Moving {
            from,
            kind: RAMP_TO_AT_RATE,
            fields: vec![to, rate],
            turns: (1_000 * u64::from(units)).div_ceil(rate_units.into()),
        }
    }

    /// Now and then with a duration that falls due about the turn, of the
    /// movement's own slot or of another one.
    fn plan_start(&mut self, output: u8, own: u8, moving: &Moving) {
        // Two milliseconds before the turn to one after it. A duration has 100
        // ms at the least, so it may have to begin before the movement.
        let due = moving.turns + self.random.below(4);
        let wait = u64::from(SHORTEST + 2).saturating_sub(due);
        let duration = (wait + due - 2).min(LONGEST.into()) as u32;
        let of_goto = match self.random.below(20) {
            0..=2 => duration,
            3..=5 => {
                self.plan_duration_beside(output, duration);
                ABSENT
            }
            _ => 0,
        };
        self.plan_command_priority(output, own, When::Now);
        self.plan_command(output, GOTO, &[moving.from, of_goto]);
        let kind = moving.kind;
        let mut fields = moving.fields.clone();
        fields.push(ABSENT);
        let when = match of_goto {
            0 => When::Now,
            _ => When::After(wait),
        };
        self.plan(output, Body::Command { kind, fields }, when);
    }

    /// Tied to a slot above or below the movement's owner.
    fn plan_duration_beside(&mut self, output: u8, duration: u32) {
        let slot = self.random.pick(&[STRONGEST, WEAKEST]);
        self.plan_command_priority(output, slot, When::Now);
        let level = values::good_level(&mut self.random);
        match slot == WEAKEST && self.random.chance(50) {
            true => self.plan_command(output, GOTO, &[level, duration]),
            false => self.plan_command(output, RELINQUISH, &[duration]),
        }
    }

    /// Looks before the turn, something that is done there, and looks after it.
    fn plan_about_the_turn(&mut self, output: u8, own: u8) {
        // Also long before it, if the movement is dark for so long.
        let earlier = -(self.random.between(2, 1_000) as i64);
        let moment = self
            .random
            .pick(&[earlier, -2, -2, -1, -1, -1, 0, 0, 0, 0, 1, 2]);
        for look in -3..=moment {
            if self.random.chance(35) {
                self.plan_look_at_light(output, When::Light(look));
            }
        }
        let when = When::Light(moment);
        match self.random.below(20) {
            0..=7 => self.plan_command_at(output, when),
            8..=12 => self.plan_slot_beside(output, own, when),
            13..=15 => {
                let property = self.random.pick(&[ELAPSED_ACTIVE_TIME, MINIMUM, MAXIMUM]);
                let value = match property {
                    MINIMUM => REAL_ONE_PERCENT,
                    MAXIMUM => REAL_HUNDRED_PERCENT,
                    _ => 0,
                };
                self.plan(output, Body::WriteProperty { property, value }, when);
            }
            _ => self.plan_look_at_light(output, when),
        }
        for _ in 0..self.random.below(3) {
            self.plan_look_at_light(output, When::After(1));
        }
        // To the end of what is under way, if it can be lived.
        if self.random.chance(20) {
            self.plan_look_at_light(output, When::Due);
        }
    }

    pub(crate) fn plan_look_at_light(&mut self, output: u8, when: When) {
        if self.random.chance(40) {
            self.plan_clock(output, when);
        } else {
            let property = self
                .random
                .pick(&[ELAPSED_ACTIVE_TIME, PRESENT_VALUE, PROGRESS_VALUE]);
            self.plan_read(output, property, when);
        }
    }

    /// A command of the movement's own slot: it ends or replaces the movement.
    pub(crate) fn plan_command_at(&mut self, output: u8, when: When) {
        let kind = match self.random.below(10) {
            0 | 1 => STOP,
            2..=4 => self.random.between(FADE_TO.into(), RAMP_TO_AT_RATE.into()) as u8,
            _ => self.random.pick(&COMMANDS),
        };
        let command = self.good_command(kind);
        self.plan(output, command, when);
    }

    /// A slot above or below the movement's owner, or its own, is written or
    /// emptied.
    fn plan_slot_beside(&mut self, output: u8, own: u8, when: When) {
        let priority = self.random.pick(&[STRONGEST, own, WEAKEST]);
        let body = self.some_slot_body(priority);
        self.plan(output, body, when);
    }

    /// Burns on, with reads at which a millisecond too many or too few shows.
    pub(crate) fn plan_look_at_burning(&mut self, output: u8, own: u8) {
        let priority = STRONGEST;
        self.plan(output, Body::Empty { priority }, When::Now);
        // Else the output may be under way for a day.
        self.plan_property(output, MAXIMUM, REAL_HUNDRED_PERCENT);
        let level = values::lit_level(&mut self.random);
        self.plan_command_priority(output, own, When::Now);
        self.plan_command(output, GOTO, &[level, 0]);
        for before in [true, false] {
            let when = When::WholeSecond { before };
            self.plan_read(output, ELAPSED_ACTIVE_TIME, when);
        }
    }
}
