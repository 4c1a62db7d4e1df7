//! §4: the elapsed part of a movement in 32 bits. Jumps of 2^32 ms and more out
//! of a movement, and movements in which the low 32 bits of the panel's time
//! begin anew.

use events::jump::Far;
use plain::frame::*;
use plain::settings::*;

use crate::body::Body;
use crate::list::Generator;
use crate::suite::{Suite, Tables};
use crate::suites::light::WEAKEST;
use crate::suites::{base, tags};
use crate::timing::{pending, When};
use crate::values::{self, ABSENT, REAL_HUNDRED_PERCENT, REAL_ONE_PERCENT, SHORTEST};

pub static SUITE: Suite = Suite {
    name: "§4",
    subject: "elapsed milliseconds in 32 bits",
    share: 6,
    at_rest: &[
        (800, Generator::plan_jump),
        (80, Generator::plan_movement),
        (40, Generator::plan_command_at_rest),
        (40, Generator::plan_slot_at_rest),
        (40, Generator::plan_anything_at_rest),
    ],
    in_movement: &[
        (85, Generator::plan_in_movement),
        (15, Generator::plan_jump_out_of_movement),
    ],
    in_warning: base::IN_WARNING,
    tables: Tables {
        kinds: &tags::KINDS,
        tagged: 20,
        ..base::TABLES
    },
    events: events::jump::expected,
    edges: Vec::new,
};

/// The movements of these scenes last longer, so after so many milliseconds
/// they are under way.
const ON_THE_WAY: u64 = 99;
/// So many milliseconds of each output take little of the budget.
const SOON_LIVED: u64 = 5_000;

impl Generator {
    pub(crate) fn plan_jump(&mut self, output: u8) {
        self.plan_calm_elsewhere(output);
        let own = self.plan_winning_slot(output);
        for _ in 0..self.random.between(1, 3) {
            if self.random.chance(30) {
                self.plan_movement_across_a_wrap(output, own);
            } else {
                self.plan_movement_to_jump_from(output, own);
                if self.random.chance(50) {
                    let jump = self.random.between(1, ON_THE_WAY);
                    self.plan_look_at_light(output, When::After(jump));
                }
            }
            self.plan_far_jump(output, own);
        }
    }

    /// Out of a movement that something else has led to, if it is short.
    pub(crate) fn plan_jump_out_of_movement(&mut self, output: u8) {
        if pending(self.output(output)) <= SOON_LIVED {
            self.plan_calm_elsewhere(output);
            let owner = self.output(output).winner().unwrap_or(WEAKEST);
            self.plan_far_jump(output, owner);
        }
    }

    /// What other outputs are at must be lived too.
    fn plan_calm_elsewhere(&mut self, output: u8) {
        for other in 0..self.panel.outputs().len() as u8 {
            if other != output && pending(self.output(other)) > SOON_LIVED {
                self.plan_calm(other);
            }
        }
    }

    /// Up or down, by each of the commands that start a movement.
    fn plan_movement_to_jump_from(&mut self, output: u8, own: u8) {
        let percent = self.random.between(1, 40) as f32;
        let low = self.random.pick(&[0, percent.to_bits()]);
        let high = (self.random.between(60, 100) as f32).to_bits();
        let (from, to) = self.random.pick(&[(low, high), (high, low)]);
        self.plan_command_priority(output, own, When::Now);
        self.plan_command(output, GOTO, &[from, 0]);
        let length = self.random.between(ON_THE_WAY + 2, 2_000) as u32;
        // The shortest way, 20 percent, takes 200 ms at the least.
        let rate = (self.random.between(20, 100) as f32).to_bits();
        // Now and then one that is passed over too.
        let duration = match self.random.chance(15) {
            true => values::short_time(&mut self.random),
            false => ABSENT,
        };
        match self.random.below(4) {
            0 => {
                self.plan_setting(output, FADE_TIME, length);
                self.plan_command(output, FADE_TO, &[to, duration]);
            }
            1 => self.plan_command(output, FADE_TO_OVER, &[to, length, duration]),
            2 => {
                self.plan_setting(output, RAMP_RATE, rate);
                self.plan_command(output, RAMP_TO, &[to, duration]);
            }
            _ => self.plan_command(output, RAMP_TO_AT_RATE, &[to, rate, duration]),
        }
    }

    /// Looked at before the low 32 bits are 0, then, and after it.
    fn plan_movement_across_a_wrap(&mut self, output: u8, own: u8) {
        if self.random.chance(15) {
            self.plan_clock(output, When::After(1 << 40));
        }
        let before = self.random.between(2, ON_THE_WAY);
        self.plan_clock(output, When::BeforeWrap(before));
        self.plan_movement_to_jump_from(output, own);
        for when in [
            When::After(self.random.below(before)),
            When::BeforeWrap(1),
            When::BeforeWrap(0),
            When::After(self.random.between(1, ON_THE_WAY)),
        ] {
            if self.random.chance(60) {
                self.plan_look_at_light(output, when);
            }
        }
    }

    /// Out of the movement that the output is in, and reads of all by which a
    /// panel shows that it takes the movement for one that still runs.
    fn plan_far_jump(&mut self, output: u8, own: u8) {
        let when = When::Far {
            far: self.random.pick(&Far::ALL),
            since_start: self.random.chance(50),
        };
        match self.random.below(10) {
            0..=2 => {
                self.plan_clock(output, when);
                // Late, and not if the clock has taken the panel less far.
                if self.random.chance(25) {
                    self.plan_read(output, PROGRESS_VALUE, When::Late);
                }
            }
            3 => self.plan_read(output, ELAPSED_ACTIVE_TIME, when),
            4 => self.plan_read(output, PROGRESS_VALUE, when),
            5 => self.plan_read(output, IN_PROCESS, when),
            6 | 7 => self.plan_command_at(output, when),
            8 => {
                let body = Body::Write {
                    priority: self.random.pick(&[own, WEAKEST]),
                    bits: values::good_level(&mut self.random),
                };
                self.plan(output, body, when);
            }
            _ => {
                let (property, value) = self.random.pick(&[
                    (ELAPSED_ACTIVE_TIME, 0),
                    (MINIMUM, REAL_ONE_PERCENT),
                    (MAXIMUM, REAL_HUNDRED_PERCENT),
                    (FADE_TIME, SHORTEST),
                ]);
                self.plan(output, Body::WriteProperty { property, value }, when);
            }
        }
        let mut reads = [
            PROGRESS_VALUE,
            IN_PROCESS,
            PRESENT_VALUE,
            ELAPSED_ACTIVE_TIME,
        ];
        reads.rotate_left(self.random.below(4) as usize);
        for property in reads {
            self.plan_read(output, property, When::Now);
        }
    }
}
