//! What is done next to an output that warns or moves, and to slots beside the
//! winner.

use events::words::COMMANDS;
use plain::settings::*;

use crate::body::Body;
use crate::list::Generator;
use crate::timing::When;
use crate::values::{self, PRIORITIES};

impl Generator {
    /// Mostly at a due moment.
    pub(crate) fn sometime(&mut self) -> When {
        self.random
            .pick(&[When::Due, When::Due, When::Now, When::Whenever])
    }

    pub(crate) fn plan_in_warning(&mut self, output: u8) {
        let when = self.sometime();
        match self.random.below(96) {
            0..=24 => self.plan_command_of_rank(output, when),
            25..=44 => self.plan_slot_of_rank(output, when),
            45..=54 => self.plan_own_slot_in_warning(output, when),
            55..=74 => {
                let body = self.any_property_write(output);
                self.plan(output, body, when);
            }
            75..=84 => {
                let property = self
                    .random
                    .pick(&[PRESENT_VALUE, PROGRESS_VALUE, IN_PROCESS, 0x26]);
                self.plan(output, Body::Read { property }, When::Due);
            }
            85 => self.plan_refused_bound_in_warning(output, when),
            _ => self.plan_anything(output, when),
        }
    }

    pub(crate) fn plan_in_movement(&mut self, output: u8) {
        let when = self.sometime();
        match self.random.below(98) {
            0..=34 => self.plan_command_of_rank(output, when),
            35..=54 => self.plan_slot_of_rank(output, when),
            55..=64 => {
                let body = self.any_property_write(output);
                self.plan(output, body, when);
            }
            65..=84 => {
                let property = self
                    .random
                    .pick(&[PRESENT_VALUE, PROGRESS_VALUE, IN_PROCESS]);
                self.plan(output, Body::Read { property }, When::Due);
            }
            85..=89 => self.plan_second_slot_with_duration(output),
            90..=91 => self.plan_command_to_reached_level(output),
            _ => self.plan_anything(output, when),
        }
    }

    fn plan_anything(&mut self, output: u8, when: When) {
        let body = self.any_body(output);
        self.plan(output, body, when);
    }

    pub(crate) fn plan_anything_at_rest(&mut self, output: u8) {
        self.plan_anything(output, When::Whenever);
    }

    pub(crate) fn plan_command_at_rest(&mut self, output: u8) {
        self.plan_command_of_rank(output, When::Whenever);
    }

    pub(crate) fn plan_slot_at_rest(&mut self, output: u8) {
        self.plan_slot_of_rank(output, When::Whenever);
    }

    /// The warning's own slot is written or emptied.
    fn plan_own_slot_in_warning(&mut self, output: u8, when: When) {
        let slot = self
            .output(output)
            .warning
            .as_ref()
            .map_or(16, |warning| warning.slot);
        let body = match self.random.below(4) {
            0 => Body::Write {
                priority: slot,
                bits: values::zero(&mut self.random),
            },
            1 => Body::Write {
                priority: slot,
                bits: values::lit_level(&mut self.random),
            },
            _ => Body::Empty { priority: slot },
        };
        self.plan(output, body, when);
    }

    /// A priority that stands to the winner in a way chosen by chance.
    fn priority_by_rank(&mut self, output: u8) -> u8 {
        let winner = self.output(output).winner().unwrap_or(16);
        let wanted = self.random.below(3);
        let fitting: Vec<u8> = PRIORITIES
            .into_iter()
            .filter(|priority| match wanted {
                0 => *priority < winner,
                1 => *priority == winner,
                _ => *priority > winner,
            })
            .collect();
        if fitting.is_empty() {
            self.random.pick(&PRIORITIES)
        } else {
            self.random.pick(&fitting)
        }
    }

    /// A command whose priority is stronger than, equal to or weaker than the
    /// winner's.
    fn plan_command_of_rank(&mut self, output: u8, when: When) {
        let priority = self.priority_by_rank(output);
        let kind = self.random.pick(&COMMANDS);
        let command = if self.random.chance(80) {
            self.good_command(kind)
        } else {
            self.any_command(kind)
        };
        if self.output(output).settings.lighting_command_priority == priority {
            self.plan(output, command, when);
        } else {
            self.plan_command_priority(output, priority, when);
            self.plan(output, command, When::Now);
        }
    }

    pub(crate) fn plan_command_priority(&mut self, output: u8, priority: u8, when: When) {
        let body = Body::WriteProperty {
            property: LIGHTING_COMMAND_PRIORITY,
            value: u32::from(priority),
        };
        self.plan(output, body, when);
    }

    /// A slot stronger than, equal to or weaker than the winner is written or
    /// emptied.
    fn plan_slot_of_rank(&mut self, output: u8, when: When) {
        let priority = self.priority_by_rank(output);
        let body = self.some_slot_body(priority);
        self.plan(output, body, when);
    }

    pub(crate) fn some_slot_body(&mut self, priority: u8) -> Body {
        match self.random.below(3) {
            0 => Body::Write {
                priority,
                bits: values::zero(&mut self.random),
            },
            1 => Body::Write {
                priority,
                bits: values::lit_level(&mut self.random),
            },
            _ => Body::Empty { priority },
        }
    }
}
