//! Which scene comes next, by what an output is doing now.

use events::words::Situation;
use plain::settings::*;
use plain::{Answer, Output};

use crate::body::Body;
use crate::list::{Generator, Planned};
use crate::suite::Shares;
use crate::timing::When;
use crate::values::LONGEST;

impl Generator {
    pub(crate) fn output(&self, output: u8) -> &Output {
        &self.panel.outputs()[usize::from(output)]
    }

    /// Puts one or more frames into the plan.
    pub(crate) fn plan_scene(&mut self, output: u8) {
        // A program shows only its answers until the list ends: let it read.
        if self.random.chance(40) {
            self.plan_look(output);
        }
        match Situation::of(self.output(output)) {
            Situation::WarningDark | Situation::WarningLit => {
                self.plan_one_of(self.suite.in_warning, output)
            }
            Situation::Moving => self.plan_one_of(self.suite.in_movement, output),
            Situation::Dark | Situation::Lit => {
                let two_days = 2 * u64::from(LONGEST);
                if self.budget > two_days && self.random.chance(15) {
                    self.plan_whole_day(output);
                } else {
                    self.plan_one_of(self.suite.at_rest, output);
                }
            }
        }
    }

    fn plan_one_of(&mut self, shares: Shares, output: u8) {
        let all = shares.iter().map(|(share, _)| share).sum();
        let mut drawn = self.random.below(all);
        for (share, scene) in shares {
            if drawn < *share {
                return scene(self, output);
            }
            drawn -= share;
        }
    }

    /// Reads what changes by itself.
    fn plan_look(&mut self, output: u8) {
        let own_slot = self.output(output).warning.map(|warning| warning.slot);
        let winner = self.output(output).winner();
        let slot = own_slot.or(winner).unwrap_or(16);
        let looks = self.suite.tables.looks;
        let property = match self.random.below(looks.len() as u64 + 1) as usize {
            0 => FIRST_SLOT + slot - 1,
            place => looks[place - 1],
        };
        let when = self.random.pick(&[When::Now, When::Due, When::Whenever]);
        self.plan(output, Body::Read { property }, when);
    }

    pub(crate) fn plan(&mut self, output: u8, body: Body, when: When) {
        self.plan_from(None, output, Some(body), when);
    }

    pub(crate) fn plan_clock(&mut self, output: u8, when: When) {
        self.plan_from(None, output, None, when);
    }

    pub(crate) fn plan_from(
        &mut self,
        station: Option<u8>,
        output: u8,
        body: Option<Body>,
        when: When,
    ) {
        self.plan.push_back(Planned {
            output,
            body,
            when,
            station,
        });
    }

    pub(crate) fn plan_read(&mut self, output: u8, property: u8, when: When) {
        self.plan(output, Body::Read { property }, when);
    }

    pub(crate) fn plan_property(&mut self, output: u8, property: u8, value: u32) {
        self.plan(output, Body::WriteProperty { property, value }, When::Now);
    }

    /// Mostly without the write if the property reads so already.
    pub(crate) fn plan_setting(&mut self, output: u8, property: u8, value: u32) {
        let already = self.output(output).read_property(property) == Answer::Value(value);
        if !already || self.random.chance(5) {
            self.plan_property(output, property, value);
        }
    }

    pub(crate) fn plan_write(&mut self, output: u8, priority: u8, bits: u32) {
        self.plan(output, Body::Write { priority, bits }, When::Now);
    }

    pub(crate) fn plan_command(&mut self, output: u8, kind: u8, fields: &[u32]) {
        let fields = fields.to_vec();
        self.plan(output, Body::Command { kind, fields }, When::Now);
    }
}
