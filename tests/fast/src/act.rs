//! What a frame does once the panel has come to its time.

use crate::answer::{Answer, Refusal};
use crate::frame::{u32_at, Head, HEAD_LENGTH};
use crate::level::level_from_real;
use crate::output::{Output, Warning, WARNING_PRIORITY};
use crate::parameters::Parameters;
use crate::tags::TAGGED_COMMAND;

pub fn is_priority(number: u32) -> bool {
    matches!(number, 1..=5 | 7..=16)
}

impl Output {
    pub fn act(
        &mut self,
        parameters: &Parameters,
        now: u64,
        kind: u8,
        bytes: &[u8],
    ) -> Result<Answer, Refusal> {
        let byte_field = bytes[HEAD_LENGTH];
        let answer = match kind {
            0x02 => self.write_present_value(now, byte_field, f32::from_bits(u32_at(bytes, 14))),
            0x03 => self.empty_a_slot(byte_field),
            0x04 => self.write_property(parameters, byte_field, u32_at(bytes, 14)),
            0x05 if parameters.is_tenant(Head::of(bytes).station) => {
                self.read_as_tenant(now, byte_field)
            }
            0x05 => self.read_property(now, byte_field),
            TAGGED_COMMAND => self.run_tagged_command(parameters, now, bytes),
            _ => self.run_command(parameters, now, kind, bytes),
        }?;
        self.judge();
        Ok(answer)
    }

    fn write_present_value(
        &mut self,
        now: u64,
        priority: u8,
        real: f32,
    ) -> Result<Answer, Refusal> {
        if !is_priority(u32::from(priority)) {
            return Err(Refusal::Priority);
        }
        let level = level_from_real(real)?;
        if self.warning.is_some() {
            self.end_warning();
            if level == 0 && priority > WARNING_PRIORITY {
                self.empty(priority);
            } else {
                self.store(priority, level);
            }
            return Ok(Answer::Done);
        }
        if level == 0 && self.warns_before_off(priority) {
            self.start_warning(now, priority);
        }
        self.store(priority, level);
        if self
            .movement
            .is_some_and(|movement| priority <= movement.owner)
        {
            self.movement = None;
        }
        Ok(Answer::Done)
    }

    /// Whether switching off at this priority is announced by a warning.
    fn warns_before_off(&self, priority: u8) -> bool {
        let settings = &self.settings;
        settings.blink_enable
            && settings.blink_time + settings.blink_warn_delay > 0
            && priority > WARNING_PRIORITY
            && self.winner().is_none_or(|winner| winner >= priority)
            && self.present_value() > 0
            && settings.relinquish_default == 0
            && (priority + 1..=16).all(|weaker| self.slot(weaker).unwrap_or(0) == 0)
    }

    fn start_warning(&mut self, now: u64, priority: u8) {
        let turn = now + u64::from(self.settings.blink_time);
        let warning = Warning {
            slot: priority,
            level: self.present_value(),
            turn,
            end: turn + u64::from(self.settings.blink_warn_delay),
        };
        let shown = if now < turn { 0 } else { warning.level };
        self.store(WARNING_PRIORITY, shown);
        self.warning = Some(warning);
    }

    /// A warning goes on, with its own slot empty too.
    fn empty_a_slot(&mut self, priority: u8) -> Result<Answer, Refusal> {
        if !is_priority(u32::from(priority)) {
            return Err(Refusal::Priority);
        }
        self.empty(priority);
        if self.owns_movement(priority) {
            self.movement = None;
        }
        Ok(Answer::Done)
    }
}
