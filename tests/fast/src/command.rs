//! Lighting commands.

use crate::answer::{Answer, Refusal};
use crate::frame::Fields;
use crate::level::{level_from_real, rate_or_step_from_real};
use crate::output::{Command, Movement, Operation, Output, RunningDuration, SHORTEST_TIME};
use crate::parameters::Parameters;
use crate::tags::Tagged;

const ABSENT: u32 = u32::MAX;

fn is_time(milliseconds: u32, longest: u32) -> bool {
    (SHORTEST_TIME..=longest).contains(&milliseconds)
}

/// A duration that is not absent.
fn duration_in_range(parameters: &Parameters, milliseconds: u32) -> Result<u32, Refusal> {
    match milliseconds == 0 || is_time(milliseconds, parameters.longest_duration) {
        true => Ok(milliseconds),
        false => Err(Refusal::WholeNumber),
    }
}

/// What an operation comes to, in units and milliseconds.
enum Action {
    Stop,
    Fade { level: u32, length: u32 },
    Ramp { level: u32, rate: u32 },
    StepUp { step: u32 },
    StepDown { step: u32 },
    Jump { level: u32 },
    Relinquish,
}

impl Output {
    /// Reads operation and action, refusing at the first field out of range.
    fn operation(
        &self,
        parameters: &Parameters,
        kind: u8,
        fields: &mut Fields,
    ) -> Result<(Operation, Action), Refusal> {
        let settings = &self.settings;
        Ok(match kind {
            0x10 => (Operation::Stop, Action::Stop),
            0x11 => {
                let level = fields.real();
                let action = Action::Fade {
                    level: level_from_real(level)?,
                    length: settings.fade_time,
                };
                (Operation::FadeTo { level }, action)
            }
            0x12 => {
                let level = fields.real();
                let units = level_from_real(level)?;
                let fade_time = fields.whole();
                if !is_time(fade_time, parameters.longest_fade) {
                    return Err(Refusal::WholeNumber);
                }
                let action = Action::Fade {
                    level: units,
                    length: fade_time,
                };
                (Operation::FadeToOver { level, fade_time }, action)
            }
            0x13 => {
                let level = fields.real();
                let action = Action::Ramp {
                    level: level_from_real(level)?,
                    rate: rate_or_step_from_real(settings.ramp_rate)?,
                };
                (Operation::RampTo { level }, action)
            }
            0x14 => {
                let level = fields.real();
                let units = level_from_real(level)?;
                let rate = fields.real();
                let action = Action::Ramp {
                    level: units,
                    rate: rate_or_step_from_real(rate)?,
                };
                (Operation::RampToAtRate { level, rate }, action)
            }
            0x15 => {
                let step = rate_or_step_from_real(settings.step_increment)?;
                (Operation::StepUp, Action::StepUp { step })
            }
            0x16 => {
                let step = rate_or_step_from_real(settings.step_increment)?;
                (Operation::StepDown, Action::StepDown { step })
            }
            0x17 => {
                let step = fields.real();
                let action = Action::StepUp {
                    step: rate_or_step_from_real(step)?,
                };
                (Operation::StepUpBy { step }, action)
            }
            0x18 => {
                let step = fields.real();
                let action = Action::StepDown {
                    step: rate_or_step_from_real(step)?,
                };
                (Operation::StepDownBy { step }, action)
            }
            0x19 => {
                let level = fields.real();
                let action = Action::Jump {
                    level: level_from_real(level)?,
                };
                (Operation::Goto { level }, action)
            }
            0x1A => (Operation::Relinquish, Action::Relinquish),
            _ => unreachable!("kinds were checked before"),
        })
    }

    pub fn run_command(
        &mut self,
        parameters: &Parameters,
        now: u64,
        kind: u8,
        bytes: &[u8],
    ) -> Result<Answer, Refusal> {
        let mut fields = Fields::after_head(bytes);
        let (operation, action) = self.operation(parameters, kind, &mut fields)?;
        let duration = match fields.whole() {
            ABSENT => None,
            milliseconds => Some(duration_in_range(parameters, milliseconds)?),
        };
        self.carry_out(now, operation, action, duration);
        Ok(Answer::Done)
    }

    /// The tags are judged as a whole before any range.
    pub fn run_tagged_command(
        &mut self,
        parameters: &Parameters,
        now: u64,
        bytes: &[u8],
    ) -> Result<Answer, Refusal> {
        let tagged = Tagged::read(bytes)?;
        let (operation, action) = self.operation(parameters, tagged.kind, &mut tagged.fields())?;
        // Absent is a tag that is missing: FFFFFFFF is out of range here.
        let duration = tagged
            .duration
            .map(|duration| duration_in_range(parameters, duration))
            .transpose()?;
        self.carry_out(now, operation, action, duration);
        Ok(Answer::Done)
    }

    fn carry_out(&mut self, now: u64, operation: Operation, action: Action, duration: Option<u32>) {
        let priority = self.settings.command_priority;
        let start = self.progress_value(now);
        self.end_warning();
        self.run_action(now, priority, start, action);
        match duration {
            None => {}
            Some(0) => self.duration = None,
            Some(milliseconds) => {
                self.duration = Some(RunningDuration {
                    slot: priority,
                    end: now + u64::from(milliseconds),
                })
            }
        }
        self.last = Command {
            operation,
            duration,
        };
    }

    fn run_action(&mut self, now: u64, priority: u8, start: u32, action: Action) {
        match action {
            Action::Stop => {
                if self.owns_movement(priority) {
                    self.movement = None;
                    self.store(priority, self.settings.clamp_lit(start));
                }
            }
            Action::Fade { level, length } => {
                let target = self.settings.clamp_lit(level);
                let movement = Movement::fade(priority, start, target, now, length);
                self.head_for(priority, target, movement);
            }
            Action::Ramp { level, rate } => {
                let target = self.settings.clamp_lit(level);
                let movement = Movement::ramp(priority, start, target, now, rate);
                self.head_for(priority, target, movement);
            }
            Action::StepUp { step } => {
                let target = self.settings.clamp(start + step);
                self.head_for(priority, target, None);
            }
            Action::StepDown { step } => {
                // A dark output is not lit by a step down.
                let target = match start {
                    0 => 0,
                    _ => self.settings.clamp(start.saturating_sub(step)),
                };
                self.head_for(priority, target, None);
            }
            Action::Jump { level } => {
                let target = self.settings.clamp_lit(level);
                self.head_for(priority, target, None);
            }
            Action::Relinquish => {
                self.empty(priority);
                if self.owns_movement(priority) {
                    self.movement = None;
                }
            }
        }
    }

    fn head_for(&mut self, priority: u8, target: u32, movement: Option<Movement>) {
        self.store(priority, target);
        if self.winner() == Some(priority) {
            self.movement = movement;
        }
    }
}
