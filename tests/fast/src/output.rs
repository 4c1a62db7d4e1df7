//! An output's record.

use crate::level::{HIGHEST, LOWEST_LIT, UNITS_PER_PERCENT};
use crate::parameters::Parameters;

pub const WARNING_PRIORITY: u8 = 6;
/// Of blink times. No panel has a longer duration either.
pub const LONGEST_TIME: u32 = 86_400_000;
pub const SHORTEST_TIME: u32 = 100;

#[derive(Clone, Copy, Debug)]
pub struct Settings {
    pub relinquish_default: u32,
    pub fade_time: u32,
    pub ramp_rate: f32,
    pub step_increment: f32,
    pub blink_enable: bool,
    pub blink_time: u32,
    pub blink_warn_delay: u32,
    pub minimum: u32,
    pub maximum: u32,
    pub command_priority: u8,
    /// The relay turns on from this level upward, and off from
    /// `inactive_value` downward.
    pub active_value: u32,
    pub inactive_value: u32,
    /// The relay is on while it would be off otherwise.
    pub reverse: bool,
}

impl Settings {
    pub fn fresh(parameters: &Parameters) -> Settings {
        Settings {
            relinquish_default: 0,
            fade_time: parameters.fresh_fade(),
            ramp_rate: 10.0,
            step_increment: 5.0,
            blink_enable: false,
            blink_time: 0,
            blink_warn_delay: 0,
            minimum: LOWEST_LIT,
            maximum: HIGHEST,
            command_priority: 16,
            active_value: 50 * UNITS_PER_PERCENT,
            inactive_value: 45 * UNITS_PER_PERCENT,
            reverse: false,
        }
    }

    pub fn clamp(&self, level: u32) -> u32 {
        level.clamp(self.minimum, self.maximum)
    }

    /// Zero stays zero.
    pub fn clamp_lit(&self, level: u32) -> u32 {
        if level == 0 {
            0
        } else {
            self.clamp(level)
        }
    }
}

#[derive(Clone, Copy, Debug)]
pub enum Pace {
    Fade,
    Ramp { units_per_second: u32 },
}

#[derive(Clone, Copy, Debug)]
pub struct Movement {
    pub owner: u8,
    pub from: u32,
    pub to: u32,
    pub began: u64,
    pub length: u32,
    pub pace: Pace,
}

impl Movement {
    /// Nothing to do if the level is there already.
    pub fn fade(owner: u8, from: u32, to: u32, began: u64, length: u32) -> Option<Movement> {
        (from != to).then_some(Movement {
            owner,
            from,
            to,
            began,
            length,
            pace: Pace::Fade,
        })
    }

    pub fn ramp(owner: u8, from: u32, to: u32, began: u64, rate: u32) -> Option<Movement> {
        // At the least rate, 8,192 units a second, all of the way takes
        // 800,000 ms.
        let length = (1_000 * u64::from(from.abs_diff(to))).div_ceil(u64::from(rate)) as u32;
        (from != to).then_some(Movement {
            owner,
            from,
            to,
            began,
            length,
            pace: Pace::Ramp {
                units_per_second: rate,
            },
        })
    }

    pub fn end(&self) -> u64 {
        self.began + u64::from(self.length)
    }

    /// The milliseconds since its beginning, and no more than its length once it
    /// is over. That is decided on 64 bits, and the one place that makes 32 of
    /// them comes after it (§4): 2^32 + 5 ms do not look like 5.
    fn gone_at(&self, time: u64) -> u32 {
        let gone = time.saturating_sub(self.began);
        gone.min(u64::from(self.length)) as u32
    }

    /// The level at a moment from the beginning on.
    pub fn level_at(&self, time: u64) -> u32 {
        let gone = self.gone_at(time);
        if gone == self.length {
            return self.to;
        }
        let way = self.from.abs_diff(self.to);
        let gone_way = match self.pace {
            Pace::Fade => (u64::from(way) * u64::from(gone) / u64::from(self.length)) as u32,
            Pace::Ramp { units_per_second } => {
                let ramped = u64::from(units_per_second) * u64::from(gone) / 1_000;
                ramped.min(u64::from(way)) as u32
            }
        };
        if self.to > self.from {
            self.from + gone_way
        } else {
            self.from - gone_way
        }
    }
}

/// Slot 6 holds 0 until `turn`, then `level` until `end`.
#[derive(Clone, Copy, Debug)]
pub struct Warning {
    pub slot: u8,
    pub level: u32,
    pub turn: u64,
    pub end: u64,
}

impl Warning {
    /// With a delay, the warning's own slot empties together with slot 6.
    pub fn has_delay(&self) -> bool {
        self.turn < self.end
    }
}

#[derive(Clone, Copy, Debug)]
pub struct RunningDuration {
    pub slot: u8,
    pub end: u64,
}

/// A lighting operation with its fields as they were written.
#[derive(Clone, Copy, Debug)]
pub enum Operation {
    Stop,
    FadeTo { level: f32 },
    FadeToOver { level: f32, fade_time: u32 },
    RampTo { level: f32 },
    RampToAtRate { level: f32, rate: f32 },
    StepUp,
    StepDown,
    StepUpBy { step: f32 },
    StepDownBy { step: f32 },
    Goto { level: f32 },
    Relinquish,
}

#[derive(Clone, Copy, Debug)]
pub struct Command {
    pub operation: Operation,
    pub duration: Option<u32>,
}

#[derive(Clone, Copy, Debug)]
pub struct Output {
    /// Bit `p - 1` says whether slot `p` is live.
    pub live: u16,
    /// A slot that is not live holds 0.
    pub levels: [u32; 16],
    pub settings: Settings,
    pub movement: Option<Movement>,
    pub warning: Option<Warning>,
    pub duration: Option<RunningDuration>,
    pub last: Command,
    pub burning: u64,
    /// What the relay was told last.
    pub active: bool,
}

impl Output {
    pub fn fresh(parameters: &Parameters) -> Output {
        Output {
            live: 0,
            levels: [0; 16],
            settings: Settings::fresh(parameters),
            movement: None,
            warning: None,
            duration: None,
            last: Command {
                operation: Operation::Stop,
                duration: None,
            },
            burning: 0,
            active: false,
        }
    }

    pub fn is_live(&self, priority: u8) -> bool {
        self.live & bit(priority) != 0
    }

    pub fn slot(&self, priority: u8) -> Option<u32> {
        self.is_live(priority)
            .then_some(self.levels[usize::from(priority - 1)])
    }

    pub fn store(&mut self, priority: u8, level: u32) {
        self.live |= bit(priority);
        self.levels[usize::from(priority - 1)] = level;
    }

    pub fn empty(&mut self, priority: u8) {
        self.live &= !bit(priority);
        self.levels[usize::from(priority - 1)] = 0;
    }

    pub fn winner(&self) -> Option<u8> {
        (self.live != 0).then(|| self.live.trailing_zeros() as u8 + 1)
    }

    pub fn present_value(&self) -> u32 {
        let level = match self.winner() {
            Some(priority) => self.levels[usize::from(priority - 1)],
            None => self.settings.relinquish_default,
        };
        self.settings.clamp_lit(level)
    }

    pub fn progress_value(&self, time: u64) -> u32 {
        match &self.movement {
            Some(movement) => movement.level_at(time),
            None => self.present_value(),
        }
    }

    pub fn owns_movement(&self, priority: u8) -> bool {
        self.movement
            .is_some_and(|movement| movement.owner == priority)
    }
}

fn bit(priority: u8) -> u16 {
    1 << (priority - 1)
}
