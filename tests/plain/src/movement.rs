//! Fades and ramps.

use crate::output::Output;

#[derive(Clone, Copy, Debug, PartialEq, Eq)]
pub enum Pace {
    Fade,
    Ramp { units_a_second: u32 },
}

#[derive(Clone, Copy, Debug, PartialEq, Eq)]
pub struct Movement {
    /// "A movement belongs to the winner."
    pub owner: u8,
    pub from: u32,
    pub to: u32,
    pub pace: Pace,
    /// The paper's L.
    pub length: u64,
    /// The paper's k, below L while the movement lasts.
    pub gone: u64,
    /// Progress_Value after `gone` milliseconds.
    pub reached: u32,
}

impl Movement {
    /// "If s = g there is no movement."
    pub fn fade(owner: u8, from: u32, to: u32, length: u32) -> Option<Movement> {
        (from != to).then_some(Movement {
            owner,
            from,
            to,
            pace: Pace::Fade,
            length: u64::from(length),
            gone: 0,
            reached: from,
        })
    }

    /// "L = ceiling(1,000 × |g - s| / R)."
    pub fn ramp(owner: u8, from: u32, to: u32, units_a_second: u32) -> Option<Movement> {
        let thousandfold = 1_000 * u64::from(from.abs_diff(to));
        (from != to).then_some(Movement {
            owner,
            from,
            to,
            pace: Pace::Ramp { units_a_second },
            length: thousandfold.div_ceil(u64::from(units_a_second)),
            gone: 0,
            reached: from,
        })
    }

    /// "k ms later, s plus or minus floor(|g - s| × k / L)"; "ramp at R units a
    /// second: floor(R × k / 1,000), stopping at g".
    pub fn level_after(&self, gone: u64) -> u32 {
        let way = u64::from(self.from.abs_diff(self.to));
        let gone_way = match self.pace {
            Pace::Fade => way * gone / self.length,
            Pace::Ramp { units_a_second } => (u64::from(units_a_second) * gone / 1_000).min(way),
        } as u32;
        if self.to > self.from {
            self.from + gone_way
        } else {
            self.from - gone_way
        }
    }
}

impl Output {
    /// One millisecond: "then Progress_Value by the movement's formula", and
    /// "over at k = L".
    pub fn pass_movement(&mut self) {
        if let Some(movement) = &mut self.movement {
            movement.gone += 1;
            movement.reached = movement.level_after(movement.gone);
            if movement.gone == movement.length {
                self.movement = None;
            }
        }
    }
}
