//! When the next frame comes: now, a little later, or aimed at a due moment or
//! at the moment at which a movement's light begins or ends.

use events::jump::Far;
use plain::frame::LAST_TIME;
use plain::movement::Movement;
use plain::Output;

use crate::list::Generator;

#[derive(Clone, Copy, Debug)]
pub enum When {
    /// In the same millisecond as the panel.
    Now,
    /// At a due moment of the output, or one millisecond beside it.
    Due,
    /// After so many milliseconds, if the budget allows them to be lived.
    After(u64),
    /// When so many milliseconds of the output's movement are left.
    Left(u64),
    /// So many milliseconds after the light of the output's movement begins or
    /// ends (§2), or before it.
    Light(i64),
    /// So far after the start of the output's movement, or from now (§4).
    Far {
        far: Far,
        since_start: bool,
    },
    /// So many milliseconds, below 2^32, before the low 32 bits of the panel's
    /// time are 0 (§4).
    BeforeWrap(u64),
    /// When the burning time of an output that rests is a whole number of
    /// seconds, or one millisecond before: there a wrong millisecond is read.
    WholeSecond {
        before: bool,
    },
    /// One millisecond before the panel's time: too late.
    Late,
    Whenever,
}

/// Milliseconds until the due moments of an output.
fn due_moments(output: &Output) -> Vec<u64> {
    let mut moments = Vec::new();
    if let Some(duration) = &output.duration {
        moments.push(duration.left);
    }
    if let Some(movement) = &output.movement {
        moments.push(movement.length - movement.gone);
    }
    if let Some(warning) = &output.warning {
        if warning.gone < warning.dark_time {
            moments.push(warning.dark_time - warning.gone);
        }
        moments.push(warning.dark_time + warning.lit_time - warning.gone);
    }
    moments
}

/// Milliseconds until nothing is pending any more.
pub(crate) fn pending(output: &Output) -> u64 {
    due_moments(output).into_iter().max().unwrap_or(0)
}

/// Milliseconds from a movement's start to the first moment at which it is lit
/// though it was dark, or dark though it was lit; else to its end.
fn light_turns(movement: &Movement) -> u64 {
    let lit = |gone| movement.level_after(gone) > 0;
    let (mut before, mut turned) = (0, movement.length);
    while turned - before > 1 {
        let middle = (before + turned) / 2;
        match lit(middle) == lit(0) {
            true => before = middle,
            false => turned = middle,
        }
    }
    turned
}

impl Generator {
    /// How many milliseconds the outputs would have to live one by one.
    fn cost(&self, jump: u64) -> u64 {
        let outputs = self.panel.outputs().iter();
        outputs.map(|output| pending(output).min(jump)).sum()
    }

    /// The jump if it can be afforded, else a short one.
    fn affordable(&mut self, jump: u64) -> u64 {
        let jump = jump.min(LAST_TIME - self.panel.time());
        let jump = if self.cost(jump) <= self.budget {
            jump
        } else {
            jump.min(self.random.below(3))
        };
        self.budget = self.budget.saturating_sub(self.cost(jump));
        jump
    }

    fn due_jump(&mut self, output: u8) -> u64 {
        let output = &self.panel.outputs()[usize::from(output)];
        let mut moments = due_moments(output);
        if let Some(movement) = &output.movement {
            let turns = light_turns(movement);
            moments.extend((turns > movement.gone).then(|| turns - movement.gone));
        }
        if moments.is_empty() {
            return self.random.below(50);
        }
        let moment = self.random.pick(&moments);
        match self.random.below(8) {
            0 | 1 => moment - 1,
            2..=4 => moment,
            5 => moment + 1,
            6 => moment / 2,
            _ => self.random.below(moment + 1),
        }
    }

    /// Nothing if the moment is past.
    fn light_jump(&self, output: u8, offset: i64) -> Option<u64> {
        let movement = self.output(output).movement.as_ref()?;
        light_turns(movement)
            .checked_add_signed(offset)?
            .checked_sub(movement.gone)
    }

    /// Nothing without a movement, or too late for it.
    fn jump_to_left(&self, output: u8, left: u64) -> Option<u64> {
        let movement = self.output(output).movement.as_ref()?;
        (movement.length - movement.gone).checked_sub(left)
    }

    /// Nothing without a movement.
    fn far_jump(&self, output: u8, far: Far, since_start: bool) -> Option<u64> {
        let movement = self.output(output).movement.as_ref()?;
        let before = if since_start { movement.gone } else { 0 };
        far.milliseconds(movement.length).checked_sub(before)
    }

    fn wrap_jump(&self, before: u64) -> u64 {
        let low = (self.panel.time() + before) as u32;
        low.wrapping_neg().into()
    }

    /// Nothing if the output does not burn, or not only.
    fn second_jump(&self, output: u8, before: bool) -> Option<u64> {
        let output = self.output(output);
        let burns = output.nothing_pending() && output.present_value() > 0;
        burns.then(|| 1_000 - output.burning % 1_000 - u64::from(before))
    }

    /// The time of the next frame.
    pub fn next_time(&mut self, output: u8, when: When) -> u64 {
        let jump = match when {
            When::Late => return self.panel.time().saturating_sub(1),
            When::Now => 0,
            When::Due => self.due_jump(output),
            When::After(jump) => jump,
            When::Left(left) => self.jump_to_left(output, left).unwrap_or(0),
            When::Light(offset) => self.light_jump(output, offset).unwrap_or(0),
            When::Far { far, since_start } => self.far_jump(output, far, since_start).unwrap_or(0),
            When::BeforeWrap(before) => self.wrap_jump(before),
            When::WholeSecond { before } => self.second_jump(output, before).unwrap_or(0),
            When::Whenever => match self.random.below(1_000) {
                0..=399 => 0,
                400..=499 => 1,
                500..=599 => self.random.between(2, 20),
                600..=799 => self.due_jump(output),
                800..=949 => self.random.below(1_500),
                950..=984 => self.random.below(60_000),
                985..=994 => self.random.below(3_600_000),
                995..=998 => self.random.below(5 * 86_400_000),
                _ => 1 << self.random.between(31, 42),
            },
        };
        self.panel.time() + self.affordable(jump)
    }
}
