//! Levels in units of 1/65,536 percent, and the REALs they come from.

use crate::answer::Refusal;

pub const UNITS_PER_PERCENT: u32 = 65_536;
pub const LOWEST_LIT: u32 = UNITS_PER_PERCENT;
pub const HIGHEST: u32 = 100 * UNITS_PER_PERCENT;

/// Scaling by a power of two is exact, and a half goes to the even unit as the
/// machine's own rounding takes it (§5).
fn nearest_unit(real: f32) -> u32 {
    (real * UNITS_PER_PERCENT as f32).round_ties_even() as u32
}

pub fn level_from_real(real: f32) -> Result<u32, Refusal> {
    if real == 0.0 {
        Ok(0)
    } else if real > 0.0 && real <= 100.0 {
        Ok(nearest_unit(real.max(1.0)))
    } else {
        Err(Refusal::Real)
    }
}

/// A rate in units a second, or a step in units.
pub fn rate_or_step_from_real(real: f32) -> Result<u32, Refusal> {
    if is_rate_or_step(real) {
        Ok(nearest_unit(real))
    } else {
        Err(Refusal::Real)
    }
}

pub fn is_rate_or_step(real: f32) -> bool {
    (0.125..=100.0).contains(&real)
}

/// A minimum or a maximum.
pub fn bound_from_real(real: f32) -> Result<u32, Refusal> {
    if (1.0..=100.0).contains(&real) {
        Ok(nearest_unit(real))
    } else {
        Err(Refusal::Real)
    }
}

/// Whether a slot or the relinquish default may hold this level.
pub fn is_slot_level(level: u32) -> bool {
    level == 0 || (LOWEST_LIT..=HIGHEST).contains(&level)
}

/// What lies between two whole percents stands in the low bits of a level.
pub fn whole_percent(level: u32) -> u32 {
    level & !(UNITS_PER_PERCENT - 1)
}

/// At most 23 bits, so the float is exact and so is the division.
pub fn real_from_level(level: u32) -> f32 {
    level as f32 / UNITS_PER_PERCENT as f32
}
