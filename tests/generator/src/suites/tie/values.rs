//! REALs exactly between two units (§5), and one pattern beside them.

use plain::real::{HUNDRED_PERCENT, ONE_PERCENT};

use crate::random::Random;
use crate::values::{near_tie_in, tie_above, LEAST};

pub use crate::values::about_tie_above;

/// From here on REALs are half a unit apart: every second one is a tie, and the
/// pattern beside it is a unit.
const SIXTY_FOUR: u32 = 64 * ONE_PERCENT;
/// Half a unit, which rounding would make 0.
const HALF_A_UNIT: u32 = 0x3700_0000;

/// A level that is rounded, a Min or a Max.
pub fn level(random: &mut Random) -> u32 {
    match random.chance(50) {
        true => near_tie_in(random, ONE_PERCENT, SIXTY_FOUR),
        false => near_tie_in(random, SIXTY_FOUR, HUNDRED_PERCENT),
    }
}

/// A rate or a step: below one percent too it is rounded and not raised.
pub fn rate_or_step(random: &mut Random) -> u32 {
    match random.below(3) {
        0 => near_tie_in(random, LEAST, ONE_PERCENT),
        _ => level(random),
    }
}

/// A rate of which the next one is reached some milliseconds sooner over a few
/// percent.
pub fn slow_rate(random: &mut Random) -> u32 {
    near_tie_in(random, LEAST, 2 * LEAST)
}

/// A level that is raised, and that rounding before it would make 0, or would
/// find between two units.
pub fn raised(random: &mut Random) -> u32 {
    match random.below(4) {
        0 => HALF_A_UNIT,
        1 => random.between(1, HALF_A_UNIT.into()) as u32,
        _ => tie_above(random.between(1, u64::from(ONE_PERCENT) - 1) as u32),
    }
}

/// Mostly one that is rounded.
pub fn rounded_or_raised(random: &mut Random) -> u32 {
    match random.chance(75) {
        true => level(random),
        false => raised(random),
    }
}
