//! REALs and whole numbers, good and bad, with a love for the edges.

use plain::real::{HUNDRED_PERCENT, ONE_PERCENT};

use crate::random::Random;

pub use events::edges::EDGE_TIMES;

/// The least and the greatest fade time and duration of document 01; §7 has
/// taken fade times above four hours away.
pub const SHORTEST: u32 = 100;
pub const LONGEST: u32 = 86_400_000;
/// A duration that is not there.
pub const ABSENT: u32 = 0xFFFF_FFFF;
/// Levels as REALs; those of `plain::real` are in units.
pub const REAL_ONE_PERCENT: u32 = 0x3F80_0000;
pub const REAL_HUNDRED_PERCENT: u32 = 0x42C8_0000;
/// The least rate and the least step, in units.
pub const LEAST: u32 = ONE_PERCENT / 8;

/// The middle of a unit and the next. Doubled it has 24 bits at most, so it is a
/// REAL for every unit below 100 percent.
pub fn tie_above(unit: u32) -> u32 {
    let doubled = (2 * unit + 1) as f32;
    (doubled / (2 * ONE_PERCENT) as f32).to_bits()
}

/// As often in the middle as beside it.
pub fn about_tie_above(random: &mut Random, unit: u32) -> u32 {
    let tie = tie_above(unit);
    random.pick(&[tie, tie, tie - 1, tie + 1])
}

pub fn near_tie_in(random: &mut Random, least: u32, end: u32) -> u32 {
    let unit = random.between(least.into(), u64::from(end) - 1) as u32;
    about_tie_above(random, unit)
}

/// Anywhere that rates, steps or levels lie.
pub fn near_tie(random: &mut Random) -> u32 {
    near_tie_in(random, LEAST, HUNDRED_PERCENT)
}

/// The edges of the REAL ranges, of the format, and of the rounding.
pub fn edge_reals() -> Vec<u32> {
    let mut edges = vec![
        0x0000_0000, // zero
        0x8000_0000, // minus zero
        0x0000_0001, // the least subnormal
        0x007F_FFFF, // the greatest subnormal
        0x0080_0000, // the least normal
        0x8000_0001, // a negative subnormal
        0xBF80_0000, // minus one
        0xC2C8_0000, // minus hundred
        0x7F7F_FFFF, // the greatest of all
        0xFF7F_FFFF, // the least of all
        0x7F80_0000, // infinity
        0xFF80_0000, // minus infinity
        0x7FC0_0000, // NaN
        0xFFC0_0000, // NaN with a sign
        0x7F80_0001, // a signalling NaN
        0x3F00_0000, // a half percent
    ];
    for edge in [0.125_f32, 1.0, 100.0] {
        let bits = edge.to_bits();
        edges.extend([bits - 1, bits, bits + 1]);
    }
    edges
}

/// A percentage a person would write.
pub fn usual_percentage(random: &mut Random) -> u32 {
    let percent = match random.below(4) {
        0 => random.pick(&[1.0_f32, 2.0, 5.0, 10.0, 25.0, 50.0, 75.0, 99.0, 100.0]),
        1 => random.between(1, 100) as f32,
        2 => random.between(100, 10_000) as f32 / 100.0,
        _ => random.between(65_536, 6_553_600) as f32 / 65_536.0,
    };
    percent.to_bits()
}

/// A level above zero that no range refuses.
pub fn lit_level(random: &mut Random) -> u32 {
    match random.below(10) {
        0 => 0x3F00_0000,
        1 => random.between(1, 0x3F7F_FFFF) as u32,
        2 => 0x42C8_0000,
        _ => usual_percentage(random),
    }
}

pub fn zero(random: &mut Random) -> u32 {
    random.pick(&[0, 0, 0, 0x8000_0000])
}

/// Any level, mostly a good one.
pub fn level(random: &mut Random) -> u32 {
    match random.below(100) {
        0..=19 => zero(random),
        20..=69 => lit_level(random),
        70..=79 => near_tie(random),
        80..=95 => random.pick(&edge_reals()),
        _ => random.bits() as u32,
    }
}

pub fn good_level(random: &mut Random) -> u32 {
    if random.chance(25) {
        zero(random)
    } else {
        lit_level(random)
    }
}

/// Any rate or step, mostly a good one.
pub fn rate_or_step(random: &mut Random) -> u32 {
    match random.below(100) {
        0..=59 => usual_percentage(random),
        60..=69 => random.between(0x3E00_0000, 0x3F80_0000) as u32,
        70..=79 => near_tie(random),
        80..=96 => random.pick(&edge_reals()),
        _ => random.bits() as u32,
    }
}

/// Any minimum or maximum, mostly a good one.
pub fn bound(random: &mut Random) -> u32 {
    match random.below(100) {
        0..=54 => usual_percentage(random),
        55..=64 => random.pick(&[0x3F80_0000, 0x42C8_0000]),
        65..=74 => near_tie(random),
        75..=96 => random.pick(&edge_reals()),
        _ => random.bits() as u32,
    }
}

/// A fade time or a duration that is taken, short enough to be lived.
pub fn short_time(random: &mut Random) -> u32 {
    match random.below(10) {
        0..=2 => random.pick(&[100, 101, 200, 333, 1_000]),
        3..=8 => random.between(100, 2_000) as u32,
        _ => random.between(100, 20_000) as u32,
    }
}

/// Any fade time, mostly one that is taken.
pub fn fade_time(random: &mut Random) -> u32 {
    match random.below(100) {
        0..=84 => short_time(random),
        85..=97 => random.pick(&EDGE_TIMES),
        _ => random.bits() as u32,
    }
}

/// Any duration, mostly one that is taken.
pub fn duration(random: &mut Random) -> u32 {
    match random.below(100) {
        0..=44 => 0xFFFF_FFFF,
        45..=54 => 0,
        55..=91 => short_time(random),
        92..=98 => random.pick(&EDGE_TIMES),
        _ => random.bits() as u32,
    }
}

/// Absent mostly, and never refused.
pub fn good_duration(random: &mut Random) -> u32 {
    match random.below(10) {
        0..=5 => 0xFFFF_FFFF,
        6 => 0,
        _ => short_time(random),
    }
}

/// A blink time or delay that is taken, short enough to be lived.
pub fn short_blink_time(random: &mut Random) -> u32 {
    match random.below(10) {
        0..=2 => random.between(1, 3) as u32,
        3..=6 => random.between(1, 200) as u32,
        _ => random.between(100, 2_000) as u32,
    }
}

/// Any blink time or delay.
pub fn blink_time(random: &mut Random) -> u32 {
    match random.below(100) {
        0..=19 => 0,
        20..=84 => short_blink_time(random),
        85..=97 => random.pick(&EDGE_TIMES),
        _ => random.bits() as u32,
    }
}

/// The priorities that frames may name.
pub const PRIORITIES: [u8; 15] = [1, 2, 3, 4, 5, 7, 8, 9, 10, 11, 12, 13, 14, 15, 16];

pub const BAD_PRIORITIES: [u8; 6] = [0, 6, 17, 32, 128, 255];
