//! Levels, rates and steps from REALs, by the machine's own floats.

/// "A level is a whole number of 1/65,536 percent, 0 to 6,553,600."
pub const ONE_PERCENT: u32 = 65_536;
pub const HUNDRED_PERCENT: u32 = 6_553_600;

/// "The nearest unit", and §5: "round halves to the even unit; do so for
/// levels, rates and steps."
///
/// The product is exact in an f64, and so is what it has above the unit below
/// it: it is a half only where the REAL lies in the middle of two units.
fn nearest_unit(real: f32) -> u32 {
    let product = f64::from(real) * 65_536.0;
    let below = product.floor();
    let above_it = product - below;
    let below = below as u32;
    if above_it < 0.5 {
        below
    } else if above_it > 0.5 {
        below + 1
    } else if below.is_multiple_of(2) {
        below
    } else {
        below + 1
    }
}

/// "A REAL from 0 to 100 becomes the nearest unit; above 0 and below 1 it
/// becomes 65,536. Minus zero is 0. NaN, infinities, negatives and values above
/// 100 are refused." What is raised is not rounded: half a unit is 65,536 too.
pub fn level(bits: u32) -> Option<u32> {
    let real = f32::from_bits(bits);
    if !(0.0..=100.0).contains(&real) {
        None
    } else if real > 0.0 && real < 1.0 {
        Some(ONE_PERCENT)
    } else {
        Some(nearest_unit(real))
    }
}

/// "Rates (percent a second) and steps: REAL 0.125 to 100, to the nearest
/// unit, never raised to 65,536."
pub fn rate_or_step(bits: u32) -> Option<u32> {
    let real = f32::from_bits(bits);
    (0.125..=100.0).contains(&real).then(|| nearest_unit(real))
}

/// "08 Min 1 and 09 Max 100 (REAL 1 to 100)."
pub fn bound(bits: u32) -> Option<u32> {
    let real = f32::from_bits(bits);
    (1.0..=100.0).contains(&real).then(|| nearest_unit(real))
}

/// §8: "Rounded down to whole percent."
pub fn whole_percent(level: u32) -> u32 {
    level / ONE_PERCENT * ONE_PERCENT
}

/// "A level is read out as one division by 65,536, nothing lost."
pub fn level_as_real(level: u32) -> u32 {
    (level as f32 / 65_536.0).to_bits()
}
