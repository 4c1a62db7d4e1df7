//! The same conversions by the machine's own binary32 and binary64, written from document 01 and §5 of document 02.

const UNITS: f64 = 65_536.0;

/// The even one of two units that a REAL lies in the middle of (§5).
#[derive(Clone, Copy, Debug, PartialEq, Eq)]
pub enum Even {
    Below,
    Above,
}

/// 'The nearest unit', and of §5 'halves to the even unit'. A REAL from 0.125 to 100 times 65,536 has at most ten bits behind the point, so nothing is lost.
fn nearest(real: f32) -> u32 {
    (f64::from(real) * UNITS).round_ties_even() as u32
}

/// Where a REAL from `low` to 100 lies exactly between two units: which of them it became. A level below 1 is raised and never rounded, so for levels `low` is 1.
pub fn tie(low: f32, pattern: u32) -> Option<Even> {
    let real = f32::from_bits(pattern);
    let rounded_by = f64::from(from_to(low, real)?) - f64::from(real) * UNITS;
    match rounded_by.abs() == 0.5 {
        true if rounded_by > 0.0 => Some(Even::Above),
        true => Some(Even::Below),
        false => None,
    }
}

fn from_to(low: f32, real: f32) -> Option<u32> {
    (real >= low && real <= 100.0).then(|| nearest(real))
}

/// 'A REAL from 0 to 100 becomes the nearest unit; above 0 and below 1 it becomes 65,536. Minus zero is 0.'
pub fn level(pattern: u32) -> Option<u32> {
    let real = f32::from_bits(pattern);
    if real == 0.0 {
        Some(0)
    } else if real > 0.0 && real < 1.0 {
        Some(65_536)
    } else {
        from_to(1.0, real)
    }
}

/// '08 Min 1 and 09 Max 100 (REAL 1 to 100)'
pub fn limit(pattern: u32) -> Option<u32> {
    from_to(1.0, f32::from_bits(pattern))
}

/// 'Rates (percent a second) and steps: REAL 0.125 to 100, to the nearest unit, never raised to 65,536.'
pub fn amount(pattern: u32) -> Option<u32> {
    from_to(0.125, f32::from_bits(pattern))
}

/// 'A level is read out as one division by 65,536, nothing lost.'
pub fn read_out(units: u32) -> u32 {
    ((f64::from(units) / UNITS) as f32).to_bits()
}

#[cfg(test)]
mod tests {
    use super::*;

    #[test]
    fn figure_4() {
        for conversion in [level, limit, amount] {
            assert_eq!(conversion(0x3F80_003F), Some(65_536));
            assert_eq!(conversion(0x3F80_0040), Some(65_536));
            assert_eq!(conversion(0x3F80_0041), Some(65_537));
            assert_eq!(conversion(0x3F80_00BF), Some(65_537));
            assert_eq!(conversion(0x3F80_00C0), Some(65_538));
        }
    }

    #[test]
    fn the_last_half() {
        for conversion in [level, limit, amount] {
            assert_eq!(conversion(0x42C7_FFFF), Some(6_553_600));
            assert_eq!(conversion(0x42C7_FFFD), Some(6_553_598));
            // a half too, but above 100
            assert_eq!(conversion(0x42C8_0001), None);
        }
        assert_eq!(tie(1.0, 0x42C7_FFFF), Some(Even::Above));
        assert_eq!(tie(1.0, 0x42C7_FFFE), None);
        assert_eq!(tie(1.0, 0x42C7_FFFD), Some(Even::Below));
        assert_eq!(tie(1.0, 0x42C8_0001), None);
    }

    #[test]
    fn below_one_percent() {
        // half a unit, one and a half, and 65,534 and a half
        for pattern in [0x0000_0001, 0x3700_0000, 0x37C0_0000, 0x3F7F_FE80] {
            assert_eq!(level(pattern), Some(65_536));
            assert_eq!(tie(1.0, pattern), None);
            assert_eq!(limit(pattern), None);
        }
        assert_eq!(amount(0x3F7F_FE80), Some(65_534));
        assert_eq!(tie(0.125, 0x3F7F_FE80), Some(Even::Below));
        assert_eq!(amount(0x3E00_0200), Some(8_192));
        assert_eq!(amount(0x3E00_0600), Some(8_194));
        assert_eq!(amount(0x3DFF_FFFF), None);
    }

    #[test]
    fn one_half_between_any_two_units() {
        for below in [8_192_u32, 8_193, 65_535, 65_536, 4_194_303, 4_194_304, 6_553_599] {
            let pattern = (((f64::from(below) + 0.5) / UNITS) as f32).to_bits();
            let even = if below % 2 == 0 { Even::Below } else { Even::Above };
            assert_eq!(tie(0.125, pattern), Some(even));
            assert_eq!(amount(pattern), Some(below + below % 2));
        }
    }
}
