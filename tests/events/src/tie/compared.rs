//! Min and Max, or the relay's two values, are compared: refusals 13 and 16.

use plain::real;
use plain::settings::*;
use plain::Output;

use super::{in_units, Decider, Tie, TieEvent};
use crate::words::Hexadecimal;

/// Which of the properties that are compared hold the even unit below the REAL
/// that was written.
#[derive(Clone, Copy, Default)]
pub struct BelowATie {
    /// A bit for each property.
    properties: u32,
}

impl BelowATie {
    fn contains(self, property: u8) -> bool {
        self.properties >> property & 1 == 1
    }

    /// A property was written with this REAL, and it was taken.
    pub fn written(&mut self, property: u8, value: u32) {
        if let MINIMUM | MAXIMUM | BINARY_ACTIVE_VALUE | BINARY_INACTIVE_VALUE = property {
            let bit = 1 << property;
            match is_below_tie(value) {
                true => self.properties |= bit,
                false => self.properties &= !bit,
            }
        }
    }
}

/// Whether it becomes the even unit below it, and not the one above.
fn is_below_tie(bits: u32) -> bool {
    f32::from_bits(bits) >= 1.0 && Tie::of(bits).contains(&Tie::LowerEven)
}

/// A property was written, or refused; the output is as that has left it.
pub fn decision(
    output: &Output,
    below_a_tie: BelowATie,
    property: u8,
    value: u32,
    mut note: impl FnMut(TieEvent),
) {
    let settings = &output.settings;
    let (other, stored) = match property {
        MINIMUM => (MAXIMUM, settings.maximum),
        MAXIMUM => (MINIMUM, settings.minimum),
        BINARY_ACTIVE_VALUE => (BINARY_INACTIVE_VALUE, settings.binary_inactive_value),
        BINARY_INACTIVE_VALUE => (BINARY_ACTIVE_VALUE, settings.binary_active_value),
        _ => return,
    };
    let is_bound = matches!(property, MINIMUM | MAXIMUM);
    let units = match is_bound {
        true => real::bound(value),
        false => real::level(value),
    };
    let Some(written) = units else {
        return;
    };
    let takes = |written: u32, stored: u32| match property {
        MINIMUM => written <= stored,
        MAXIMUM => stored <= written,
        BINARY_ACTIVE_VALUE => stored < written,
        _ => written < stored,
    };
    let up = |unit: u32, below_a_tie: bool| unit + u32::from(below_a_tie);
    let written_below = is_below_tie(value);
    let taken = takes(written, stored);
    let property = Hexadecimal(property);
    if takes(
        up(written, written_below),
        up(stored, below_a_tie.contains(other)),
    ) != taken
    {
        let by = match written_below {
            true => Decider::Written,
            false => Decider::Stored,
        };
        note(TieEvent::Decided {
            property,
            taken,
            by,
        });
    }
    let real = in_units(value);
    let beyond = match other {
        MAXIMUM => real > f64::from(stored),
        _ => real < f64::from(stored),
    };
    if is_bound && taken && beyond {
        note(TieEvent::SameBound { property });
    }
}
