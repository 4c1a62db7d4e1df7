//! The proved conversions, behind safe functions. They have no `requires`, so every number may be handed over.

unsafe extern "C" {
    fn bobbinonyx_level(pattern: u32) -> u32;
    fn bobbinonyx_limit(pattern: u32) -> u32;
    fn bobbinonyx_amount(pattern: u32) -> u32;
    fn bobbinonyx_read_out(units: u32) -> u32;
}

/// What stands for a refusal.
const REFUSED: u32 = u32::MAX;

fn taken(units: u32) -> Option<u32> {
    (units != REFUSED).then_some(units)
}

pub fn level(pattern: u32) -> Option<u32> {
    taken(unsafe { bobbinonyx_level(pattern) })
}

pub fn limit(pattern: u32) -> Option<u32> {
    taken(unsafe { bobbinonyx_limit(pattern) })
}

pub fn amount(pattern: u32) -> Option<u32> {
    taken(unsafe { bobbinonyx_amount(pattern) })
}

pub fn read_out(units: u32) -> u32 {
    unsafe { bobbinonyx_read_out(units) }
}
