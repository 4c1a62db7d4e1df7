//! What is needed by panels that send a half up in one field, and to the even
//! unit in all others (§5).

/// The unit that a REAL becomes if halves go up, where `units` is what it
/// becomes otherwise.
pub fn up(units: u32, real: f32) -> u32 {
    units.max((real * 65_536.0).round() as u32)
}
