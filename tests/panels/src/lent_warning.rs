//! A warning that the record rules allow in a lent table though no list brings
//! it about: with a slot stronger than slot 6 that is live, and whose duration
//! falls due in the millisecond in which the warning turns.
//!
//! In every list slot 6 wins as long as a warning lasts, so that the duration
//! does not move Present_Value there. Here it does, and the relay (§3) is judged
//! once after both.

use plain::output::RunningDuration;
use plain::warning::Warning;
use plain::{Output, Parameters};

/// At panel time 0, in its dark phase.
#[derive(Clone, Copy, Debug)]
pub struct LentWarning {
    /// What the stronger slot holds.
    pub stronger: u32,
    /// The warning's Y.
    pub level: u32,
    pub active: bool,
}

pub const STRONGER_SLOT: u8 = 3;
pub const BLINK_SLOT: u8 = 6;
pub const OWN_SLOT: u8 = 9;
/// When the duration falls due and the warning turns.
pub const DUE: u64 = 100;
/// A clock of that moment.
pub const CLOCK: [u8; 7] = [0x01, 0, 0, 0, 0, 0, DUE as u8];

const HIGH: u32 = 60 * 65_536;
const BETWEEN: u32 = 47 * 65_536;
const LOW: u32 = 40 * 65_536;

/// All that judging leaves so, by the fresh values.
pub fn lent_warnings() -> Vec<LentWarning> {
    let mut warnings = Vec::new();
    for (stronger, active) in [
        (HIGH, true),
        (BETWEEN, true),
        (BETWEEN, false),
        (LOW, false),
    ] {
        for level in [HIGH, BETWEEN, LOW] {
            warnings.push(LentWarning {
                stronger,
                level,
                active,
            });
        }
    }
    warnings
}

impl LentWarning {
    /// Binary_Present_Value at that moment, the milliseconds lived one by one.
    pub fn active_lived(&self) -> bool {
        let mut output = Output::fresh(&Parameters::of_old_panel(1));
        output.store(STRONGER_SLOT, self.stronger);
        output.store(BLINK_SLOT, 0);
        output.store(OWN_SLOT, 0);
        output.active = self.active;
        output.duration = Some(RunningDuration {
            slot: STRONGER_SLOT,
            left: DUE,
        });
        output.warning = Some(Warning {
            slot: OWN_SLOT,
            dark_time: DUE,
            lit_time: DUE,
            level: self.level,
            gone: 0,
        });
        output.pass(DUE);
        output.active
    }
}
