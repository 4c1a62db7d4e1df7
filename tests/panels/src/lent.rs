//! Movements that the record rules allow in a lent table though no list brings
//! them about: a ramp of any rate with any length, so that it comes to its
//! target long before its end or never, and a movement that goes nowhere.
//!
//! Burning time goes by their levels like by any other's (§2).

use plain::movement::{Movement, Pace};
use plain::{Output, Parameters};

/// A movement of slot 16, at panel time `gone`.
#[derive(Clone, Copy, Debug)]
pub struct LentMovement {
    pub from: u32,
    pub to: u32,
    pub length: u32,
    /// Units a second of a ramp; nothing for a fade.
    pub rate: Option<u32>,
    /// Milliseconds since it began, below its length.
    pub gone: u32,
}

/// The slot that the lent movements belong to.
pub const OWNER: u8 = 16;

const FROM: [u32; 8] = [0, 1, 2, 999, 65_535, 65_536, 3_276_800, 6_553_600];
const TO: [u32; 3] = [0, 65_536, 6_553_600];
const LENGTHS: [u32; 7] = [1, 2, 7, 100, 1_319, 10_000, 14_400_000];
const RATES: [u32; 12] = [
    0,
    1,
    2,
    499,
    500,
    501,
    999,
    1_000,
    8_192,
    1_000_000,
    6_553_600,
    u32::MAX,
];

pub fn lent_movements() -> Vec<LentMovement> {
    let paces = [None].into_iter().chain(RATES.map(Some));
    let mut movements = Vec::new();
    for rate in paces {
        for from in FROM {
            for to in TO {
                for length in LENGTHS {
                    let begun = [0, 1, 50].into_iter().filter(|gone| *gone < length);
                    movements.extend(begun.map(|gone| LentMovement {
                        from,
                        to,
                        length,
                        rate,
                        gone,
                    }));
                }
            }
        }
    }
    movements
}

/// By how much clock after clock is later: each millisecond by itself at
/// first, and then ever more; or all of it at once.
pub fn steps() -> [Vec<u64>; 3] {
    let mut fine = vec![1; 12];
    fine.extend([2, 5, 11, 23, 47, 119, 1, 1, 779, 1, 318, 1, 1, 900, 3_000]);
    [fine, vec![333; 10], vec![3_000]]
}

impl LentMovement {
    /// Burning time after each step, the milliseconds lived one by one.
    pub fn burning_lived(&self, steps: &[u64]) -> Vec<u64> {
        let mut movement = Movement {
            owner: OWNER,
            from: self.from,
            to: self.to,
            pace: match self.rate {
                Some(units_a_second) => Pace::Ramp { units_a_second },
                None => Pace::Fade,
            },
            length: self.length.into(),
            gone: self.gone.into(),
            reached: 0,
        };
        movement.reached = movement.level_after(movement.gone);
        let mut output = Output::fresh(&Parameters::of_old_panel(1));
        output.store(OWNER, self.to);
        output.movement = Some(movement);
        let live = |step: &u64| {
            output.pass(*step);
            output.burning
        };
        steps.iter().map(live).collect()
    }
}
