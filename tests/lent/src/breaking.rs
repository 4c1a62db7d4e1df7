//! Records that break one rule alone, at panel time `NOW`.

use plain::settings::{FOUR_HOURS, LONGEST};

use crate::record::{Activity, Record};
use crate::states::{state, NOW};
use crate::text::PERCENT;

/// What is changed in which state.
type Change = (&'static str, &'static str, fn(&mut Record));

const LIT: &str = "lit at 60 percent";
const FADE: &str = "a fade up";
const DARK: &str = "a warning, dark, with a delay to come";
const DELAY: &str = "a warning in its delay";

const CHANGES: &[Change] = &[
    ("Relinquish_Default 1", LIT, |record| record.default = 1),
    ("Relinquish_Default 65,535", LIT, |record| {
        record.default = PERCENT - 1
    }),
    ("Relinquish_Default 6,553,601", LIT, |record| {
        record.default = 100 * PERCENT + 1
    }),
    ("Fade_Time 99", LIT, |record| record.fade = 99),
    ("Fade_Time 14,400,001", LIT, |record| {
        record.fade = FOUR_HOURS + 1
    }),
    ("Fade_Time 86,400,000", LIT, |record| record.fade = LONGEST),
    ("Ramp_Rate just below 0.125", LIT, |record| {
        record.ramp = 0.125_f32.to_bits() - 1
    }),
    ("Ramp_Rate just above 100", LIT, |record| {
        record.ramp = 100.0_f32.to_bits() + 1
    }),
    ("Ramp_Rate NaN", LIT, |record| record.ramp = 0x7FC0_0000),
    ("Step_Increment just below 0.125", LIT, |record| {
        record.step = 0.125_f32.to_bits() - 1
    }),
    ("Step_Increment just above 100", LIT, |record| {
        record.step = 100.0_f32.to_bits() + 1
    }),
    ("Step_Increment minus 5", LIT, |record| {
        record.step = (-5.0_f32).to_bits()
    }),
    ("Blink_Time 86,400,001", LIT, |record| {
        record.blink = LONGEST + 1
    }),
    ("Blink_Warn_Delay 86,400,001", LIT, |record| {
        record.delay = LONGEST + 1
    }),
    ("Min 65,535", LIT, |record| record.min = PERCENT - 1),
    ("Min over Max", LIT, |record| {
        record.min = 80 * PERCENT + 1;
        record.max = 80 * PERCENT;
    }),
    ("Max 6,553,601", LIT, |record| {
        record.max = 100 * PERCENT + 1
    }),
    ("Lighting_Command_Priority 6", LIT, |record| record.slot = 5),
    ("Lighting_Command_Priority 17", LIT, |record| {
        record.slot = 16
    }),
    ("a live slot at 1", LIT, |record| record.store(15, 1)),
    ("a live slot at 65,535", LIT, |record| {
        record.store(15, PERCENT - 1)
    }),
    ("a live slot at 6,553,601", LIT, |record| {
        record.store(15, 100 * PERCENT + 1)
    }),
    ("slot 1 live at 6,553,601", LIT, |record| {
        record.store(0, 100 * PERCENT + 1)
    }),
    ("slot 6 live without a warning", LIT, |record| {
        record.store(5, 60 * PERCENT)
    }),
    ("slot 6 live in a movement", FADE, |record| {
        record.live = 1 << 2;
        record.store(5, 0);
        record.levels[2] = 50 * PERCENT;
        change_movement(record, |owner, _, _, _, _| *owner = 2);
    }),
    ("a warning with slot 6 not live", DARK, |record| {
        record.live &= !(1 << 5)
    }),
    ("a warning of slot 6", DARK, |record| {
        change_warning(record, |owner, _, _, _| *owner = 5)
    }),
    ("a warning of no slot", DARK, |record| {
        change_warning(record, |owner, _, _, _| *owner = 16)
    }),
    ("Y at 65,535", DARK, |record| {
        change_warning(record, |_, level, _, _| *level = PERCENT - 1)
    }),
    ("Y at 6,553,601, in the delay", DELAY, |record| {
        change_warning(record, |_, level, _, _| *level = 100 * PERCENT + 1)
    }),
    ("a turn at panel time", DARK, |record| {
        change_warning(record, |_, _, turn, _| *turn = NOW)
    }),
    ("a turn after the end", DARK, |record| {
        change_warning(record, |_, _, turn, over| *turn = *over + 1)
    }),
    ("a delay over at panel time", DELAY, |record| {
        change_warning(record, |_, _, _, over| *over = NOW)
    }),
    ("a duration on slot 6", LIT, |record| {
        record.timer = Some((5, NOW + 500))
    }),
    ("a duration on no slot", LIT, |record| {
        record.timer = Some((16, NOW + 500))
    }),
    ("a duration due at panel time", LIT, |record| {
        record.timer = Some((7, NOW))
    }),
    ("a movement of a weaker slot", FADE, |record| {
        change_movement(record, |owner, _, _, _, _| *owner = 8)
    }),
    ("a movement with no live slot", FADE, |record| {
        record.live = 0;
        record.default = 50 * PERCENT;
        change_movement(record, |owner, _, _, _, _| *owner = 16);
    }),
    ("a movement from above Max", FADE, |record| {
        record.max = 80 * PERCENT;
        change_movement(record, |_, start, _, _, _| *start = 80 * PERCENT + 1);
    }),
    ("a movement to one unit less", FADE, |record| {
        change_movement(record, |_, _, target, _, _| *target -= 1)
    }),
    ("a movement to one unit more", FADE, |record| {
        change_movement(record, |_, _, target, _, _| *target += 1)
    }),
    ("a movement that begins in 1 ms", FADE, |record| {
        change_movement(record, |_, _, _, length, over| {
            *over = NOW + u64::from(*length) + 1
        })
    }),
    ("a movement over at panel time", FADE, |record| {
        change_movement(record, |_, _, _, _, over| *over = NOW)
    }),
    ("a movement of 14,400,001 ms", FADE, |record| {
        change_movement(record, |_, _, _, length, _| *length = FOUR_HOURS + 1)
    }),
    ("a movement of 86,400,000 ms", FADE, |record| {
        change_movement(record, |_, _, _, length, _| *length = LONGEST)
    }),
    ("burning time one more than panel time", LIT, |record| {
        record.burning = NOW + 1
    }),
    (
        "Binary_Active_Value 6,553,601",
        "a fresh output",
        |record| record.active = 100 * PERCENT + 1,
    ),
    ("Binary_Active_Value 65,535", "a fresh output", |record| {
        record.active = PERCENT - 1;
        record.inactive = 0;
    }),
    ("Binary_Inactive_Value 65,535", LIT, |record| {
        record.inactive = PERCENT - 1
    }),
    ("Binary_Inactive_Value 1", LIT, |record| record.inactive = 1),
    (
        "both values of the relay the same",
        "a fresh output",
        |record| record.inactive = record.active,
    ),
    (
        "inactive value above active value",
        "a fresh output",
        |record| record.inactive = record.active + 1,
    ),
    ("a relay inactive at its active value", LIT, |record| {
        record.levels[7] = record.active;
        record.binary = false;
    }),
    ("a relay active at its inactive value", LIT, |record| {
        record.levels[7] = record.inactive
    }),
    ("a relay active in the dark", "a fresh output", |record| {
        record.binary = true
    }),
];

fn change_movement(
    record: &mut Record,
    change: impl Fn(&mut u8, &mut u32, &mut u32, &mut u32, &mut u64),
) {
    if let Activity::Moving {
        owner,
        start,
        target,
        length,
        over,
        ..
    } = &mut record.activity
    {
        change(owner, start, target, length, over);
    }
}

fn change_warning(record: &mut Record, change: impl Fn(&mut u8, &mut u32, &mut u64, &mut u64)) {
    if let Activity::Warned {
        owner,
        level,
        turn,
        over,
        ..
    } = &mut record.activity
    {
        change(owner, level, turn, over);
    }
}

/// Each with what is wrong with it.
pub fn breaking() -> Vec<(&'static str, Record)> {
    CHANGES
        .iter()
        .map(|(what, from, change)| {
            let mut record = state(from);
            change(&mut record);
            (*what, record)
        })
        .collect()
}

#[cfg(test)]
mod tests {
    use super::*;
    use crate::record::Kept;
    use crate::rules::{all_broken, names};
    use crate::states::states;

    fn kept() -> Kept {
        Kept::at(NOW, 1)
    }

    #[test]
    fn each_breaks_one_rule_alone() {
        for (what, record) in breaking() {
            let broken = all_broken(&record, &kept());
            assert_eq!(broken.len(), 1, "{what}: {broken:?}");
        }
    }

    #[test]
    fn each_rule_is_broken_by_one() {
        let broken: Vec<&str> = breaking()
            .iter()
            .flat_map(|(_, record)| all_broken(record, &kept()))
            .collect();
        for (_, record) in states() {
            for rule in names(&record, &kept()) {
                assert!(broken.contains(&rule), "{rule}");
            }
        }
    }

    #[test]
    fn every_state_keeps_the_rules() {
        for (what, record) in states() {
            let broken = all_broken(&record, &kept());
            assert!(broken.is_empty(), "{what}: {broken:?}");
        }
    }
}
