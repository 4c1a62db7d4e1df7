//! Records in every state that the rules allow, at panel time `NOW`.

use plain::settings::{FOUR_HOURS, LONGEST};

use crate::record::{Activity, Last, Record};
use crate::text::PERCENT;

pub const NOW: u64 = 10_000;

/// Slots from 0: slot 8 and slot 16 of the paper.
const SLOT_6: u8 = 5;
const SLOT_8: u8 = 7;
const SLOT_16: u8 = 15;

fn lit() -> Record {
    let mut record = Record::fresh();
    record.store(SLOT_8, 60 * PERCENT);
    record.binary = true;
    record.burning = 4_000;
    record
}

fn moving(start: u32, target: u32, length: u32, left: u64, rate: Option<u32>) -> Record {
    let mut record = Record::fresh();
    record.store(SLOT_8, target);
    record.binary = record.present_value() >= record.active;
    record.activity = Activity::Moving {
        owner: SLOT_8,
        start,
        target: record.present_value(),
        length,
        over: NOW + left,
        rate,
    };
    record
}

fn warned(delay: bool, slot_6: u32, level: u32, turn: u64, over: u64) -> Record {
    let mut record = Record::fresh();
    record.store(SLOT_6, slot_6);
    record.store(SLOT_16, 0);
    record.binary = slot_6 >= record.active;
    record.activity = Activity::Warned {
        delay,
        owner: SLOT_16,
        level,
        turn,
        over,
    };
    record
}

fn with(mut record: Record, change: impl Fn(&mut Record)) -> Record {
    change(&mut record);
    record
}

fn last(operation: u8, first: f32, second: u32, duration: u8, lasts: u32) -> Last {
    Last {
        operation,
        first: if matches!(operation, 0 | 5 | 6 | 10) {
            0
        } else {
            first.to_bits()
        },
        second,
        duration,
        lasts,
    }
}

/// Each with what it is; all of them keep every rule.
pub fn states() -> Vec<(&'static str, Record)> {
    let half = 50 * PERCENT;
    vec![
        ("a fresh output", Record::fresh()),
        ("lit at 60 percent", lit()),
        (
            "every slot but slot 6 live",
            with(Record::fresh(), |record| {
                for slot in (0..16).filter(|slot| *slot != SLOT_6) {
                    record.store(slot, u32::from(slot + 1) * PERCENT);
                }
            }),
        ),
        (
            "settings at their least values",
            with(Record::fresh(), |record| {
                record.fade = 100;
                record.ramp = 0.125_f32.to_bits();
                record.step = 0.125_f32.to_bits();
                record.max = PERCENT;
                record.slot = 0;
                record.active = PERCENT;
                record.inactive = 0;
            }),
        ),
        (
            "settings at their greatest values",
            with(Record::fresh(), |record| {
                record.default = 100 * PERCENT;
                record.fade = FOUR_HOURS;
                record.ramp = 100.0_f32.to_bits();
                record.step = 100.0_f32.to_bits();
                record.enable = true;
                record.blink = LONGEST;
                record.delay = LONGEST;
                record.min = 100 * PERCENT;
                record.active = 100 * PERCENT;
                record.inactive = 100 * PERCENT - 1;
                record.binary = true;
                record.burning = NOW;
            }),
        ),
        (
            "levels in slots that are not live",
            with(lit(), |record| {
                record.levels[0] = 7;
                record.levels[15] = u32::MAX;
            }),
        ),
        (
            "ready to warn",
            with(lit(), |record| {
                record.enable = true;
                record.blink = 300;
                record.delay = 700;
            }),
        ),
        ("a fade up", moving(0, half, 1_000, 600, None)),
        (
            "a fade up in its first millisecond",
            moving(0, half, 1_000, 1_000, None),
        ),
        (
            "a fade down in its last millisecond",
            moving(half, 0, 1_000, 1, None),
        ),
        (
            "a fade to where it is",
            moving(half, half, 1_000, 600, None),
        ),
        ("a fade of 1 ms", moving(100, half, 1, 1, None)),
        (
            "a fade of four hours",
            moving(0, half, FOUR_HOURS, 14_399_000, None),
        ),
        (
            "a fade that began before the panel's time 0",
            moving(0, half, 60_000, 500, None),
        ),
        (
            "a ramp up",
            moving(0, half, 2_000, 1_500, Some(25 * PERCENT)),
        ),
        (
            "a ramp down from below one percent",
            moving(999, 0, 1_000, 900, Some(1_000)),
        ),
        ("a ramp that stands", moving(0, half, 1_000, 900, Some(0))),
        (
            "a ramp that is there at once",
            moving(0, half, 1_000, 900, Some(u32::MAX)),
        ),
        (
            "a ramp that does not get there",
            moving(100 * PERCENT, half, 1_000, 900, Some(1)),
        ),
        (
            "a fade and a duration on its slot, due first",
            with(moving(0, half, 1_000, 600, None), |record| {
                record.timer = Some((SLOT_8, NOW + 300));
            }),
        ),
        (
            "a fade and a duration on its slot, due at its end",
            with(moving(0, half, 1_000, 600, None), |record| {
                record.timer = Some((SLOT_8, NOW + 600));
            }),
        ),
        (
            "a duration on the winner",
            with(lit(), |record| {
                record.timer = Some((SLOT_8, NOW + 1));
            }),
        ),
        (
            "a duration on a slot that is not live, with a level in it",
            with(lit(), |record| {
                record.timer = Some((SLOT_16, NOW + 500));
                record.levels[15] = 12_345;
            }),
        ),
        (
            "a duration due in the far future",
            with(lit(), |record| {
                record.timer = Some((SLOT_8, u64::MAX));
            }),
        ),
        (
            "a warning, dark, with a delay to come",
            warned(false, 0, half, NOW + 300, NOW + 900),
        ),
        (
            "a warning, dark, without a delay",
            warned(false, 0, half, NOW + 300, NOW + 300),
        ),
        (
            "a warning, dark, in its last millisecond",
            warned(false, 0, half, NOW + 1, NOW + 2),
        ),
        (
            "a warning in its delay",
            warned(true, half, half, NOW - 200, NOW + 500),
        ),
        (
            "a warning in its delay, its turn in the future",
            warned(true, half, half, NOW + 5_000, NOW + 500),
        ),
        (
            "a warning, dark, with light in slot 6",
            warned(false, 70 * PERCENT, half, NOW + 300, NOW + 900),
        ),
        (
            "a warning in its delay, with another level in slot 6",
            warned(true, 70 * PERCENT, half, NOW, NOW + 500),
        ),
        (
            "a warning whose Y is 0",
            warned(false, 0, 0, NOW + 300, NOW + 900),
        ),
        (
            "a warning whose own slot is not live",
            with(warned(false, 0, half, NOW + 300, NOW + 900), |record| {
                record.live &= !(1 << SLOT_16);
                record.levels[15] = 3;
            }),
        ),
        (
            "a warning and a duration on its own slot, due at its turn",
            with(warned(false, 0, half, NOW + 300, NOW + 900), |record| {
                record.timer = Some((SLOT_16, NOW + 300));
            }),
        ),
        (
            "a warning behind a stronger slot, whose duration is due at its turn",
            with(
                warned(false, 0, 40 * PERCENT, NOW + 300, NOW + 900),
                |record| {
                    record.store(2, 60 * PERCENT);
                    record.timer = Some((2, NOW + 300));
                    record.binary = true;
                },
            ),
        ),
        (
            "a relay between its values, active",
            with(Record::fresh(), |record| {
                record.store(SLOT_8, 47 * PERCENT);
                record.binary = true;
            }),
        ),
        (
            "a relay between its values, inactive and reverse",
            with(Record::fresh(), |record| {
                record.store(SLOT_8, 47 * PERCENT);
                record.reverse = true;
            }),
        ),
        (
            "a relay active at just its value",
            with(Record::fresh(), |record| {
                record.store(SLOT_8, half);
                record.binary = true;
                record.reverse = true;
            }),
        ),
        (
            "a relay inactive at just its value",
            with(Record::fresh(), |record| {
                record.store(SLOT_8, 45 * PERCENT);
            }),
        ),
        (
            "last FADE_TO_OVER, lasting",
            with(Record::fresh(), |record| {
                record.last = last(2, 50.0, 1_000, 2, 5_000);
            }),
        ),
        (
            "last FADE_TO_OVER, over longer than any may",
            with(Record::fresh(), |record| {
                record.last = last(2, 50.0, LONGEST, 0, 0);
            }),
        ),
        (
            "last RAMP_TO_AT_RATE, cancelling",
            with(Record::fresh(), |record| {
                record.last = last(4, 50.0, 3.0_f32.to_bits(), 1, 0);
            }),
        ),
        (
            "last STEP_UP_BY of a NaN, lasting 0 ms",
            with(Record::fresh(), |record| {
                record.last = last(7, f32::from_bits(0x7FC0_0000), 0, 2, 0);
            }),
        ),
        (
            "last GOTO of minus 7",
            with(Record::fresh(), |record| {
                record.last = last(9, -7.0, 0, 0, 0);
            }),
        ),
        (
            "last RELINQUISH, lasting longer than any may",
            with(Record::fresh(), |record| {
                record.last = last(10, 0.0, 0, 2, u32::MAX);
            }),
        ),
    ]
}

/// The state of that name.
pub fn state(name: &str) -> Record {
    states()
        .into_iter()
        .find(|(other, _)| *other == name)
        .unwrap_or_else(|| panic!("no state is called {name}"))
        .1
}
