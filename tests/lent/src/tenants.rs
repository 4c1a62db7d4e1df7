//! The rows of crates/lent_tables/stdin on tenants (§8): every property read by a
//! tenant and by a service station, levels beside whole percents, marks at the
//! ends of the word, answers that stations keep, and starts with marks.

use plain::{Answer, Parameters};

use crate::record::{Activity, Kept, Record, Station, LONGEST_FRAME};
use crate::rules::all_broken;
use crate::sets::{read, used_tables, words, SHOP};
use crate::states::{state, states, NOW};
use crate::text::{call, clock, Head, Text, PERCENT};

const SLOT_6: u8 = 5;
const SLOT_8: u8 = 7;
const SLOT_16: u8 = 15;

/// Three stations, of which the first is a tenant.
const TENANT: u8 = 0;
const SERVICE: u8 = 1;
const ONE_TENANT: Parameters = Parameters { tenants: 1, ..SHOP };

const KEPT: Kept = Kept {
    time: NOW,
    parameters: ONE_TENANT,
};

const PRESENT_VALUE: u8 = 0x0C;
const PROGRESS_VALUE: u8 = 0x0D;
const SLOT_1: u8 = 0x21;

/// Levels at whole percents and beside them; those of 1 to 65,535 units stand in
/// movements alone.
const LEVELS: [u32; 13] = [
    0,
    1,
    PERCENT - 1,
    PERCENT,
    PERCENT + 1,
    2 * PERCENT - 1,
    50 * PERCENT + PERCENT / 2,
    99 * PERCENT - 1,
    99 * PERCENT,
    99 * PERCENT + 1,
    100 * PERCENT - PERCENT / 10,
    100 * PERCENT - 1,
    100 * PERCENT,
];

pub fn tenants(text: &mut Text) {
    every_property(text);
    levels(text);
    marks(text);
    kept_answers(text);
    other_frames(text);
    starts(text);
    refused_starts(text);
    short_rows(text);
}

fn with_marks(stations: u32, tenants: u32) -> Parameters {
    Parameters {
        stations,
        tenants,
        ..SHOP
    }
}

/// Slots 1 to 6 and others that hold no whole percents, and so does all else.
fn every_slot(activity: Activity) -> Record {
    let mut record = Record::fresh();
    let is_warned = matches!(activity, Activity::Warned { .. });
    for slot in (0..16).filter(|slot| *slot != SLOT_6 || is_warned) {
        record.store(slot, u32::from(slot + 1) * 6 * PERCENT + 1_000);
    }
    record.activity = activity;
    record.default = 3 * PERCENT + 7;
    record.min = PERCENT + 5;
    record.max = 99 * PERCENT + 9;
    record.active = 40 * PERCENT + 11;
    record.inactive = 30 * PERCENT + 13;
    record.ramp = 10.3_f32.to_bits();
    record.step = 5.7_f32.to_bits();
    record.burning = 7_654;
    record.last = state("last RAMP_TO_AT_RATE, cancelling").last;
    record.last.first = 33.3_f32.to_bits();
    record
}

/// From no whole percent to what slot 1 holds.
fn moving(rate: Option<u32>) -> Activity {
    Activity::Moving {
        owner: 0,
        start: PERCENT + 77,
        target: 6 * PERCENT + 1_000,
        length: 1_000,
        over: NOW + 600,
        rate,
    }
}

fn warned(delay: bool) -> Activity {
    Activity::Warned {
        delay,
        owner: SLOT_16,
        level: 36 * PERCENT + 500,
        turn: NOW + 300,
        over: NOW + 900,
    }
}

/// 01 to 30 and one on each side, by a tenant and by a service station, at the
/// same moment.
fn every_property(text: &mut Text) {
    let mut records = vec![
        ("every slot but slot 6 live", every_slot(Activity::Still)),
        ("a fade of slot 1", every_slot(moving(None))),
        ("a ramp of slot 1", every_slot(moving(Some(4 * PERCENT)))),
        (
            "every slot live, a warning, dark",
            every_slot(warned(false)),
        ),
        (
            "every slot live, a warning in its delay",
            every_slot(warned(true)),
        ),
    ];
    for name in [
        "a fresh output",
        "levels in slots that are not live",
        "a warning in its delay, with another level in slot 6",
        "a fade and a duration on its slot, due first",
        "last FADE_TO_OVER, lasting",
        "last STEP_UP_BY of a NaN, lasting 0 ms",
    ] {
        records.push((name, state(name)));
    }
    for (what, record) in records {
        text.comment(&format!(
            "read by a tenant and by a service station: {what}"
        ));
        text.table(2, 3, NOW);
        text.keep(&ONE_TENANT);
        text.output(1, &record);
        for property in 0x00..=0x31 {
            for station in [TENANT, SERVICE] {
                let number = u32::from(property) + 1;
                text.frame(&read(station, number, NOW + 5, 1, property));
            }
        }
        text.left();
    }
}

/// As a slot's level and what is shown for it; as the start of a movement, and a
/// millisecond later.
fn levels(text: &mut Text) {
    for level in LEVELS {
        text.comment(&format!("a level of {level} units, read by both"));
        let properties = [PRESENT_VALUE, PROGRESS_VALUE, SLOT_1, SLOT_1 + SLOT_8];
        if level == 0 || level >= PERCENT {
            for slot in [0, SLOT_8] {
                let mut record = Record::fresh();
                record.store(slot, level);
                record.binary = level >= record.active;
                read_by_both(text, &record, NOW, &properties);
            }
            let mut record = Record::fresh();
            record.default = level;
            record.binary = level >= record.active;
            read_by_both(text, &record, NOW, &properties);
        }
        for target in [50 * PERCENT, 100 * PERCENT] {
            for rate in [None, Some(1_000)] {
                let mut record = Record::fresh();
                record.store(SLOT_8, target);
                record.binary = true;
                record.activity = Activity::Moving {
                    owner: SLOT_8,
                    start: level,
                    target,
                    length: 800_000,
                    over: NOW + 800_000,
                    rate,
                };
                for later in [0, 1] {
                    read_by_both(text, &record, NOW + later, &properties);
                }
            }
        }
    }
}

fn read_by_both(text: &mut Text, record: &Record, time: u64, properties: &[u8]) {
    text.table(2, 3, NOW);
    text.keep(&ONE_TENANT);
    text.output(0, record);
    for (number, property) in (1..).zip(properties) {
        for station in [TENANT, SERVICE] {
            text.frame(&read(station, number, time, 0, *property));
        }
    }
}

/// Each bit at an end of the word and beside it, and who is a tenant then: all
/// stations read, and the one after the last.
fn marks(text: &mut Text) {
    for stations in [1, 3, 8, 16, 17, 31, 32] {
        let last = stations - 1;
        let mut all = vec![
            0,
            1,
            2,
            1 << last,
            !(1 << last),
            1 << 31,
            u32::MAX,
            0x5A5A_3C0F,
        ];
        if stations < 32 {
            all.extend([1 << stations, u32::MAX << stations, !(u32::MAX << stations)]);
        }
        for tenants in all {
            let set = with_marks(stations, tenants);
            text.comment(&format!("{stations} stations, tenants {tenants:08X}"));
            text.table(2, stations as usize, NOW);
            text.keep(&set);
            text.output(1, &every_slot(moving(None)));
            for station in 0..=stations as u8 {
                let property = [SLOT_1, PRESENT_VALUE, PROGRESS_VALUE][usize::from(station) % 3];
                text.frame(&read(station, 1, NOW, 1, property));
            }
            text.frame(&read(0, 2, NOW, 1, PRESENT_VALUE));
            text.frame(&read(last as u8, 3, NOW, 1, SLOT_1 + 4));
            text.left();
        }
    }
}

/// A copy is answered with what is kept, whatever the mark, and whatever it was
/// when the answer was given.
fn kept_answers(text: &mut Text) {
    for property in [SLOT_1, SLOT_1 + 4, PRESENT_VALUE, PROGRESS_VALUE, 0x1C] {
        for answer in [
            Answer::Value(0x42C7_FFFF),
            Answer::Absent,
            Answer::Done,
            Answer::Refused(9),
        ] {
            text.comment(&format!(
                "a read of {property:02X} kept with the answer {answer:?}"
            ));
            let kept = [TENANT, SERVICE].map(|station| read(station, 5, NOW - 1_000, 1, property));
            text.table(2, 3, NOW);
            text.keep(&ONE_TENANT);
            text.output(1, &every_slot(moving(None)));
            for (station, kept) in kept.iter().enumerate() {
                let mut frame = [0; LONGEST_FRAME];
                frame[..kept.len()].copy_from_slice(kept);
                let number = 5;
                text.station(
                    station,
                    &Station {
                        answer,
                        number,
                        frame,
                    },
                );
            }
            for kept in &kept {
                text.frame(kept);
            }
            text.left();
        }
    }
    for property in [PRESENT_VALUE, PROGRESS_VALUE, SLOT_1] {
        text.comment(&format!(
            "{property:02X} read by both, and both reads again later"
        ));
        text.table(2, 3, NOW);
        text.keep(&ONE_TENANT);
        text.output(1, &every_slot(moving(None)));
        let reads = [TENANT, SERVICE].map(|station| read(station, 1, NOW + 7, 1, property));
        for frame in &reads {
            text.frame(frame);
        }
        text.frame(&clock(NOW + 450));
        // Slot 1 is emptied by the third station.
        text.frame(&call(0x03, head(2, 1, NOW + 450, 1), &[1]));
        for frame in &reads {
            text.frame(frame);
        }
        text.left();
        // The marks the other way round: kept answers stay, new reads do not.
        text.keep(&with_marks(3, 2));
        for frame in &reads {
            text.frame(frame);
        }
        for station in [TENANT, SERVICE] {
            text.frame(&read(station, 2, NOW + 450, 1, property));
        }
        text.left();
    }
}

fn head(station: u8, number: u32, time: u64, output: u8) -> Head {
    Head {
        station,
        number,
        time,
        output,
    }
}

/// Reads of a tenant that are turned down, and its writes and commands, which act
/// as a service station's do.
fn other_frames(text: &mut Text) {
    for station in [TENANT, SERVICE] {
        text.comment(&format!(
            "reads of station {station} that are turned down, tenants 1"
        ));
        text.table(2, 3, NOW);
        text.keep(&ONE_TENANT);
        text.output(1, &every_slot(Activity::Still));
        text.frame(&read(station, 3, NOW, 1, SLOT_1));
        for bytes in [
            read(station, 4, NOW - 1, 1, SLOT_1),
            read(station, 4, NOW, 2, SLOT_1),
            read(station, 3, NOW, 1, PRESENT_VALUE),
            read(station, 2, NOW, 1, SLOT_1),
            read(station, 0, NOW, 1, SLOT_1),
            read(station, 4, NOW, 1, SLOT_1)[..13].to_vec(),
            read(station, 4, NOW, 1, 0x20),
            read(station, 4, NOW, 1, 0x20),
        ] {
            text.frame(&bytes);
        }
        text.left();
    }
    for (what, record) in states() {
        // Some fade for longer than a shop may.
        if !all_broken(&record, &KEPT).is_empty() {
            continue;
        }
        text.comment(&format!("a tenant writes and commands: {what}"));
        for (kind, adds) in [
            (0x02, &[3, 0x42, 0x3E, 0x12, 0x34][..]),
            (0x03, &[8]),
            (0x04, &[0x01, 0x42, 0x3E, 0x12, 0x34]),
            (0x11, &[0x41, 0xA0, 0x12, 0x34, 0xFF, 0xFF, 0xFF, 0xFF]),
        ] {
            text.table(2, 3, NOW);
            text.keep(&ONE_TENANT);
            text.output(1, &record);
            text.frame(&call(kind, head(TENANT, 1, NOW + 100, 1), adds));
            text.frame(&read(TENANT, 2, NOW + 110, 1, PROGRESS_VALUE));
            text.frame(&read(SERVICE, 2, NOW + 110, 1, PROGRESS_VALUE));
            text.left();
        }
    }
}

/// The marks of a start, also those of no station, are kept as they are.
fn starts(text: &mut Text) {
    for stations in [1, 3, 32] {
        for tenants in [0, 1, 1 << (stations - 1), 1 << 31, 0xFFFF_FFF0, u32::MAX] {
            let set = with_marks(stations, tenants);
            text.comment(&format!(
                "a start with {}, tenants {tenants:08X}",
                words(&set)
            ));
            used_tables(text, set.outputs, stations);
            text.keep(&with_marks(stations, !tenants));
            text.start(&set);
            text.left();
            let write = [1, 0x42, 0x3E, 0x12, 0x34];
            text.frame(&call(0x02, head(0, 1, 40, 1), &write));
            text.frame(&clock(50));
            for station in [0, stations as u8 - 1] {
                text.frame(&read(station, 2, 60, 1, PRESENT_VALUE));
                text.frame(&read(station, 3, 60, 1, SLOT_1));
            }
            text.left();
        }
    }
}

/// 17 and 1: the kept marks stay, and reads go by them.
fn refused_starts(text: &mut Text) {
    for tenants in [0, 4, u32::MAX] {
        for (stations, outputs, fade) in [
            (0, 2, 5_000),
            (33, 2, 5_000),
            (3, 65, 5_000),
            (3, 2, 14_400_001),
            (2, 2, 5_000),
            (4, 2, 5_000),
            (3, 1, 5_000),
        ] {
            let set = Parameters {
                stations,
                outputs,
                fade,
                tenants,
                ..SHOP
            };
            text.comment(&format!(
                "a start with {}, tenants {tenants:08X}",
                words(&set)
            ));
            text.table(2, 3, NOW);
            text.keep(&ONE_TENANT);
            text.output(1, &every_slot(Activity::Still));
            text.start(&set);
            text.left();
            for station in 0..3 {
                text.frame(&read(station, 1, NOW, 1, SLOT_1));
            }
            text.left();
        }
    }
}

/// A number that is left out of a row is 0: then there are no tenants. So it is
/// after a row t, too.
fn short_rows(text: &mut Text) {
    text.comment("rows without marks");
    text.table(2, 3, NOW);
    text.output(1, &every_slot(Activity::Still));
    let rows = ["p 3 2 5000 6000 1\n", "p 3 2 5000 6000\n"];
    for (number, row) in (1..).zip(rows) {
        text.0.push_str(row);
        text.left();
        text.frame(&read(0, number, NOW, 1, SLOT_1));
    }
    text.0
        .push_str("b 3 2 5000 6000 7\nl\nb 3 2 5000 6000\nl\n");
    text.keep(&ONE_TENANT);
    text.table(2, 8, NOW);
    text.left();
}

#[cfg(test)]
mod tests {
    use super::*;

    #[test]
    fn records_keep_the_rules() {
        let activities = [
            Activity::Still,
            moving(None),
            moving(Some(4 * PERCENT)),
            warned(false),
            warned(true),
        ];
        for record in activities.map(every_slot) {
            assert_eq!(all_broken(&record, &KEPT), [""; 0]);
        }
    }
}
