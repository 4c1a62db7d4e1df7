//! The paper's record rules, sentence by sentence, with those of §3 on relays and
//! with the numbers that the panel keeps (§6): refusal 1. Slots are counted from 0.

use plain::frame::{length_of_kind, CLOCK};
use plain::real::{rate_or_step, HUNDRED_PERCENT, ONE_PERCENT};
use plain::settings::LONGEST;
use plain::Parameters;

use crate::record::{Activity, Kept, Record, Station};

/// "Kept ones out of range meet 1."
pub fn hold(outputs: &[Record], stations: &[Station], kept: &Kept) -> bool {
    kept.parameters.out_of_range().is_none()
        && counts_hold(outputs, stations, &kept.parameters)
        && outputs
            .iter()
            .all(|record| all_broken(record, kept).is_empty())
        && stations.iter().all(station_holds)
}

/// "Now exactly that many records."
pub fn counts_hold(outputs: &[Record], stations: &[Station], set: &Parameters) -> bool {
    outputs.len() == set.outputs as usize && stations.len() == set.stations as usize
}

/// "A movement may last up to the larger of the longest fade and 800,000 ms."
fn longest_movement(set: &Parameters) -> u32 {
    set.fade.max(800_000)
}

/// "Number 0 meaning none"; else a frame "of its kind's length", and no clock:
/// a clock has no station.
fn station_holds(station: &Station) -> bool {
    let kind = station.frame[0];
    station.number == 0 || (kind != CLOCK && length_of_kind(kind).is_some())
}

fn is_level(level: u32) -> bool {
    level == 0 || (ONE_PERCENT..=HUNDRED_PERCENT).contains(&level)
}

/// A slot that a write or a command may name: any but slot 6.
fn is_slot(slot: u8) -> bool {
    slot < 16 && slot != 5
}

/// The rules that bear on the record, in the paper's words, and whether it
/// keeps them.
fn rules(record: &Record, kept: &Kept) -> Vec<(&'static str, bool)> {
    let Kept { time, parameters } = *kept;
    let limits = ONE_PERCENT..=HUNDRED_PERCENT;
    let shown = record.present_value();
    let warned = matches!(record.activity, Activity::Warned { .. });
    let mut rules = vec![
        ("Relinquish_Default in range", is_level(record.default)),
        ("Fade_Time in range", parameters.is_fade_time(record.fade)),
        ("Ramp_Rate in range", rate_or_step(record.ramp).is_some()),
        (
            "Step_Increment in range",
            rate_or_step(record.step).is_some(),
        ),
        ("Blink_Time in range", record.blink <= LONGEST),
        ("Blink_Warn_Delay in range", record.delay <= LONGEST),
        ("Min in range", limits.contains(&record.min)),
        ("Max in range", limits.contains(&record.max)),
        ("Min at most Max", record.min <= record.max),
        ("Lighting_Command_Priority in range", is_slot(record.slot)),
        (
            "slot levels",
            (0..16).all(|slot| !record.is_live(slot) || is_level(record.levels[usize::from(slot)])),
        ),
        (
            "slot 6 live exactly during a warning",
            record.is_live(5) == warned,
        ),
        ("burning time at most panel time", record.burning <= time),
        ("Binary_Active_Value in range", is_level(record.active)),
        ("Binary_Inactive_Value in range", is_level(record.inactive)),
        (
            "inactive value below active value",
            record.inactive < record.active,
        ),
        (
            "Binary_Present_Value as judging leaves it",
            record.binary == judged(record, shown),
        ),
    ];
    if let Some((slot, due)) = record.timer {
        rules.extend([
            ("no duration tied to slot 6, or to none", is_slot(slot)),
            ("a duration due after panel time", time < due),
        ]);
    }
    match record.activity {
        Activity::Still => {}
        Activity::Moving {
            owner,
            start,
            target,
            length,
            over,
            ..
        } => rules.extend([
            (
                "a movement belongs to the winner",
                record.winner() == Some(owner),
            ),
            ("it starts from 0 to Max", start <= record.max),
            ("it aims at Present_Value", target == shown),
            (
                "it began no later than panel time",
                over.saturating_sub(time) <= u64::from(length),
            ),
            (
                "it lasts 1 ms to the longest movement",
                (1..=longest_movement(&parameters)).contains(&length),
            ),
            ("a movement's end after panel time", time < over),
        ]),
        Activity::Warned {
            delay,
            owner,
            level,
            turn,
            over,
        } => rules.extend([
            ("a warning's own slot is 7 to 16", (6..16).contains(&owner)),
            ("its Y is a slot level", is_level(level)),
            ("its turn after panel time", delay || time < turn),
            ("its end not before its turn", delay || turn <= over),
            ("a warning's end after panel time", time < over),
        ]),
    }
    rules
}

pub fn names(record: &Record, kept: &Kept) -> Vec<&'static str> {
    rules(record, kept).iter().map(|(rule, _)| *rule).collect()
}

/// All the rules that the record breaks.
pub fn all_broken(record: &Record, kept: &Kept) -> Vec<&'static str> {
    rules(record, kept)
        .into_iter()
        .filter(|(_, holds)| !holds)
        .map(|(rule, _)| rule)
        .collect()
}

/// §3: active from the one value upward, inactive from the other downward, and
/// between them as it was.
fn judged(record: &Record, shown: u32) -> bool {
    if shown <= record.inactive {
        false
    } else {
        shown >= record.active || record.binary
    }
}
