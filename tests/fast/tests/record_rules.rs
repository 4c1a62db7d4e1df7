//! Refusal 1: each record rule broken once, with everything left as it was. The
//! counts and the rules at other sets are in panels/src/lent_set.rs.

use fast::answer::Refusal;
use fast::output::{Movement, Pace, RunningDuration, Warning};
use fast::{frame, Answer, Output, PanelRecord, Parameters, Station};

const TIME: u64 = 10_000;
const FIFTY_PERCENT: u32 = 3_276_800;
const FORTY_FIVE_PERCENT: u32 = 2_949_120;
const CLOCK: [u8; 7] = [0x01, 0, 0, 0, 0, 0x4E, 0x20];
const REFUSED: Answer = Answer::Refused(Refusal::Records);

/// The answer to a clock of 20,000 ms after a change to a table of records at
/// 10,000 ms that keep all rules.
fn answer_after(change: impl Fn(&mut Output, &mut Station)) -> Answer {
    let parameters = Parameters {
        stations: 8,
        outputs: 3,
        longest_fade: 14_400_000,
        longest_duration: 86_400_000,
        tenants: 0,
    };
    let mut outputs = [Output::fresh(&parameters); 3];
    let mut stations = [Station::FRESH; 8];
    let mut kept = PanelRecord {
        time: TIME,
        parameters,
    };
    change(&mut outputs[1], &mut stations[5]);
    let before = format!("{outputs:?} {stations:?} {kept:?}");
    let answer = frame::<true>(&mut outputs, &mut stations, &mut kept, &CLOCK);
    if answer == REFUSED {
        assert_eq!(format!("{outputs:?} {stations:?} {kept:?}"), before);
    }
    answer
}

fn refused(change: impl Fn(&mut Output)) {
    assert_eq!(answer_after(|output, _| change(output)), REFUSED);
}

fn taken(change: impl Fn(&mut Output)) {
    assert_eq!(answer_after(|output, _| change(output)), Answer::Done);
}

fn move_slot_eight(output: &mut Output, change: impl Fn(&mut Movement)) {
    output.store(8, FIFTY_PERCENT);
    output.active = true;
    let mut movement = Movement {
        owner: 8,
        from: 0,
        to: FIFTY_PERCENT,
        began: TIME - 100,
        length: 101,
        pace: Pace::Fade,
    };
    change(&mut movement);
    output.movement = Some(movement);
}

fn warn_at_slot_nine(output: &mut Output, change: impl Fn(&mut Warning)) {
    output.store(6, 0);
    output.store(9, 0);
    let mut warning = Warning {
        slot: 9,
        level: FIFTY_PERCENT,
        turn: TIME + 1,
        end: TIME + 2,
    };
    change(&mut warning);
    output.warning = Some(warning);
}

#[test]
fn settings() {
    taken(|_| {});
    refused(|output| output.settings.relinquish_default = 65_535);
    refused(|output| output.settings.relinquish_default = 6_553_601);
    refused(|output| output.settings.fade_time = 99);
    refused(|output| output.settings.fade_time = 14_400_001);
    refused(|output| output.settings.ramp_rate = f32::NAN);
    refused(|output| output.settings.ramp_rate = 0.124_999_99);
    refused(|output| output.settings.step_increment = 100.000_01);
    refused(|output| output.settings.blink_time = 86_400_001);
    refused(|output| output.settings.blink_warn_delay = 86_400_001);
    refused(|output| output.settings.minimum = 65_535);
    refused(|output| output.settings.maximum = 6_553_601);
    refused(|output| (output.settings.minimum, output.settings.maximum) = (65_537, 65_536));
    taken(|output| (output.settings.minimum, output.settings.maximum) = (65_537, 65_537));
    for priority in [0, 6, 17] {
        refused(|output| output.settings.command_priority = priority);
    }
}

#[test]
fn slots_and_burning_time() {
    refused(|output| output.store(3, 1));
    refused(|output| output.store(3, 6_553_601));
    taken(|output| output.levels[2] = 1);
    refused(|output| output.store(6, 0));
    taken(|output| output.burning = TIME);
    refused(|output| output.burning = TIME + 1);
}

#[test]
fn relays() {
    let set = |output: &mut Output, active, inactive| {
        (output.settings.active_value, output.settings.inactive_value) = (active, inactive);
    };
    taken(|output| set(output, 65_536, 0));
    taken(|output| set(output, 6_553_600, 6_553_599));
    taken(|output| output.settings.reverse = true);
    refused(|output| set(output, 0, 0));
    refused(|output| set(output, 65_535, 0));
    refused(|output| set(output, 6_553_601, 0));
    refused(|output| set(output, 131_072, 65_535));
    refused(|output| set(output, 131_072, 131_072));
    refused(|output| set(output, 131_072, 131_073));
    // As judging leaves it: between the two values either way.
    let shows = |output: &mut Output, level, active| {
        output.store(3, level);
        output.active = active;
    };
    for level in [FORTY_FIVE_PERCENT + 1, FIFTY_PERCENT - 1] {
        taken(|output| shows(output, level, false));
        taken(|output| shows(output, level, true));
    }
    taken(|output| shows(output, FORTY_FIVE_PERCENT, false));
    refused(|output| shows(output, FORTY_FIVE_PERCENT, true));
    refused(|output| shows(output, FIFTY_PERCENT, false));
    taken(|output| shows(output, FIFTY_PERCENT, true));
    refused(|output| output.active = true);
}

#[test]
fn movements() {
    taken(|output| move_slot_eight(output, |_| {}));
    refused(|output| move_slot_eight(output, |movement| movement.owner = 9));
    refused(|output| move_slot_eight(output, |movement| movement.from = 6_553_601));
    taken(|output| move_slot_eight(output, |movement| movement.from = 6_553_600));
    refused(|output| move_slot_eight(output, |movement| movement.to = 65_536));
    refused(|output| move_slot_eight(output, |movement| movement.began = TIME + 1));
    refused(|output| move_slot_eight(output, |movement| movement.length = 0));
    refused(|output| move_slot_eight(output, |movement| movement.length = 100));
    refused(|output| move_slot_eight(output, |movement| movement.length = 14_400_001));
    // No rule speaks of the rate, or asks that a movement goes anywhere.
    taken(|output| move_slot_eight(output, |movement| movement.from = movement.to));
    for units_per_second in [0, 1, u32::MAX] {
        let pace = Pace::Ramp { units_per_second };
        taken(|output| move_slot_eight(output, |movement| movement.pace = pace));
    }
    refused(|output| {
        move_slot_eight(output, |movement| movement.owner = 6);
        warn_at_slot_nine(output, |warning| warning.level = 0);
    });
}

#[test]
fn warnings_and_durations() {
    taken(|output| warn_at_slot_nine(output, |_| {}));
    refused(|output| {
        warn_at_slot_nine(output, |_| {});
        output.empty(6);
    });
    refused(|output| warn_at_slot_nine(output, |warning| warning.slot = 6));
    refused(|output| warn_at_slot_nine(output, |warning| warning.slot = 17));
    refused(|output| warn_at_slot_nine(output, |warning| warning.level = 1));
    taken(|output| warn_at_slot_nine(output, |warning| warning.level = 0));
    refused(|output| warn_at_slot_nine(output, |warning| warning.end = TIME));
    for (slot, end, good) in [(16, 1, true), (16, 0, false), (6, 1, false), (0, 1, false)] {
        let duration = RunningDuration {
            slot,
            end: TIME + end,
        };
        let answer = answer_after(|output, _| output.duration = Some(duration));
        assert_eq!(answer == Answer::Done, good);
    }
}

#[test]
fn stations() {
    let with_kind = |number, kind| {
        answer_after(|_, station| {
            station.number = number;
            station.frame[0] = kind;
        })
    };
    assert_eq!(with_kind(0, 0xFF), Answer::Done);
    assert_eq!(with_kind(1, 0x02), Answer::Done);
    assert_eq!(with_kind(1, 0x01), REFUSED);
    assert_eq!(with_kind(1, 0x06), REFUSED);
    assert_eq!(with_kind(1, 0x1B), Answer::Done);
    assert_eq!(with_kind(1, 0x1C), REFUSED);
}
