//! A lent record that keeps the rules, lived by the plain panel's output.
//!
//! What that output does not have is kept here: the levels of slots that are
//! not live, which stay until the slot is emptied and are 0 from then on; the
//! numbers of a lent last command; and slot 6, which a lent record may hold at
//! another level than its warning's phase, up to the turn or the end.

use plain::frame;
use plain::last_command::LastCommand;
use plain::movement::{Movement, Pace};
use plain::output::RunningDuration;
use plain::warning::Warning;
use plain::{Answer, Output, Parameters};

use crate::record::{Activity, Last, Record};

const SLOT_6: u8 = 6;

/// The plain panel counts slots from 1.
fn priority(slot: u8) -> u8 {
    slot + 1
}

fn output_of(record: &Record, time: u64) -> Output {
    let mut output = a_fresh_output();
    let settings = &mut output.settings;
    settings.relinquish_default = record.default;
    settings.fade_time = record.fade;
    settings.ramp_rate = record.ramp;
    settings.step_increment = record.step;
    settings.blink_enable = record.enable;
    settings.blink_time = record.blink;
    settings.blink_warn_delay = record.delay;
    settings.minimum = record.min;
    settings.maximum = record.max;
    settings.lighting_command_priority = priority(record.slot);
    settings.binary_active_value = record.active;
    settings.binary_inactive_value = record.inactive;
    settings.polarity_reverse = record.reverse;
    for slot in (0..16).filter(|slot| record.is_live(*slot)) {
        output.store(priority(slot), record.levels[usize::from(slot)]);
    }
    match record.activity {
        Activity::Still => {}
        Activity::Moving {
            owner,
            start,
            target,
            length,
            over,
            rate,
        } => {
            let length = u64::from(length);
            let mut movement = Movement {
                owner: priority(owner),
                from: start,
                to: target,
                pace: match rate {
                    Some(units_a_second) => Pace::Ramp { units_a_second },
                    None => Pace::Fade,
                },
                length,
                gone: length - (over - time),
                reached: 0,
            };
            movement.reached = movement.level_after(movement.gone);
            output.movement = Some(movement);
        }
        Activity::Warned {
            delay,
            owner,
            level,
            turn,
            over,
        } => {
            // What is left of it; of the turn nothing is asked once it is past.
            let dark_time = if delay { 0 } else { turn - time };
            output.warning = Some(Warning {
                slot: priority(owner),
                dark_time,
                lit_time: over - time - dark_time,
                level,
                gone: 0,
            });
        }
    }
    output.duration = record.timer.map(|(slot, due)| {
        let mut running = a_duration();
        running.slot = priority(slot);
        running.left = due - time;
        running
    });
    output.last = last_command(&record.last);
    output.burning = record.burning;
    output.active = record.binary;
    output
}

/// Every field of it is written.
fn a_fresh_output() -> Output {
    Output::fresh(&Parameters::of_old_panel(1))
}

/// One that the plain panel makes itself: STOP with a duration of 100 ms.
fn a_duration() -> RunningDuration {
    let mut output = a_fresh_output();
    let mut stop = [0; 17];
    stop[0] = frame::STOP;
    stop[16] = 100;
    output.command(&Parameters::of_old_panel(1), &stop);
    output.duration.expect("STOP set it")
}

fn last_command(last: &Last) -> LastCommand {
    let mut command = LastCommand::fresh();
    command.operation = last.operation;
    match last.operation {
        1 | 3 | 9 => command.level = Some(last.first),
        2 => {
            command.level = Some(last.first);
            command.fade_time = Some(last.second);
        }
        4 => {
            command.level = Some(last.first);
            command.rate = Some(last.second);
        }
        7 | 8 => command.step = Some(last.first),
        _ => {}
    }
    command.duration = (last.duration > 0).then_some(last.lasts);
    command
}

fn numbers_of(command: &LastCommand) -> Last {
    Last {
        operation: command.operation,
        first: command.level.or(command.step).unwrap_or(0),
        second: command.rate.or(command.fade_time).unwrap_or(0),
        duration: match command.duration {
            None => 0,
            Some(0) => 1,
            Some(_) => 2,
        },
        lasts: command.duration.unwrap_or(0),
    }
}

/// Puts back what may have changed, but for the last command.
fn put_back(record: &mut Record, output: &Output, time: u64) {
    let settings = &output.settings;
    record.default = settings.relinquish_default;
    record.fade = settings.fade_time;
    record.ramp = settings.ramp_rate;
    record.step = settings.step_increment;
    record.enable = settings.blink_enable;
    record.blink = settings.blink_time;
    record.delay = settings.blink_warn_delay;
    record.min = settings.minimum;
    record.max = settings.maximum;
    record.slot = settings.lighting_command_priority - 1;
    record.active = settings.binary_active_value;
    record.inactive = settings.binary_inactive_value;
    record.reverse = settings.polarity_reverse;
    for slot in 0..16 {
        match output.slot(priority(slot)) {
            Some(level) => record.store(slot, level),
            None if record.is_live(slot) => empty(record, slot),
            None => {}
        }
    }
    let before = record.activity;
    record.activity = match (&output.movement, &output.warning) {
        (Some(movement), _) => Activity::Moving {
            owner: movement.owner - 1,
            start: movement.from,
            target: movement.to,
            length: movement.length as u32,
            over: time + movement.length - movement.gone,
            rate: match movement.pace {
                Pace::Fade => None,
                Pace::Ramp { units_a_second } => Some(units_a_second),
            },
        },
        (None, Some(warning)) => {
            let (turn, over) = match before {
                // No frame ends one warning and starts another.
                Activity::Warned { turn, over, .. } => (turn, over),
                _ => {
                    let turn = time + warning.dark_time;
                    (turn, turn + warning.lit_time)
                }
            };
            Activity::Warned {
                delay: warning.gone >= warning.dark_time,
                owner: warning.slot - 1,
                level: warning.level,
                turn,
                over,
            }
        }
        (None, None) => Activity::Still,
    };
    record.timer = output
        .duration
        .as_ref()
        .map(|duration| (duration.slot - 1, time + duration.left));
    record.burning = output.burning;
    record.binary = output.active;
}

fn empty(record: &mut Record, slot: u8) {
    record.live &= !(1 << slot);
    record.levels[usize::from(slot)] = 0;
}

/// From one moment to another, each millisecond in which something is pending
/// by itself.
pub fn pass(record: &mut Record, from: u64, to: u64) {
    let mut output = output_of(record, from);
    let mut left = to - from;
    while left > 0 {
        if output.nothing_pending() {
            output.pass(left);
            break;
        }
        left -= 1;
        if let Some(duration) = output.duration.as_ref().filter(|due| due.left == 1) {
            record.levels[usize::from(duration.slot - 1)] = 0;
        }
        if let Some(warning) = &output.warning {
            let ends = warning.gone + 1 == warning.dark_time + warning.lit_time;
            if ends && warning.lit_time > 0 {
                record.levels[usize::from(warning.slot - 1)] = 0;
            }
        }
        let (slot_6, active) = (output.slot(SLOT_6), output.active);
        output.pass(1);
        // Slot 6 is set at the turn and at the end.
        let goes_on = output
            .warning
            .as_ref()
            .is_some_and(|warning| warning.gone != warning.dark_time);
        if let (Some(level), true) = (slot_6, goes_on) {
            output.store(SLOT_6, level);
            output.active = active;
            output.judge_relay();
        }
    }
    put_back(record, &output, to);
}

/// What the frame's kind calls for, at its time.
pub fn act(record: &mut Record, parameters: &Parameters, time: u64, bytes: &[u8]) -> Answer {
    let tenant = parameters.is_tenant(frame::station(bytes));
    let mut output = output_of(record, time);
    let warned = output.warning.is_some();
    let answer = match bytes[0] {
        frame::WRITE_PRESENT_VALUE => {
            output.write_present_value(frame::byte_field(bytes), frame::value_field(bytes))
        }
        frame::EMPTY_A_SLOT => output.empty_a_slot(frame::byte_field(bytes)),
        frame::WRITE_PROPERTY => {
            let (property, value) = (frame::byte_field(bytes), frame::value_field(bytes));
            output.write_property(parameters, property, value)
        }
        frame::READ_PROPERTY => output.read_property_by(tenant, frame::byte_field(bytes)),
        frame::TAGGED_COMMAND => output.tagged_command(parameters, bytes),
        _ => output.command(parameters, bytes),
    };
    if matches!(answer, Answer::Refused(_)) || bytes[0] == frame::READ_PROPERTY {
        return answer;
    }
    output.judge_relay();
    match bytes[0] {
        frame::WRITE_PRESENT_VALUE if !warned => {}
        // Of zero in a warning it empties its slot.
        frame::WRITE_PRESENT_VALUE | frame::EMPTY_A_SLOT => {
            record.levels[usize::from(frame::byte_field(bytes) - 1)] = 0;
        }
        frame::WRITE_PROPERTY => {}
        _ => {
            record.last = numbers_of(&output.last);
            if frame::STOP + output.last.operation == frame::RELINQUISH {
                record.levels[usize::from(record.slot)] = 0;
            }
        }
    }
    put_back(record, &output, time);
    answer
}
