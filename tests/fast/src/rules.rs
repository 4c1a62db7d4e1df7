//! The record rules, checked before anything else (refusal 1).

use crate::act::is_priority;
use crate::frame::{length_of_kind, CLOCK};
use crate::level::{is_rate_or_step, is_slot_level, HIGHEST, LOWEST_LIT};
use crate::output::{
    Movement, Output, RunningDuration, Settings, Warning, LONGEST_TIME, SHORTEST_TIME,
    WARNING_PRIORITY,
};
use crate::parameters::{PanelRecord, Parameters};
use crate::station::Station;

pub fn all_rules_hold(outputs: &[Output], stations: &[Station], kept: &PanelRecord) -> bool {
    kept.parameters.are_in_range()
        && kept.parameters.fit(outputs, stations)
        && outputs
            .iter()
            .all(|output| output_rules_hold(output, &kept.parameters, kept.time))
        && stations.iter().all(station_rules_hold)
}

fn station_rules_hold(station: &Station) -> bool {
    let kind = station.frame[0];
    station.number == 0 || (kind != CLOCK && length_of_kind(kind).is_some())
}

fn output_rules_hold(output: &Output, parameters: &Parameters, time: u64) -> bool {
    settings_hold(&output.settings, parameters.longest_fade)
        && slots_hold(output)
        && output.live & 1 << (WARNING_PRIORITY - 1) == warning_bit(output)
        && !(output.movement.is_some() && output.warning.is_some())
        && output
            .movement
            .is_none_or(|movement| movement_holds(output, &movement, parameters, time))
        && output
            .warning
            .is_none_or(|warning| warning_holds(&warning, time))
        && output
            .duration
            .is_none_or(|duration| duration_holds(&duration, time))
        && output.burning <= time
        && output.active == output.judged()
}

/// Slot 6 is live exactly during a warning.
fn warning_bit(output: &Output) -> u16 {
    u16::from(output.warning.is_some()) << (WARNING_PRIORITY - 1)
}

fn settings_hold(settings: &Settings, longest_fade: u32) -> bool {
    let bounds = LOWEST_LIT..=HIGHEST;
    is_slot_level(settings.relinquish_default)
        && (SHORTEST_TIME..=longest_fade).contains(&settings.fade_time)
        && is_rate_or_step(settings.ramp_rate)
        && is_rate_or_step(settings.step_increment)
        && settings.blink_time <= LONGEST_TIME
        && settings.blink_warn_delay <= LONGEST_TIME
        && bounds.contains(&settings.minimum)
        && bounds.contains(&settings.maximum)
        && settings.minimum <= settings.maximum
        && is_priority(u32::from(settings.command_priority))
        && is_slot_level(settings.active_value)
        && is_slot_level(settings.inactive_value)
        && settings.inactive_value < settings.active_value
}

/// The rule speaks of live slots; what stands in the others does not matter.
fn slots_hold(output: &Output) -> bool {
    output
        .levels
        .iter()
        .enumerate()
        .all(|(index, level)| output.live >> index & 1 == 0 || is_slot_level(*level))
}

fn movement_holds(
    output: &Output,
    movement: &Movement,
    parameters: &Parameters,
    time: u64,
) -> bool {
    output.winner() == Some(movement.owner)
        && movement.from <= output.settings.maximum
        && movement.to == output.present_value()
        && movement.began <= time
        && (1..=parameters.longest_movement()).contains(&movement.length)
        && time - movement.began < u64::from(movement.length)
}

fn warning_holds(warning: &Warning, time: u64) -> bool {
    (WARNING_PRIORITY + 1..=16).contains(&warning.slot)
        && is_slot_level(warning.level)
        && warning.turn <= warning.end
        && time < warning.end
}

fn duration_holds(duration: &RunningDuration, time: u64) -> bool {
    is_priority(u32::from(duration.slot)) && time < duration.end
}
