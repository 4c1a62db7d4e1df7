//! Warnings that start, do not start, and are ended before their time.

use plain::frame::{byte_field, value_field, WRITE_PRESENT_VALUE};
use plain::output::WARNING_SLOT;
use plain::real;
use plain::Output;

use super::{Breaker, Event, NoWarning, Phase};
use crate::seen::{Act, Carried};
use crate::tally::Tally;
use crate::words::{Situation, DARKENING};

pub fn act(act: &Act, events: &mut Tally<Event>) {
    if !act.is_done() {
        return;
    }
    if act.kind() == WRITE_PRESENT_VALUE {
        written(act, byte_field(act.bytes), value_field(act.bytes), events);
    } else if let Some(carried) = act.command() {
        commanded(act, &carried, events);
    }
}

fn written(act: &Act, priority: u8, bits: u32, events: &mut Tally<Event>) {
    let lit = real::level(bits) > Some(0);
    if let Some(warning) = &act.arrived.warning {
        let above = priority > WARNING_SLOT;
        let own_slot = warning.slot == priority;
        let by = match (lit, above, own_slot) {
            (false, true, true) => Breaker::ZeroAtItsOwnSlot,
            (false, true, false) => Breaker::ZeroAtAnotherSlotAboveSix,
            (false, false, _) => Breaker::ZeroBelowSix,
            (true, true, true) => Breaker::LitAtItsOwnSlot,
            (true, true, false) => Breaker::LitAtAnotherSlotAboveSix,
            (true, false, _) => Breaker::LitBelowSix,
        };
        broken(act, by, events);
        return;
    }
    if lit {
        return;
    }
    if let [only] = conditions_not_met(act.arrived, priority)[..] {
        events.count(Event::NoWarningOnlyFor(only));
    }
    if let Some(warning) = &act.after.warning {
        events.count(Event::WarningStarted {
            dark: warning.dark_time > 0,
            lit: warning.lit_time > 0,
            in_movement: act.arrived.movement.is_some(),
        });
        events.count(Event::WarningStartedAt { slot: priority });
        if bits != 0 {
            events.count(Event::WarningStartedByMinusZero);
        }
    }
}

fn commanded(act: &Act, carried: &Carried, events: &mut Tally<Event>) {
    let kind = carried.kind;
    // Where there is no level, it is 0.
    let level = carried.command.level.and_then(real::level).unwrap_or(0);
    let darkens = DARKENING.contains(&kind) && level == 0;
    if darkens && conditions_not_met(act.arrived, carried.slot).is_empty() {
        events.count(Event::CommandInsteadOfWarning { kind: kind.into() });
    }
    if act.arrived.warning.is_some() {
        broken(act, Breaker::Command(kind.into()), events);
    }
}

fn broken(act: &Act, by: Breaker, events: &mut Tally<Event>) {
    let phase = match Situation::of(act.arrived) {
        Situation::WarningDark => Phase::Dark,
        _ => Phase::Lit,
    };
    events.count(Event::WarningBroken { by, phase });
}

/// The conditions for a warning that a zero at `priority` does not meet.
fn conditions_not_met(output: &Output, priority: u8) -> Vec<NoWarning> {
    let settings = &output.settings;
    let stronger_slot_live = (1..priority).any(|other| output.slot(other).is_some());
    let weaker_slot_lit = (priority + 1..=16).any(|other| output.slot(other).unwrap_or(0) > 0);
    let no_time = settings.blink_time + settings.blink_warn_delay == 0;
    let conditions = [
        (priority < 7, NoWarning::PriorityBelowSeven),
        (!settings.blink_enable, NoWarning::BlinkDisabled),
        (no_time, NoWarning::NoTime),
        (output.warning.is_some(), NoWarning::AlreadyRunning),
        (stronger_slot_live, NoWarning::StrongerSlotLive),
        (output.present_value() == 0, NoWarning::WasDark),
        (settings.relinquish_default > 0, NoWarning::DefaultLit),
        (weaker_slot_lit, NoWarning::WeakerSlotLit),
    ];
    let broken = conditions.into_iter().filter(|(broken, _)| *broken);
    broken.map(|(_, reason)| reason).collect()
}
