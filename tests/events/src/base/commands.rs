//! Commands that are carried out, in either form.

use std::cmp::Ordering;

use plain::frame::*;
use plain::real;

use super::{Event, Step, Stop};
use crate::seen::{Act, Carried};
use crate::tally::Tally;
use crate::words::{goes_up, is_ramp, Rank, Situation};

pub fn carried(act: &Act, carried: &Carried, events: &mut Tally<Event>) {
    let kind = carried.kind;
    // Those in tags have events of their own.
    if !carried.tagged {
        events.count(Event::Command {
            kind: kind.into(),
            situation: Situation::of(act.arrived),
            rank: Rank::of(act.arrived, carried.slot),
        });
    }
    if (1..real::ONE_PERCENT).contains(&act.arrived.progress_value()) {
        events.count(Event::CommandFromBelowOnePercent);
    }
    match kind {
        STOP => stopped(act, carried, events),
        FADE_TO..=GOTO => {
            stepped(act, carried, events);
            aimed(act, carried, events);
        }
        _ => {}
    }
    duration(act, carried, events);
}

fn stopped(act: &Act, carried: &Carried, events: &mut Tally<Event>) {
    if act.arrived.owns_movement(carried.slot) {
        let minimum = act.arrived.settings.minimum;
        events.count(Event::Stopped(match act.arrived.progress_value() {
            0 => Stop::AtZero,
            reached if reached < minimum => Stop::RaisedToMinimum,
            _ => Stop::AsReached,
        }));
    }
}

fn stepped(act: &Act, carried: &Carried, events: &mut Tally<Event>) {
    let start = act.arrived.progress_value();
    let step = act.arrived.step(&carried.command);
    let settings = &act.arrived.settings;
    let stepped = match carried.kind {
        STEP_UP | STEP_UP_BY => match settings.into_range(start + step).cmp(&(start + step)) {
            Ordering::Less => Step::UpToMaximum,
            Ordering::Equal => Step::UpWithin,
            Ordering::Greater => Step::UpToMinimum,
        },
        STEP_DOWN | STEP_DOWN_BY => match start.saturating_sub(step) {
            _ if start == 0 => Step::DownFromZero,
            0 => Step::DownToZeroGivesMinimum,
            below if settings.into_range(below) > below => Step::DownToMinimum,
            _ => Step::DownWithin,
        },
        _ => return,
    };
    events.count(Event::Stepped(stepped));
}

/// The command has a target; whether its slot wins decides of the movement.
fn aimed(act: &Act, carried: &Carried, events: &mut Tally<Event>) {
    let replaces = act.arrived.movement.is_some();
    let wins = act.after.winner() == Some(carried.slot);
    match &act.after.movement {
        _ if !wins && replaces => events.count(Event::LosingCommandLeavesMovement),
        _ if !wins => {}
        Some(movement) => events.count(Event::MovementStarted {
            ramp: is_ramp(movement),
            up: goes_up(movement),
            replaces,
        }),
        None if replaces => events.count(Event::MovementReplacedByNone {
            kind: carried.kind.into(),
        }),
        None => {}
    }
}

fn duration(act: &Act, carried: &Carried, events: &mut Tally<Event>) {
    let running = act.arrived.duration.map(|running| running.slot);
    let other_slot = running.map(|slot| slot != carried.slot);
    match (carried.command.duration, running) {
        (Some(0), _) => events.count(Event::DurationCancelled { other_slot }),
        (Some(_), _) => events.count(Event::DurationSet {
            replaces_other_slot: other_slot,
            slot_live: act.after.slot(carried.slot).is_some(),
            winner: act.after.winner() == Some(carried.slot),
        }),
        (None, Some(slot)) => events.count(Event::DurationLeftRunning {
            kind: carried.kind.into(),
            own_slot: slot == carried.slot,
        }),
        (None, None) => {}
    }
}
