//! Where Present_Value and the two values of a relay meet (§3).

mod event;
mod expected;
mod frames;

pub use event::*;
pub use expected::{expected, STANDS};
pub use frames::{act, list};

use plain::Output;

use crate::base::Event;
use crate::passing::{Due, Passed};
use crate::tally::Tally;
use crate::words::Situation;

/// Active and inactive.
fn relay_values(output: &Output) -> (u32, u32) {
    let settings = &output.settings;
    (settings.binary_active_value, settings.binary_inactive_value)
}

impl Stand {
    fn of(output: &Output) -> Stand {
        let shown = output.present_value();
        let (active, inactive) = relay_values(output);
        match shown {
            _ if shown == active => Stand::AtActive,
            _ if shown == inactive => Stand::AtInactive,
            _ if shown == active + 1 => Stand::JustAboveActive,
            _ if shown + 1 == inactive => Stand::JustBelowInactive,
            _ if shown > active => Stand::AboveActive,
            _ if shown < inactive => Stand::BelowInactive,
            _ if shown == inactive + 1 => Stand::JustAboveInactive,
            _ if shown + 1 == active => Stand::JustBelowActive,
            _ => Stand::Between,
        }
    }
}

/// Where the relay stays as it was.
fn shows_between(output: &Output) -> bool {
    let (active, inactive) = relay_values(output);
    (inactive + 1..active).contains(&output.present_value())
}

/// Something may have moved Present_Value, or one of the two values.
fn judged(before: &Output, after: &Output, by: Mover, events: &mut Tally<Event>) {
    let judged_by = |output: &Output| (output.present_value(), relay_values(output));
    if judged_by(before) == judged_by(after) {
        return;
    }
    events.count(Event::Relay(RelayEvent::Judged {
        by,
        was_active: before.active,
        stand: Stand::of(after),
    }));
    if after.active != before.active {
        events.count(Event::Relay(RelayEvent::Turned {
            by,
            situation: Situation::of(before),
            active: after.active,
        }));
    }
}

/// The turn or the end of a warning.
fn of_warning(due: &Due) -> Option<Mover> {
    let warning = due.before.warning.as_ref()?;
    let (gone, dark, lit) = (warning.gone + 1, warning.dark_time, warning.lit_time);
    match gone {
        _ if gone == dark + lit => Some(Mover::WarningEnd { lit: lit > 0 }),
        _ if gone == dark => Some(Mover::WarningTurn),
        _ => None,
    }
}

/// In a warning slot 6 wins, so that a duration which falls due together with
/// its turn or end moves nothing.
pub fn passed(passed: &Passed, events: &mut Tally<Event>) {
    let mut turns = 0;
    for due in &passed.due {
        let with_duration = due.duration_fires();
        let of_warning = of_warning(due);
        let Some(by) = of_warning.or(with_duration.then_some(Mover::Duration)) else {
            continue;
        };
        judged(&due.before, &due.after, by, events);
        if due.after.active != due.before.active {
            turns += 1;
            if with_duration && of_warning.is_some() {
                events.count(Event::Relay(RelayEvent::TurnedWithDuration { by }));
            }
        }
    }
    if turns > 0 {
        events.count(Event::Relay(RelayEvent::TurnsOnTheWay { turns }));
    }
    if turns % 2 == 1 && shows_between(&passed.arrived) {
        let active = passed.arrived.active;
        events.count(Event::Relay(RelayEvent::RememberedFromTheWay { active }));
    }
}
