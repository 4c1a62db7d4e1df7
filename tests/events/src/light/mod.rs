//! Where the light of movements begins and ends (§2).
//!
//! A movement is dark or lit by its level at a millisecond, so these moments
//! are told by the levels beside them, with no formula for the moment itself.

mod event;
mod expected;

pub use event::*;
pub use expected::expected;

use plain::frame::*;
use plain::last_command::LastCommand;
use plain::movement::Movement;
use plain::real;
use plain::settings::{
    ELAPSED_ACTIVE_TIME, FOUR_HOURS, MAXIMUM, MINIMUM, PRESENT_VALUE, PROGRESS_VALUE,
};
use plain::Output;

use crate::base::Event;
use crate::passing::{Due, Passed};
use crate::seen::Act as Acted;
use crate::tally::Tally;
use crate::words::{is_ramp, Hexadecimal, Rank};

/// Properties whose writing burning time or a movement feels.
const WRITTEN: [u8; 3] = [ELAPSED_ACTIVE_TIME, MINIMUM, MAXIMUM];
/// Properties that tell what was counted and what is lit.
const READ: [u8; 3] = [ELAPSED_ACTIVE_TIME, PRESENT_VALUE, PROGRESS_VALUE];

impl Way {
    pub fn of(movement: &Movement) -> Way {
        Way {
            course: match (movement.from, movement.to) {
                (0, _) => Course::RiseFromZero,
                (_, 0) => Course::FallToZero,
                _ => Course::BetweenLit,
            },
            ramp: is_ramp(movement),
        }
    }
}

impl Place {
    /// Where the moment `gone` milliseconds after a movement's start lies.
    fn of(movement: &Movement, gone: u64) -> Place {
        let lit = |gone| movement.level_after(gone) > 0;
        match (Way::of(movement).course, lit(gone)) {
            (Course::RiseFromZero, false) if lit(gone + 1) => Place::LastDark,
            (_, false) => Place::Dark,
            (Course::RiseFromZero, true) if !lit(gone - 1) => Place::FirstLit,
            (Course::RiseFromZero, true) if !lit(gone - 2) => Place::SecondLit,
            (Course::FallToZero, true) if !lit(gone + 1) => Place::LastLit,
            (Course::BetweenLit, true) if gone + 1 == movement.length => Place::LastMoving,
            (_, true) => Place::Lit,
        }
    }
}

/// Of the output's movement, as far as it has come.
fn way_and_place(output: &Output) -> Option<(Way, Place)> {
    let movement = output.movement.as_ref()?;
    Some((Way::of(movement), Place::of(movement, movement.gone)))
}

pub fn passed(passed: &Passed, events: &mut Tally<Event>) {
    let mut note = |event| events.count(Event::Light(event));
    for due in &passed.due {
        duration(due).into_iter().for_each(&mut note);
    }
    if passed.milliseconds > 0 {
        if let Some((way, begins)) = way_and_place(&passed.before) {
            stretch(passed, way, begins, note);
        }
    }
}

/// A duration falls due in a movement. At the movement's own end it is
/// `DurationFiredTogetherWith`.
fn duration(due: &Due) -> Option<LightEvent> {
    let (movement, slot) = (due.before.movement?, due.emptied_slot()?);
    let gone = movement.gone + 1;
    let place = (gone < movement.length).then(|| Place::of(&movement, gone))?;
    place.is_edge().then_some(LightEvent::DurationFired {
        way: Way::of(&movement),
        place,
        own_movement: movement.owner == slot,
    })
}

/// From one accepted frame to the next.
fn stretch(passed: &Passed, way: Way, begins: Place, mut note: impl FnMut(LightEvent)) {
    let over = passed.due.iter().find(|due| due.after.movement.is_none());
    let ends = match (way_and_place(&passed.arrived), over) {
        (Some((_, place)), _) => place,
        (None, Some(due)) if due.at == passed.milliseconds => Place::AtEnd,
        _ => Place::PastEnd,
    };
    note(LightEvent::Stretch { way, begins, ends });
    let fade_from_zero = way.course == Course::RiseFromZero && !way.ramp;
    let Some(movement) = passed.arrived.movement.filter(|_| fade_from_zero) else {
        return;
    };
    let (to, length) = (u64::from(movement.to), movement.length);
    if to == u64::from(real::ONE_PERCENT) && length == u64::from(FOUR_HOURS) {
        note(LightEvent::LongestDarkPart { place: ends });
    }
    if ends == Place::FirstLit && movement.gone > 1 {
        let just_then = (to * movement.gone).is_multiple_of(length);
        note(LightEvent::FirstUnit { just_then });
    }
}

pub fn act(act: &Acted, events: &mut Tally<Event>) {
    let mut note = |event| events.count(Event::Light(event));
    if act.kind() == READ_PROPERTY && byte_field(act.bytes) == ELAPSED_ACTIVE_TIME {
        // A read leaves burning time as it is.
        match act.after.burning {
            burning if burning % 1_000 == 999 => {
                note(LightEvent::ElapsedReadAtSecond { just_before: true })
            }
            burning if burning > 0 && burning % 1_000 == 0 => {
                note(LightEvent::ElapsedReadAtSecond { just_before: false })
            }
            _ => {}
        }
    }
    let edge = way_and_place(act.arrived).filter(|(_, place)| place.is_edge());
    let Some((way, place)) = edge.filter(|_| !act.is_refused()) else {
        return;
    };
    if let Some(act) = act_of(act) {
        note(LightEvent::Acted { way, place, act });
    }
    let Some(carried) = act.command() else {
        return;
    };
    let replaces = act.after.winner() == Some(carried.slot);
    if !replaces || !(FADE_TO..=GOTO).contains(&carried.kind) {
        return;
    }
    let into = act.after.movement.as_ref().map(Way::of);
    note(LightEvent::Retargeted { way, place, into });
    let stays_dark = act.arrived.progress_value() == 0 && into.is_none();
    if stays_dark && carried.kind <= RAMP_TO_AT_RATE {
        let kind = carried.kind.into();
        note(LightEvent::CommandedBackToZero { kind });
    }
}

fn act_of(act: &Acted) -> Option<Act> {
    let field = byte_field(act.bytes);
    match act.kind() {
        WRITE_PRESENT_VALUE => Some(Act::Write {
            lit: real::level(value_field(act.bytes))? > 0,
            rank: Rank::of(act.arrived, field),
        }),
        EMPTY_A_SLOT => Some(Act::Empty {
            rank: Rank::of(act.arrived, field),
        }),
        WRITE_PROPERTY => WRITTEN
            .contains(&field)
            .then_some(Act::Property(field.into())),
        READ_PROPERTY => READ.contains(&field).then_some(Act::Read(field.into())),
        _ => {
            let operation = LastCommand::of_frame(act.bytes)?.operation;
            Some(Act::Command(Hexadecimal(STOP + operation)))
        }
    }
}
