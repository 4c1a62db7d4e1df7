//! REALs exactly between two units, and those beside them (§5). A tie is counted
//! only where it shows.

mod compared;
mod event;
mod expected;

pub use event::*;
pub use expected::expected;

use plain::frame::*;
use plain::movement::{Movement, Pace};
use plain::real;
use plain::settings::*;

use crate::base::Event;
use crate::seen::{Act, Carried};
use crate::tally::Tally;

/// What is remembered of an output.
#[derive(Clone, Copy, Default)]
pub struct Memory {
    /// Where the rate of its last ramp comes from, and its REAL.
    ramp_by: Option<(Field, u32)>,
    below_a_tie: compared::BelowATie,
}

fn in_units(bits: u32) -> f64 {
    f64::from(f32::from_bits(bits)) * f64::from(real::ONE_PERCENT)
}

fn is_tie(bits: u32) -> bool {
    in_units(bits).fract() == 0.5 && f32::from_bits(bits) <= 100.0
}

impl Tie {
    pub const ALL: [Tie; 4] = [
        Tie::LowerEven,
        Tie::UpperEven,
        Tie::JustBelow,
        Tie::JustAbove,
    ];

    /// Of a REAL in range. From 64 percent on one may lie beside two.
    pub fn of(bits: u32) -> Vec<Tie> {
        let at = is_tie(bits).then(|| match (in_units(bits) as u32).is_multiple_of(2) {
            true => Tie::LowerEven,
            false => Tie::UpperEven,
        });
        let below = is_tie(bits + 1).then_some(Tie::JustBelow);
        let above = is_tie(bits - 1).then_some(Tie::JustAbove);
        [at, below, above].into_iter().flatten().collect()
    }

    /// What the rounded unit would be on the tie's other side.
    fn other_unit(self, unit: u32) -> u32 {
        match self {
            Tie::LowerEven | Tie::JustBelow => unit + 1,
            Tie::UpperEven | Tie::JustAbove => unit - 1,
        }
    }
}

impl Span {
    fn of(bits: u32) -> Span {
        match f32::from_bits(bits) {
            real if real < 1.0 => Span::BelowOne,
            real if real < 64.0 => Span::BelowSixtyFour,
            _ => Span::FromSixtyFour,
        }
    }
}

impl Small {
    fn of(bits: u32) -> Option<Small> {
        match in_units(bits) {
            units if units <= 0.5 => Some(Small::NextToZero),
            units if units.fract() == 0.5 => Some(Small::BetweenUnits),
            _ => None,
        }
    }
}

pub fn act(act: &Act, memory: &mut Memory, events: &mut Tally<Event>) {
    let mut note = |event| events.count(Event::Tie(event));
    let (field, value) = (byte_field(act.bytes), value_field);
    match act.kind() {
        WRITE_PRESENT_VALUE if act.is_done() => level(Field::Slot, value(act.bytes), note),
        WRITE_PROPERTY => {
            let value = value(act.bytes);
            compared::decision(act.after, memory.below_a_tie, field, value, &mut note);
            if act.is_done() {
                property(field, value, note);
                memory.below_a_tie.written(field, value);
            }
        }
        READ_PROPERTY => {
            if let (Some(by), Some(movement)) = (memory.ramp_by, act.arrived.movement) {
                ramp_read(&movement, by, field, note);
            }
        }
        _ => {
            if let Some(carried) = act.command() {
                memory.ramp_by = ramp_by(act, &carried).or(memory.ramp_by);
                command(act, &carried, note);
            }
        }
    }
}

fn rounding(field: Field, bits: u32, mut note: impl FnMut(TieEvent)) {
    let span = Span::of(bits);
    for tie in Tie::of(bits) {
        note(TieEvent::Rounded { field, tie, span });
    }
}

/// A level is taken, and stands as it is.
fn level(field: Field, bits: u32, mut note: impl FnMut(TieEvent)) {
    let real = f32::from_bits(bits);
    if real >= 1.0 {
        rounding(field, bits, note);
    } else if let Some(small) = Small::of(bits).filter(|_| real > 0.0) {
        note(TieEvent::Raised { field, small });
    }
}

fn property(property: u8, value: u32, note: impl FnMut(TieEvent)) {
    let field = Field::Property(property.into());
    match property {
        RELINQUISH_DEFAULT | BINARY_ACTIVE_VALUE | BINARY_INACTIVE_VALUE => {
            level(field, value, note)
        }
        RAMP_RATE | STEP_INCREMENT | MINIMUM | MAXIMUM => rounding(field, value, note),
        _ => {}
    }
}

fn command(act: &Act, carried: &Carried, mut note: impl FnMut(TieEvent)) {
    let Carried {
        command, tagged, ..
    } = carried;
    let (kind, tagged) = (carried.kind.into(), *tagged);
    let stored = act.after.slot(carried.slot);
    // Not brought into Min..Max.
    if let Some(bits) = command.level.filter(|bits| real::level(*bits) == stored) {
        level(Field::Level { kind, tagged }, bits, &mut note);
    }
    if let STEP_UP | STEP_DOWN | STEP_UP_BY | STEP_DOWN_BY = carried.kind {
        let (field, bits) = match command.step {
            Some(bits) => (Field::Step { kind, tagged }, bits),
            None => (Field::Setting { kind }, act.arrived.settings.step_increment),
        };
        let start = act.arrived.progress_value();
        let way = stored.map(|level| level.abs_diff(start));
        if way == real::rate_or_step(bits) {
            rounding(field, bits, note);
        }
    }
}

/// Of a command that has started a ramp.
fn ramp_by(act: &Act, carried: &Carried) -> Option<(Field, u32)> {
    let ramp = matches!(carried.kind, RAMP_TO | RAMP_TO_AT_RATE);
    (ramp && act.after.owns_movement(carried.slot)).then(|| match carried.command.rate {
        Some(bits) => (
            Field::Rate {
                tagged: carried.tagged,
            },
            bits,
        ),
        None => (
            Field::Setting {
                kind: carried.kind.into(),
            },
            act.arrived.settings.ramp_rate,
        ),
    })
}

/// Where a ramp at the next rate would be elsewhere, or over.
fn ramp_read(
    movement: &Movement,
    (field, bits): (Field, u32),
    property: u8,
    mut note: impl FnMut(TieEvent),
) {
    let Pace::Ramp { units_a_second } = movement.pace else {
        return;
    };
    let span = Span::of(bits);
    for tie in Tie::of(bits) {
        let rate = tie.other_unit(units_a_second);
        let other = Movement::ramp(movement.owner, movement.from, movement.to, rate);
        let Some(other) = other else {
            continue;
        };
        let elsewhere = other.level_after(movement.gone) != movement.reached;
        if property == PROGRESS_VALUE && elsewhere {
            note(TieEvent::Rounded { field, tie, span });
        }
        if property == IN_PROCESS && other.length <= movement.gone {
            note(TieEvent::StillRuns { field, tie });
        }
    }
}
