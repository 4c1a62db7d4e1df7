//! Jumps of about 2^32 ms and more out of a movement, and movements in which
//! the low 32 bits of the panel's time begin anew (§4).
//!
//! The plain panel has no 32 bits. These are the moments at which one that
//! carries them could take a movement that is over for one that still runs.

mod event;
mod expected;

pub use event::*;
pub use expected::expected;

use plain::frame::*;
use plain::movement::Movement;
use plain::settings::{ELAPSED_ACTIVE_TIME, IN_PROCESS, PROGRESS_VALUE};

use crate::base::Event;
use crate::light::Way;
use crate::passing::Passed;
use crate::seen::Seen;
use crate::tally::Tally;
use crate::words::{goes_up, is_ramp};

/// Properties that tell whether a movement still runs, and for how long it has.
const READ: [u8; 3] = [ELAPSED_ACTIVE_TIME, PROGRESS_VALUE, IN_PROCESS];

impl Arrival {
    fn of(bytes: &[u8]) -> Option<Arrival> {
        match bytes[0] {
            CLOCK => Some(Arrival::Clock),
            READ_PROPERTY => {
                let property = byte_field(bytes);
                let listed = READ.contains(&property);
                listed.then_some(Arrival::Read(property.into()))
            }
            WRITE_PRESENT_VALUE => Some(Arrival::Write),
            WRITE_PROPERTY => Some(Arrival::Property),
            EMPTY_A_SLOT => None,
            _ => Some(Arrival::Command),
        }
    }
}

/// An accepted frame: it jumps out of a movement of its own output, and a clock
/// out of those of all.
pub fn frame(seen: &Seen, events: &mut Tally<Event>) {
    if seen.jump() < Far::TwoTo31.milliseconds(0) {
        return;
    }
    let Some(arrival) = Arrival::of(seen.bytes) else {
        return;
    };
    let outputs = match arrival {
        Arrival::Clock => seen.before,
        _ => {
            let own = usize::from(output(seen.bytes));
            &seen.before[own..=own]
        }
    };
    for movement in outputs.iter().filter_map(|output| output.movement) {
        let way = Way::of(&movement);
        events.count(Event::Jumped(JumpEvent::By { way, arrival }));
    }
}

/// The output has come to this time.
pub fn passed(passed: &Passed, time: u64, events: &mut Tally<Event>) {
    if let Some(movement) = &passed.before.movement {
        jumped(movement, passed.milliseconds, events);
    }
    if let Some(movement) = &passed.arrived.movement {
        wrapped(movement, time, events);
    }
}

fn jumped(movement: &Movement, milliseconds: u64, events: &mut Tally<Event>) {
    let mut note = |measure, milliseconds| {
        if let Some(far) = Far::of(milliseconds, movement.length) {
            events.count(Event::Jumped(JumpEvent::Far {
                ramp: is_ramp(movement),
                up: goes_up(movement),
                measure,
                far,
            }));
        }
    };
    match movement.gone {
        0 => note(Measure::FromStart, milliseconds),
        gone => {
            note(Measure::SinceStart, gone + milliseconds);
            note(Measure::FromMiddle, milliseconds);
        }
    }
}

fn wrapped(movement: &Movement, time: u64, events: &mut Tally<Event>) {
    let high = |time: u64| time >> 32;
    let began = time - movement.gone;
    if high(began) == high(began + movement.length - 1) {
        return;
    }
    let wrap = match time as u32 {
        0 => Wrap::At,
        u32::MAX => Wrap::LastBefore,
        _ if high(time) == high(began) => Wrap::Before,
        _ => Wrap::After,
    };
    events.count(Event::Jumped(JumpEvent::Wrap {
        ramp: is_ramp(movement),
        wrap,
        from_two_to_40: time >= Far::TwoTo40.milliseconds(0),
    }));
}
