//! Document 01: the list, acts, commands, due moments and warnings.

mod commands;
mod due;
mod event;
mod expected;
mod list;
mod properties;
mod slots;
mod warnings;

pub use due::passed;
pub use event::*;
pub use expected::{expected, situations_and_ranks};
pub use list::list;

use crate::passing::Passed;
use crate::seen::Act;
use crate::tally::Tally;

/// What is remembered of an output.
#[derive(Clone, Copy, Default)]
pub struct Memory {
    /// Milliseconds that its last duration was set for.
    duration: u64,
}

/// A first arrival.
pub fn act(act: &Act, passed: &Passed, memory: &mut Memory, events: &mut Tally<Event>) {
    properties::act(act, passed, events);
    slots::act(act, events);
    warnings::act(act, events);
    if let Some(carried) = act.command() {
        commands::carried(act, &carried, events);
        if let Some(milliseconds @ 1..) = carried.command.duration {
            memory.duration = milliseconds.into();
        }
    }
}
