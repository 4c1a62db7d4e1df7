//! §6: panel parameters at start.

pub(crate) mod headings;
mod scenes;
mod stations;

pub use events::set::edges_of;

use super::{base, relay, tags};
use crate::list::Generator;
use crate::suite::{Suite, Tables};

pub static SUITE: Suite = Suite {
    name: "§6",
    subject: "parameters at start",
    share: 8,
    at_rest: &[
        (800, Generator::plan_set),
        (50, Generator::plan_movement),
        (50, Generator::plan_command_at_rest),
        (50, Generator::plan_slot_at_rest),
        (50, Generator::plan_anything_at_rest),
    ],
    in_movement: base::IN_MOVEMENT,
    in_warning: base::IN_WARNING,
    tables: Tables {
        kinds: &tags::KINDS,
        more_properties: &relay::PROPERTIES,
        more_writes: Some(Generator::some_relay_write),
        tagged: 40,
        headings: Some(headings::heading),
        // Many sets in few frames.
        length: Some((40, 280)),
        ..base::TABLES
    },
    events: events::set::expected,
    edges: events::edges::of_sets,
};
