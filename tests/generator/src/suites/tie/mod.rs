//! §5: halves go to the even unit.

mod scenes;
mod values;

use super::{base, relay, tags};
use crate::list::Generator;
use crate::suite::{Suite, Tables};

pub static SUITE: Suite = Suite {
    name: "§5",
    subject: "halves to the even unit",
    share: 12,
    at_rest: &[
        (800, Generator::plan_tie),
        (40, Generator::plan_movement),
        (40, Generator::plan_command_at_rest),
        (40, Generator::plan_slot_at_rest),
        (40, Generator::plan_sentence),
        (40, Generator::plan_anything_at_rest),
    ],
    in_movement: base::IN_MOVEMENT,
    in_warning: base::IN_WARNING,
    tables: Tables {
        kinds: &tags::KINDS,
        more_properties: &relay::PROPERTIES,
        more_writes: Some(Generator::some_relay_write),
        tagged: 45,
        ..base::TABLES
    },
    events: events::tie::expected,
    edges: Vec::new,
};
