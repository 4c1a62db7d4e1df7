//! §3: binary relays on a lighting output.

mod judging;
mod values;
mod warnings;

use plain::settings::*;

use super::{base, tags};
use crate::list::Generator;
use crate::suite::{Suite, Tables};

pub static SUITE: Suite = Suite {
    name: "§3",
    subject: "relays",
    share: 18,
    at_rest: &[
        (600, Generator::plan_relay),
        (60, Generator::plan_warning),
        (60, Generator::plan_movement),
        (100, Generator::plan_command_at_rest),
        (60, Generator::plan_slot_at_rest),
        (60, Generator::plan_sentence),
        (60, Generator::plan_anything_at_rest),
    ],
    in_movement: &[
        (95, Generator::plan_in_movement),
        (5, Generator::plan_relay_write),
    ],
    in_warning: &[
        (80, Generator::plan_in_warning),
        (20, Generator::plan_relay_write),
    ],
    tables: Tables {
        kinds: &tags::KINDS,
        more_properties: &PROPERTIES,
        more_writes: Some(Generator::some_relay_write),
        looks: &LOOKS,
        tagged: 20,
        ..base::TABLES
    },
    events: events::relay::expected,
    edges: events::edges::of_relays,
};

pub const PROPERTIES: [u8; 5] = [
    BINARY_ACTIVE_VALUE,
    BINARY_INACTIVE_VALUE,
    POLARITY,
    BINARY_PRESENT_VALUE,
    RELAY_STATE,
];

/// Those of document 01, the relay and its state.
pub const LOOKS: [u8; 8] = [
    PRESENT_VALUE,
    PROGRESS_VALUE,
    PROGRESS_VALUE,
    IN_PROCESS,
    ELAPSED_ACTIVE_TIME,
    FIRST_SLOT + 5,
    BINARY_PRESENT_VALUE,
    RELAY_STATE,
];
