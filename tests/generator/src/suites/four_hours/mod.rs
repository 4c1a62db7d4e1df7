//! §7: four hours is the longest anyone fades.

mod headings;
mod scenes;

pub use events::edges::FOUR_HOUR_EDGES;

use super::{base, relay, tags};
use crate::list::Generator;
use crate::suite::{Suite, Tables};

pub static SUITE: Suite = Suite {
    name: "§7",
    subject: "four hours at most",
    share: 6,
    at_rest: &[
        (850, Generator::plan_four_hours),
        (50, Generator::plan_movement),
        (50, Generator::plan_command_at_rest),
        (50, Generator::plan_anything_at_rest),
    ],
    in_movement: base::IN_MOVEMENT,
    in_warning: base::IN_WARNING,
    tables: Tables {
        kinds: &tags::KINDS,
        more_properties: &relay::PROPERTIES,
        more_writes: Some(Generator::some_relay_write),
        tagged: 45,
        great_lists: headings::GREAT_LISTS,
        // Two fades of four hours.
        great_budget: 35_000_000,
        headings: Some(headings::heading),
        // Many sets in few frames.
        length: Some((40, 200)),
        ..base::TABLES
    },
    events: events::four_hours::expected,
    edges: events::edges::of_four_hours,
};
