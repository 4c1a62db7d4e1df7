//! §8: tenant stations and service stations.

mod headings;
mod scenes;

use super::{base, relay, tags};
use crate::list::Generator;
use crate::suite::{Suite, Tables};

pub static SUITE: Suite = Suite {
    name: "§8",
    subject: "tenants and service stations",
    share: 10,
    at_rest: &[
        (780, Generator::plan_for_tenants),
        (120, Generator::plan_warning),
        (50, Generator::plan_movement),
        (50, Generator::plan_anything_at_rest),
    ],
    in_movement: &[
        (40, Generator::plan_in_movement),
        (60, Generator::plan_look_by_both),
    ],
    in_warning: &[
        (40, Generator::plan_in_warning),
        (60, Generator::plan_look_by_both),
    ],
    tables: Tables {
        kinds: &tags::KINDS,
        more_properties: &relay::PROPERTIES,
        more_writes: Some(Generator::some_relay_write),
        looks: &relay::LOOKS,
        tagged: 20,
        spoilt_reads: 60,
        headings: Some(headings::heading),
        // Many words in few frames.
        length: Some((40, 160)),
        ..base::TABLES
    },
    events: events::tenants::expected,
    edges: events::edges::of_tenants,
};
