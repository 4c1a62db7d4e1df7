//! §1: lighting commands in BACnet's own tagging.

mod bodies;
pub(crate) mod draft;

pub(crate) use bodies::in_other_form;

use plain::frame::*;

use super::base;
use crate::list::Generator;
use crate::suite::{Suite, Tables};

pub static SUITE: Suite = Suite {
    name: "§1",
    subject: "commands in tags",
    share: 15,
    at_rest: &[
        (400, Generator::plan_tags),
        (180, Generator::plan_warning),
        (100, Generator::plan_movement),
        (180, Generator::plan_command_at_rest),
        (60, Generator::plan_slot_at_rest),
        (40, Generator::plan_sentence),
        (40, Generator::plan_anything_at_rest),
    ],
    in_movement: &[
        (92, Generator::plan_in_movement),
        (8, Generator::plan_refused_tags),
    ],
    in_warning: &[
        (88, Generator::plan_in_warning),
        (12, Generator::plan_refused_tags),
    ],
    tables: Tables {
        kinds: &KINDS,
        tagged: 70,
        ..base::TABLES
    },
    events: events::tags::expected,
    edges: events::edges::of_tags,
};

/// Those of document 01, and 1B.
pub const KINDS: [(u8, usize); 17] = {
    let mut kinds = [(TAGGED_COMMAND, 31); 17];
    let mut index = 0;
    while index < base::KINDS.len() {
        kinds[index] = base::KINDS[index];
        index += 1;
    }
    kinds
};
