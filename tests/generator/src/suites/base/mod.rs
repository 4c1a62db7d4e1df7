//! Document 01.

mod bodies;
mod edges;
mod movements;
mod scenes;
mod sentences;
mod warnings;

use plain::frame::*;
use plain::settings::*;

use crate::list::Generator;
use crate::suite::{Shares, Suite, Tables};

pub static SUITE: Suite = Suite {
    name: "base",
    subject: "document 01",
    share: 38,
    at_rest: &[
        (200, Generator::plan_warning),
        (135, Generator::plan_movement),
        (105, Generator::plan_command_at_rest),
        (75, Generator::plan_slot_at_rest),
        (3, Generator::plan_calm_and_great_jump),
        (200, Generator::plan_sentence),
        (80, Generator::plan_anything_at_rest),
    ],
    in_movement: IN_MOVEMENT,
    in_warning: IN_WARNING,
    tables: Tables {
        great_lists: 40,
        ..TABLES
    },
    events: events::base::expected,
    edges: events::edges::of_base,
};

pub const IN_MOVEMENT: Shares = &[(1, Generator::plan_in_movement)];
pub const IN_WARNING: Shares = &[(1, Generator::plan_in_warning)];

/// A later suite names what is other than here.
pub const TABLES: Tables = Tables {
    kinds: &KINDS,
    unknown_kinds: &UNKNOWN_KINDS,
    unknown_properties: &UNKNOWN_PROPERTIES,
    more_properties: &[],
    more_writes: None,
    looks: &LOOKS,
    tagged: 0,
    spoilt_reads: 0,
    great_lists: 0,
    great_budget: 350_000_000,
    headings: None,
    length: None,
};

pub const KINDS: [(u8, usize); 16] = [
    (CLOCK, 7),
    (WRITE_PRESENT_VALUE, 18),
    (EMPTY_A_SLOT, 14),
    (WRITE_PROPERTY, 18),
    (READ_PROPERTY, 14),
    (STOP, 17),
    (FADE_TO, 21),
    (FADE_TO_OVER, 25),
    (RAMP_TO, 21),
    (RAMP_TO_AT_RATE, 25),
    (STEP_UP, 17),
    (STEP_DOWN, 17),
    (STEP_UP_BY, 21),
    (STEP_DOWN_BY, 21),
    (GOTO, 21),
    (RELINQUISH, 17),
];

const UNKNOWN_KINDS: [u8; 9] = [0x00, 0x06, 0x07, 0x0F, 0x1C, 0x20, 0x80, 0x91, 0xFF];
const UNKNOWN_PROPERTIES: [u8; 7] = [0x00, 0x15, 0x16, 0x1C, 0x20, 0x31, 0xFF];

/// Progress_Value twice as often.
const LOOKS: [u8; 6] = [
    PRESENT_VALUE,
    PROGRESS_VALUE,
    PROGRESS_VALUE,
    IN_PROCESS,
    ELAPSED_ACTIVE_TIME,
    FIRST_SLOT + 5,
];
