//! Kinds 02 and 03.

use plain::frame::{byte_field, value_field, EMPTY_A_SLOT, WRITE_PRESENT_VALUE};
use plain::real;

use super::Event;
use crate::seen::Act;
use crate::tally::Tally;
use crate::words::{Rank, Situation};

pub fn act(act: &Act, events: &mut Tally<Event>) {
    if !act.is_done() {
        return;
    }
    let priority = byte_field(act.bytes);
    let (situation, rank) = (Situation::of(act.arrived), Rank::of(act.arrived, priority));
    match act.kind() {
        WRITE_PRESENT_VALUE => events.count(Event::SlotWritten {
            lit: real::level(value_field(act.bytes)) > Some(0),
            situation,
            rank,
        }),
        EMPTY_A_SLOT => {
            let was_live = act.arrived.slot(priority).is_some();
            events.count(Event::SlotEmptied {
                was_live,
                situation,
                rank,
            });
            if let Some(warning) = &act.arrived.warning {
                events.count(Event::SlotEmptiedInWarning {
                    own_slot: warning.slot == priority,
                    was_live,
                });
            }
        }
        _ => {}
    }
}
