//! Every event that a thorough suite of tenants must reach (§8).

use super::*;
use crate::base::Event;
use crate::words::{Answered, BOTH, COMMANDS};

pub fn expected() -> Vec<Event> {
    let mut events = headings();
    marks(&mut events);
    events.push(TenantEvent::LateForHidden);
    for tenant in BOTH {
        properties(&mut events, tenant);
        levels(&mut events, tenant);
        slots(&mut events, tenant);
        copies(&mut events, tenant);
        let refusals = [
            answer::WRONG_LENGTH,
            answer::STATION_OR_NUMBER,
            answer::OUTPUT_NOT_IN_TABLE,
            answer::LAST_NUMBER_OTHER_BYTES,
            answer::NUMBER_BELOW_LAST,
            answer::TIME_BEFORE_PANEL_TIME,
        ];
        events.extend(refusals.map(|refusal| TenantEvent::TurnedDown { tenant, refusal }));
        let others = [
            WRITE_PRESENT_VALUE,
            EMPTY_A_SLOT,
            WRITE_PROPERTY,
            TAGGED_COMMAND,
        ];
        let kinds = others.into_iter().chain(COMMANDS);
        events.extend(kinds.map(|kind| {
            let kind = kind.into();
            TenantEvent::Acted { kind, tenant }
        }));
    }
    events.into_iter().map(Event::Tenant).collect()
}

fn headings() -> Vec<TenantEvent> {
    let mut events = vec![TenantEvent::LeftOut, TenantEvent::LeadingZero];
    for before in 0..=3 {
        events.extend((0..=3 - before).map(|after| TenantEvent::Word { before, after }));
    }
    events.extend((1..=8).map(|digits| TenantEvent::Digits { digits }));
    events.extend([Letters::Upper, Letters::Lower, Letters::Both].map(TenantEvent::Cased));
    events.extend(Parameter::ALL.map(TenantEvent::NotStarted));
    events
}

fn marks(events: &mut Vec<TenantEvent>) {
    for stations in STATIONS {
        for marked in Marked::ALL {
            if marked.word(stations).is_some() {
                events.extend(BOTH.map(|last| TenantEvent::Told {
                    stations,
                    marked,
                    last,
                }));
            }
        }
        if stations < 32 {
            events.push(TenantEvent::BeyondReads { stations });
        }
    }
}

/// Those of document 01 and of §3; 1C to 1F, which later changes bring, apart.
fn known() -> impl Iterator<Item = u8> {
    (RELINQUISH_DEFAULT..=LAST_DURATION)
        .chain(BINARY_ACTIVE_VALUE..=RELAY_STATE)
        .chain(FIRST_SLOT..=LAST_SLOT)
}

fn properties(events: &mut Vec<TenantEvent>, tenant: bool) {
    let read = |property: u8, answered| TenantEvent::Read {
        property: property.into(),
        tenant,
        answered,
    };
    for property in known() {
        if !(tenant && is_hidden(property)) {
            events.push(read(property, Answered::Value));
        }
        let may_be_absent = matches!(property, LAST_LEVEL..=LAST_DURATION | FIRST_SLOT..=LAST_SLOT);
        if may_be_absent {
            events.push(read(property, Answered::Absent));
        }
        events.push(TenantEvent::InTurn {
            property: property.into(),
            tenant_first: tenant,
        });
    }
    for property in [0x00, 0x15, 0x16, 0x20, 0x31, 0xFF] {
        events.push(read(property, Answered::Refused(answer::PROPERTY)));
    }
    let slots = LAST_HIDDEN_SLOT + 1..=LAST_SLOT;
    for property in OTHER_LEVELS.into_iter().chain(REALS).chain(slots) {
        let property = property.into();
        events.push(TenantEvent::Exact { property, tenant });
    }
    events.push(TenantEvent::Burning { tenant });
}

fn levels(events: &mut Vec<TenantEvent>, tenant: bool) {
    events.extend(LEVELS.map(|level| TenantEvent::Level { level, tenant }));
    for beside in [Beside::UnitBelow, Beside::Whole, Beside::UnitAbove] {
        for property in [PRESENT_VALUE, PROGRESS_VALUE] {
            let property = property.into();
            events.push(TenantEvent::Shown {
                property,
                tenant,
                beside,
            });
        }
        events.extend(BOTH.map(|upward| TenantEvent::Moving {
            upward,
            tenant,
            beside,
        }));
    }
}

fn slots(events: &mut Vec<TenantEvent>, tenant: bool) {
    for slot in 1..=16 {
        events.push(TenantEvent::Winner { slot, tenant });
        events.extend(BOTH.map(|live| TenantEvent::Slot { slot, live, tenant }));
    }
}

/// A slot that is hidden stays so whatever becomes of it.
fn copies(events: &mut Vec<TenantEvent>, tenant: bool) {
    for of_hidden_slot in BOTH {
        for changed in BOTH {
            if !(tenant && of_hidden_slot && changed) {
                events.push(TenantEvent::Copy {
                    tenant,
                    of_hidden_slot,
                    changed,
                });
            }
        }
    }
}
