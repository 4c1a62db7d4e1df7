//! Tenant stations and service stations (§8): the word of the start, and reads.

mod event;
mod expected;

pub use event::*;
pub use expected::expected;

use plain::frame::*;
use plain::real::ONE_PERCENT;
use plain::settings::*;
use plain::{answer, Answer, Output, Panel, Parameter, Parameters};

use crate::base::Event;
use crate::seen::{Act, Seen};
use crate::set::out_of_range;
use crate::tally::Tally;
use crate::words::goes_up;

/// How many of the words stand before `tenants`, and its digits.
pub type Written<'a> = Option<(usize, &'a str)>;

/// Numbers of stations at which the bits of the word are looked at.
pub const STATIONS: [u32; 8] = [3, 8, 17, 32, 1, 31, 2, 16];

/// Levels that a tenant may be told wrongly.
pub const LEVELS: [u32; 8] = [
    0,
    1,
    ONE_PERCENT - 1,
    ONE_PERCENT,
    ONE_PERCENT + 1,
    99 * ONE_PERCENT,
    100 * ONE_PERCENT - 1,
    100 * ONE_PERCENT,
];

/// Levels that are read out in units: all of them but Present_Value and
/// Progress_Value.
pub const OTHER_LEVELS: [u8; 5] = [
    RELINQUISH_DEFAULT,
    MINIMUM,
    MAXIMUM,
    BINARY_ACTIVE_VALUE,
    BINARY_INACTIVE_VALUE,
];

/// REALs that are kept bit for bit.
const REALS: [u8; 5] = [RAMP_RATE, STEP_INCREMENT, LAST_LEVEL, LAST_RATE, LAST_STEP];

pub fn is_hidden(property: u8) -> bool {
    (FIRST_SLOT..=LAST_HIDDEN_SLOT).contains(&property)
}

impl Marked {
    pub const ALL: [Marked; 6] = [
        Marked::None,
        Marked::All,
        Marked::First,
        Marked::Last,
        Marked::Beyond,
        Marked::Top,
    ];

    /// Nothing where no such bit is left.
    pub fn word(self, stations: u32) -> Option<u32> {
        match self {
            Marked::None => Some(0),
            Marked::All => Some(u32::MAX),
            Marked::First => Some(1),
            Marked::Last => Some(1 << (stations - 1)),
            Marked::Beyond => (stations < 32).then(|| 1 << stations),
            Marked::Top => (stations < 32).then_some(1 << 31),
        }
    }

    fn all_of(parameters: &Parameters) -> impl Iterator<Item = Marked> + '_ {
        let is_so = |marked: &Marked| marked.word(parameters.stations) == Some(parameters.tenants);
        Marked::ALL.into_iter().filter(is_so)
    }
}

/// A list began so.
pub fn start(
    words: &[(Parameter, u64)],
    written: Written,
    started: &Result<Panel, Answer>,
    events: &mut Tally<Event>,
) {
    let mut note = |event| events.count(Event::Tenant(event));
    let Some((place, digits)) = written else {
        return note(TenantEvent::LeftOut);
    };
    if started.is_err() {
        if let [parameter] = out_of_range(words)[..] {
            note(TenantEvent::NotStarted(parameter));
        }
        return;
    }
    note(TenantEvent::Word {
        before: place - 1,
        after: words.len() - place,
    });
    note(TenantEvent::Digits {
        digits: digits.len(),
    });
    let has = |sort: fn(&u8) -> bool| digits.bytes().any(|digit| sort(&digit));
    match (has(u8::is_ascii_uppercase), has(u8::is_ascii_lowercase)) {
        (true, true) => note(TenantEvent::Cased(Letters::Both)),
        (true, false) => note(TenantEvent::Cased(Letters::Upper)),
        (false, true) => note(TenantEvent::Cased(Letters::Lower)),
        (false, false) => {}
    }
    if digits.len() > 1 && digits.starts_with('0') {
        note(TenantEvent::LeadingZero);
    }
}

/// Reads that are copies, or are turned down; two reads in turn.
pub fn list(seen: &Seen, events: &mut Tally<Event>) {
    let mut note = |event| events.count(Event::Tenant(event));
    if seen.bytes.first() != Some(&READ_PROPERTY) || seen.bytes.len() < 2 {
        return;
    }
    let parameters = seen.after.parameters();
    let station = station(seen.bytes);
    if u32::from(station) >= parameters.stations {
        let is_next = u32::from(station) == parameters.stations && station < 32;
        if is_next && seen.bytes.len() == 14 && parameters.is_tenant(station) {
            let stations = parameters.stations;
            note(TenantEvent::BeyondReads { stations });
        }
        return;
    }
    let tenant = parameters.is_tenant(station);
    if seen.is_first_arrival() {
        if let Some(event) = in_turn(seen, tenant) {
            note(event);
        }
        return;
    }
    let latest = seen.latest_of_station();
    if latest.is_some_and(|latest| latest.bytes == seen.bytes) {
        let property = byte_field(seen.bytes);
        let now = &seen.after.outputs()[usize::from(output(seen.bytes))];
        note(TenantEvent::Copy {
            tenant,
            of_hidden_slot: is_hidden(property),
            changed: now.read_property_by(tenant, property) != seen.answer,
        });
    } else if let Answer::Refused(refusal) = seen.answer {
        note(TenantEvent::TurnedDown { tenant, refusal });
        if refusal == answer::TIME_BEFORE_PANEL_TIME && is_late_for_hidden(seen) {
            note(TenantEvent::LateForHidden);
        }
    }
}

fn is_late_for_hidden(seen: &Seen) -> bool {
    let Some((latest, earlier)) = seen.arrivals.split_last() else {
        return false;
    };
    let is_hidden = latest.bytes[0] == READ_PROPERTY
        && seen.after.parameters().is_tenant(latest.station)
        && is_hidden(byte_field(&latest.bytes));
    let others = earlier.iter().map(|arrival| arrival.time);
    let before = others.chain(seen.clocks.iter().copied()).max();
    is_hidden && before.unwrap_or(0) <= time(seen.bytes)
}

fn in_turn(seen: &Seen, tenant: bool) -> Option<TenantEvent> {
    let before = seen.arrivals.last()?;
    let same = |of: fn(&[u8]) -> u64| of(&before.bytes) == of(seen.bytes);
    let is_pair = before.bytes[0] == READ_PROPERTY
        && same(time)
        && same(|bytes| output(bytes).into())
        && same(|bytes| byte_field(bytes).into());
    let other = seen.after.parameters().is_tenant(before.station);
    (is_pair && other != tenant).then(|| TenantEvent::InTurn {
        property: byte_field(seen.bytes).into(),
        tenant_first: other,
    })
}

pub fn act(act: &Act, events: &mut Tally<Event>) {
    let mut note = |event| events.count(Event::Tenant(event));
    let tenant = act.parameters.is_tenant(station(act.bytes));
    if act.kind() != READ_PROPERTY {
        if act.is_done() {
            let kind = act.kind().into();
            note(TenantEvent::Acted { kind, tenant });
        }
        return;
    }
    let property = byte_field(act.bytes);
    note(TenantEvent::Read {
        property: property.into(),
        tenant,
        answered: act.answer.into(),
    });
    told(act, property, &mut note);
    let arrived = act.arrived;
    match property {
        PRESENT_VALUE | PROGRESS_VALUE => levels(arrived, property, tenant, &mut note),
        FIRST_SLOT..=LAST_SLOT => {
            let slot = property - FIRST_SLOT + 1;
            let live = arrived.slot(slot).is_some();
            note(TenantEvent::Slot { slot, live, tenant });
        }
        ELAPSED_ACTIVE_TIME if act.answer != Answer::Value(0) => {
            note(TenantEvent::Burning { tenant });
        }
        _ => {}
    }
    let is_exact = OTHER_LEVELS.contains(&property) || REALS.contains(&property);
    if is_exact || (LAST_HIDDEN_SLOT + 1..=LAST_SLOT).contains(&property) {
        if let Answer::Value(bits) = act.answer {
            if f32::from_bits(bits).fract() != 0.0 {
                let property = property.into();
                note(TenantEvent::Exact { property, tenant });
            }
        }
    }
}

/// The two marks would be answered otherwise.
fn told(act: &Act, property: u8, note: &mut impl FnMut(TenantEvent)) {
    let by = |tenant| act.arrived.read_property_by(tenant, property);
    if by(true) == by(false) {
        return;
    }
    let (parameters, station) = (act.parameters, u32::from(station(act.bytes)));
    let stations = parameters.stations;
    for marked in Marked::all_of(parameters) {
        for (last, end) in [(false, 0), (true, stations - 1)] {
            if station == end {
                note(TenantEvent::Told {
                    stations,
                    marked,
                    last,
                });
            }
        }
    }
}

fn beside(level: u32) -> Option<Beside> {
    match level % ONE_PERCENT {
        0 => Some(Beside::Whole),
        1 => Some(Beside::UnitAbove),
        above if above == ONE_PERCENT - 1 => Some(Beside::UnitBelow),
        _ => None,
    }
}

fn levels(arrived: &Output, property: u8, tenant: bool, note: &mut impl FnMut(TenantEvent)) {
    let level = match property {
        PRESENT_VALUE => arrived.present_value(),
        _ => arrived.progress_value(),
    };
    let winner = arrived.winner().filter(|_| property == PRESENT_VALUE);
    if let Some(slot) = winner.filter(|_| level % ONE_PERCENT != 0) {
        note(TenantEvent::Winner { slot, tenant });
    }
    if property == PROGRESS_VALUE && LEVELS.contains(&level) {
        note(TenantEvent::Level { level, tenant });
    }
    let Some(beside) = beside(level) else {
        return;
    };
    match &arrived.movement {
        None => note(TenantEvent::Shown {
            property: property.into(),
            tenant,
            beside,
        }),
        Some(movement) if property == PROGRESS_VALUE => note(TenantEvent::Moving {
            upward: goes_up(movement),
            tenant,
            beside,
        }),
        Some(_) => {}
    }
}
