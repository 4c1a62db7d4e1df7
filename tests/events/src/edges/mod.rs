//! Which edges of which fields the first arrivals of a list have tried.

mod expected;
mod tags;

pub use expected::{of_base, of_four_hours, of_parameter, of_relays, of_sets, of_tags, of_tenants};
pub use tags::{TagEdge, EDGES_OF_OCTETS};

use plain::frame::*;
use plain::last_command::LastCommand;
use plain::settings::*;
use plain::Parameter;

use crate::tally::Tally;
use crate::tenants::Written;

#[derive(Clone, Copy, Debug, PartialEq, Eq, PartialOrd, Ord)]
pub enum RealField {
    WrittenLevel,
    CommandLevel,
    CommandRate,
    CommandStep,
    TaggedLevel,
    TaggedRate,
    TaggedStep,
    RelinquishDefault,
    RampRate,
    StepIncrement,
    Minimum,
    Maximum,
    BinaryActiveValue,
    BinaryInactiveValue,
}

#[derive(Clone, Copy, Debug, PartialEq, Eq, PartialOrd, Ord)]
pub enum RealEdge {
    Zero,
    MinusZero,
    Subnormal,
    JustBelowEighth,
    Eighth,
    JustAboveEighth,
    JustBelowOne,
    One,
    JustAboveOne,
    JustBelowHalfUnit,
    HalfUnit,
    JustAboveHalfUnit,
    JustBelowHundred,
    Hundred,
    JustAboveHundred,
    Infinity,
    MinusInfinity,
    NotANumber,
    NegativeSubnormal,
    Negative,
}

#[derive(Clone, Copy, Debug, PartialEq, Eq, PartialOrd, Ord)]
pub enum WholeField {
    Duration,
    CommandFadeTime,
    TaggedDuration,
    TaggedFadeTime,
    FadeTime,
    BlinkEnable,
    BlinkTime,
    BlinkWarnDelay,
    ElapsedActiveTime,
    Polarity,
}

#[derive(Clone, Copy, Debug, PartialEq, Eq, PartialOrd, Ord)]
pub enum Edge {
    Real {
        field: RealField,
        edge: RealEdge,
    },
    Whole {
        field: WholeField,
        value: u32,
    },
    WritePriority(u8),
    EmptyPriority(u8),
    CommandPriority(u32),
    Tagged(TagEdge),
    /// A number of the set that a panel is to be started with.
    Parameter {
        parameter: Parameter,
        value: u64,
    },
    /// The word that marks tenants.
    Tenants(u32),
}

/// Values of property 0A that only a look at all 32 bits tells apart.
pub const WIDE_PRIORITIES: [u32; 6] = [
    17,
    0x0000_0100,
    0x0000_0101,
    0x0001_0010,
    0x8000_0001,
    0xFFFF_FFFF,
];

/// Whole numbers at the edges of their ranges and of 32 bits.
pub const EDGE_TIMES: [u32; 13] = [
    0,
    1,
    2,
    99,
    100,
    101,
    86_399_999,
    86_400_000,
    86_400_001,
    0x7FFF_FFFF,
    0x8000_0000,
    0xFFFF_FFFE,
    0xFFFF_FFFF,
];

/// Where fade times end since §7, and where they ended before.
pub const FOUR_HOUR_EDGES: [u32; 6] = [
    FOUR_HOURS - 1,
    FOUR_HOURS,
    FOUR_HOURS + 1,
    LONGEST - 1,
    LONGEST,
    LONGEST + 1,
];

/// Marks at the ends of 16 and of 32 bits.
pub const EDGES_OF_MARKS: [u32; 12] = [
    0,
    1,
    2,
    0x0000_7FFF,
    0x0000_8000,
    0x0000_FFFF,
    0x0001_0000,
    0x7FFF_FFFF,
    0x8000_0000,
    0xFFFF_0000,
    0xFFFF_FFFE,
    0xFFFF_FFFF,
];

/// The edge that a REAL stands on, if any.
fn real_edge(bits: u32) -> Option<RealEdge> {
    let real = f32::from_bits(bits);
    let half_unit = |bits: u32| (f64::from(f32::from_bits(bits)) * 65_536.0).fract() == 0.5;
    Some(match bits {
        0x0000_0000 => RealEdge::Zero,
        0x8000_0000 => RealEdge::MinusZero,
        0x3DFF_FFFF => RealEdge::JustBelowEighth,
        0x3E00_0000 => RealEdge::Eighth,
        0x3E00_0001 => RealEdge::JustAboveEighth,
        0x3F7F_FFFF => RealEdge::JustBelowOne,
        0x3F80_0000 => RealEdge::One,
        0x3F80_0001 => RealEdge::JustAboveOne,
        0x42C7_FFFF => RealEdge::JustBelowHundred,
        0x42C8_0000 => RealEdge::Hundred,
        0x42C8_0001 => RealEdge::JustAboveHundred,
        0x7F80_0000 => RealEdge::Infinity,
        0xFF80_0000 => RealEdge::MinusInfinity,
        _ if real.is_nan() => RealEdge::NotANumber,
        _ if real.is_subnormal() && real > 0.0 => RealEdge::Subnormal,
        _ if real.is_subnormal() => RealEdge::NegativeSubnormal,
        _ if real < 0.0 => RealEdge::Negative,
        _ if real > 100.0 => return None,
        _ if half_unit(bits) => RealEdge::HalfUnit,
        _ if half_unit(bits + 1) => RealEdge::JustBelowHalfUnit,
        _ if half_unit(bits - 1) => RealEdge::JustAboveHalfUnit,
        _ => return None,
    })
}

/// Counts the edges in the numbers of a heading.
pub fn of_heading(words: &[(Parameter, u64)], tenants: Written, tally: &mut Tally<Edge>) {
    let marks = tenants.and_then(|(_, digits)| u32::from_str_radix(digits, 16).ok());
    if let Some(marks) = marks.filter(|marks| EDGES_OF_MARKS.contains(marks)) {
        tally.count(Edge::Tenants(marks));
    }
    for (parameter, value) in words.iter().copied() {
        let of_four_hours = FOUR_HOUR_EDGES.map(u64::from).contains(&value);
        if of_four_hours || of_parameter(parameter).contains(&value) {
            tally.count(Edge::Parameter { parameter, value });
        }
    }
}

/// Counts the edges in the fields of a first arrival.
pub fn of_frame(bytes: &[u8], tally: &mut Tally<Edge>) {
    let real = |tally: &mut Tally<Edge>, field, bits| {
        if let Some(edge) = real_edge(bits) {
            tally.count(Edge::Real { field, edge });
        }
    };
    let whole = |tally: &mut Tally<Edge>, field, value| {
        if EDGE_TIMES.contains(&value) || FOUR_HOUR_EDGES.contains(&value) {
            tally.count(Edge::Whole { field, value });
        }
    };
    let kind = bytes[0];
    match kind {
        WRITE_PRESENT_VALUE => {
            tally.count(Edge::WritePriority(byte_field(bytes)));
            real(tally, RealField::WrittenLevel, value_field(bytes));
        }
        EMPTY_A_SLOT => tally.count(Edge::EmptyPriority(byte_field(bytes))),
        WRITE_PROPERTY => {
            let value = value_field(bytes);
            match byte_field(bytes) {
                RELINQUISH_DEFAULT => real(tally, RealField::RelinquishDefault, value),
                FADE_TIME => whole(tally, WholeField::FadeTime, value),
                RAMP_RATE => real(tally, RealField::RampRate, value),
                STEP_INCREMENT => real(tally, RealField::StepIncrement, value),
                BLINK_ENABLE => whole(tally, WholeField::BlinkEnable, value),
                BLINK_TIME => whole(tally, WholeField::BlinkTime, value),
                BLINK_WARN_DELAY => whole(tally, WholeField::BlinkWarnDelay, value),
                MINIMUM => real(tally, RealField::Minimum, value),
                MAXIMUM => real(tally, RealField::Maximum, value),
                LIGHTING_COMMAND_PRIORITY if value <= 16 || WIDE_PRIORITIES.contains(&value) => {
                    tally.count(Edge::CommandPriority(value));
                }
                ELAPSED_ACTIVE_TIME => whole(tally, WholeField::ElapsedActiveTime, value),
                BINARY_ACTIVE_VALUE => real(tally, RealField::BinaryActiveValue, value),
                BINARY_INACTIVE_VALUE => real(tally, RealField::BinaryInactiveValue, value),
                POLARITY => whole(tally, WholeField::Polarity, value),
                _ => {}
            }
        }
        STOP..=TAGGED_COMMAND => {
            let tagged = kind == TAGGED_COMMAND;
            if tagged {
                let edges = tags::edges(tagged_body(bytes));
                edges
                    .into_iter()
                    .for_each(|edge| tally.count(Edge::Tagged(edge)));
            }
            let Some(command) = LastCommand::of_frame(bytes) else {
                return;
            };
            let by_form = |plain, in_tags| if tagged { in_tags } else { plain };
            let level = by_form(RealField::CommandLevel, RealField::TaggedLevel);
            let rate = by_form(RealField::CommandRate, RealField::TaggedRate);
            let step = by_form(RealField::CommandStep, RealField::TaggedStep);
            for (field, bits) in [
                (level, command.level),
                (rate, command.rate),
                (step, command.step),
            ] {
                if let Some(bits) = bits {
                    real(tally, field, bits);
                }
            }
            // Absent in the plain kind is FFFFFFFF, an edge too.
            let (fade_time, duration) = match tagged {
                true => (WholeField::TaggedFadeTime, WholeField::TaggedDuration),
                false => (WholeField::CommandFadeTime, WholeField::Duration),
            };
            let absent = (!tagged).then_some(ABSENT_DURATION);
            for (field, value) in [
                (fade_time, command.fade_time),
                (duration, command.duration.or(absent)),
            ] {
                if let Some(value) = value {
                    whole(tally, field, value);
                }
            }
        }
        _ => {}
    }
}
