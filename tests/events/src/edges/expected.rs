//! The edges that a thorough suite must try, of document 01 and of the changes
//! that bring fields.

use plain::Parameter;

use super::{
    tags, Edge, RealEdge, RealField, WholeField, EDGES_OF_MARKS, EDGE_TIMES, FOUR_HOUR_EDGES,
    WIDE_PRIORITIES,
};
use crate::{four_hours, set};

const REAL_EDGES: [RealEdge; 20] = [
    RealEdge::Zero,
    RealEdge::MinusZero,
    RealEdge::Subnormal,
    RealEdge::JustBelowEighth,
    RealEdge::Eighth,
    RealEdge::JustAboveEighth,
    RealEdge::JustBelowOne,
    RealEdge::One,
    RealEdge::JustAboveOne,
    RealEdge::JustBelowHalfUnit,
    RealEdge::HalfUnit,
    RealEdge::JustAboveHalfUnit,
    RealEdge::JustBelowHundred,
    RealEdge::Hundred,
    RealEdge::JustAboveHundred,
    RealEdge::Infinity,
    RealEdge::MinusInfinity,
    RealEdge::NotANumber,
    RealEdge::NegativeSubnormal,
    RealEdge::Negative,
];

fn of_reals(fields: &[RealField]) -> Vec<Edge> {
    let of_field = |field: &RealField| {
        let field = *field;
        REAL_EDGES.map(|edge| Edge::Real { field, edge })
    };
    fields.iter().flat_map(of_field).collect()
}

fn of_whole_numbers(fields: &[WholeField], values: &[u32]) -> Vec<Edge> {
    let of_field = |field: &WholeField| {
        let field = *field;
        let edges = values.iter().copied();
        edges.map(move |value| Edge::Whole { field, value })
    };
    fields.iter().flat_map(of_field).collect()
}

/// Document 01.
pub fn of_base() -> Vec<Edge> {
    let mut edges = of_reals(&[
        RealField::WrittenLevel,
        RealField::CommandLevel,
        RealField::CommandRate,
        RealField::CommandStep,
        RealField::RelinquishDefault,
        RealField::RampRate,
        RealField::StepIncrement,
        RealField::Minimum,
        RealField::Maximum,
    ]);
    let fields = [
        WholeField::Duration,
        WholeField::CommandFadeTime,
        WholeField::FadeTime,
        WholeField::BlinkEnable,
        WholeField::BlinkTime,
        WholeField::BlinkWarnDelay,
        WholeField::ElapsedActiveTime,
    ];
    edges.extend(of_whole_numbers(&fields, &EDGE_TIMES));
    for priority in (0..=17).chain([255]) {
        edges.push(Edge::WritePriority(priority));
        edges.push(Edge::EmptyPriority(priority));
    }
    for priority in (0..=16).chain(WIDE_PRIORITIES) {
        edges.push(Edge::CommandPriority(priority));
    }
    edges
}

/// §1.
pub fn of_tags() -> Vec<Edge> {
    let mut edges = of_reals(&[
        RealField::TaggedLevel,
        RealField::TaggedRate,
        RealField::TaggedStep,
    ]);
    let fields = [WholeField::TaggedDuration, WholeField::TaggedFadeTime];
    edges.extend(of_whole_numbers(&fields, &EDGE_TIMES));
    edges.extend(tags::expected().into_iter().map(Edge::Tagged));
    edges
}

/// §3.
pub fn of_relays() -> Vec<Edge> {
    let mut edges = of_reals(&[RealField::BinaryActiveValue, RealField::BinaryInactiveValue]);
    edges.extend(of_whole_numbers(&[WholeField::Polarity], &EDGE_TIMES));
    edges
}

/// The first number that 32 bits do not hold.
const PAST_32_BITS: u64 = 1 << 32;

/// The numbers of a set at the ends of their range, beside them and far out; the
/// last one would be good if all but 32 bits of it were lost.
pub fn of_parameter(parameter: Parameter) -> Vec<u64> {
    let least = u64::from(*parameter.range().start());
    let mut edges = match parameter {
        Parameter::Stations => vec![0, 1, 2, 31, 32, 33],
        Parameter::Outputs => vec![0, 1, 63, 64, 65],
        Parameter::Fade | Parameter::Duration => {
            let past = parameter.range().end() + 1;
            let edges = [&[0, 99][..], &set::edges_of(parameter), &[past]].concat();
            edges.into_iter().map(u64::from).collect()
        }
    };
    edges.extend([PAST_32_BITS - 1, PAST_32_BITS + least]);
    edges
}

/// §6.
pub fn of_sets() -> Vec<Edge> {
    let of_one = |parameter| {
        let edges = of_parameter(parameter).into_iter();
        edges.map(move |value| Edge::Parameter { parameter, value })
    };
    Parameter::ALL.into_iter().flat_map(of_one).collect()
}

/// §7: fade times and what keeps its day, and the two longest numbers of a set.
pub fn of_four_hours() -> Vec<Edge> {
    let fields = [&four_hours::FADE_TIMES[..], &four_hours::OTHERS].concat();
    let mut edges = of_whole_numbers(&fields, &FOUR_HOUR_EDGES);
    for parameter in [Parameter::Fade, Parameter::Duration] {
        let values = FOUR_HOUR_EDGES.map(u64::from);
        edges.extend(values.map(|value| Edge::Parameter { parameter, value }));
    }
    edges
}

/// §8: the word of the start.
pub fn of_tenants() -> Vec<Edge> {
    EDGES_OF_MARKS.map(Edge::Tenants).to_vec()
}
