//! A suite of lists: document 01's, or that of one change of document 02.
//!
//! List number i of a suite comes from the run's seed, the suite's name and i
//! alone, and all numbers that a suite draws from are its own. So a new suite
//! shifts no list of the others: these stay byte for byte, unless the panel
//! that they are aimed by moves otherwise.

use events::{Edge, Event};

use crate::heading::Heading;
use crate::list::Generator;
use crate::random::Random;

/// Puts one or more frames for an output into the plan.
pub type Scene = fn(&mut Generator, u8);

/// Scenes with their shares of the sum.
pub type Shares = &'static [(u64, Scene)];

/// Chooses the heading of a list by its number in the suite.
pub type Headings = fn(&mut Random, u64) -> Heading;

/// Chooses a property to write, and a value for it.
pub type PropertyWrite = fn(&mut Generator, u8) -> (u8, u32);

pub struct Suite {
    /// As pages and the command line name it: `base`, or the § of document 02.
    pub name: &'static str,
    /// What it is about.
    pub subject: &'static str,
    /// Its frames in a hundred of those that a run asks for. The suites of
    /// document 01 and §1 to §5 have a hundred together; a later one comes on top.
    pub share: u64,
    /// What is planned for an output that rests, moves or warns.
    pub at_rest: Shares,
    pub in_movement: Shares,
    pub in_warning: Shares,
    pub tables: Tables,
    /// What its lists must reach.
    pub events: fn() -> Vec<Event>,
    pub edges: fn() -> Vec<Edge>,
}

/// The numbers that a suite draws from.
pub struct Tables {
    /// The kinds that it knows, with their bytes.
    pub kinds: &'static [(u8, usize)],
    /// Kinds beside known ones, and the ends. See `hostile` for those that
    /// document 02 makes known later.
    pub unknown_kinds: &'static [u8],
    /// Properties beside known ones, and the ends.
    pub unknown_properties: &'static [u8],
    /// Properties that document 01 does not have, to be read.
    pub more_properties: &'static [u8],
    /// A write of one of these.
    pub more_writes: Option<PropertyWrite>,
    /// Properties that change by themselves.
    pub looks: &'static [u8],
    /// How many of a hundred commands come in tags (§1).
    pub tagged: u64,
    /// How many of a hundred frames that are then spoilt are reads, mostly of
    /// slots 1 to 6 (§8), beside those that any body may be.
    pub spoilt_reads: u64,
    /// One list in so many may live whole days, or hours; none if 0.
    pub great_lists: u64,
    /// Milliseconds that the outputs of such a list may live one by one.
    pub great_budget: u64,
    /// Of a suite that starts panels with sets of its own (§6).
    pub headings: Option<Headings>,
    /// The least and the most frames of a list, if lists of this suite are
    /// shorter than others.
    pub length: Option<(u64, u64)>,
}

impl Tables {
    pub fn length_of_kind(&self, kind: u8) -> Option<usize> {
        let known = self.kinds.iter().find(|(known, _)| *known == kind);
        known.map(|(_, length)| *length)
    }
}

impl Suite {
    /// The seed of one of its lists.
    pub fn seed(&self, run: u64, list: u64) -> u64 {
        let mut seed = Random::from_seed(run).bits();
        for byte in self.name.bytes() {
            seed = Random::from_seed(seed ^ u64::from(byte)).bits();
        }
        Random::from_seed(seed ^ list).bits()
    }
}
