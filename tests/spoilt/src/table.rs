//! The spoilt panels, in the order of their numbers, which begin with 1.

pub struct Spoilt {
    /// What the edit is about.
    pub subject: &'static str,
    pub wrong: &'static str,
    /// The sentence of the paper that it breaks.
    pub paper: &'static str,
    /// Why no list can show it.
    pub unseen: Option<&'static str>,
    /// The suite of lists that tells it apart; empty if none can.
    pub suite: &'static str,
}

include!(concat!(env!("OUT_DIR"), "/table.rs"));
