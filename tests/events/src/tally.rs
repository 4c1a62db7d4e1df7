//! Counts by kind.

use std::collections::BTreeMap;

#[derive(Clone, Debug)]
pub struct Tally<Kind: Ord> {
    counts: BTreeMap<Kind, u64>,
}

impl<Kind: Ord + Copy> Tally<Kind> {
    pub fn new() -> Tally<Kind> {
        Tally {
            counts: BTreeMap::new(),
        }
    }

    pub fn count(&mut self, kind: Kind) {
        *self.counts.entry(kind).or_insert(0) += 1;
    }

    pub fn add(&mut self, other: &Tally<Kind>) {
        for (kind, count) in &other.counts {
            *self.counts.entry(*kind).or_insert(0) += count;
        }
    }

    pub fn of(&self, kind: Kind) -> u64 {
        self.counts.get(&kind).copied().unwrap_or(0)
    }

    pub fn iter(&self) -> impl Iterator<Item = (&Kind, &u64)> {
        self.counts.iter()
    }
}

impl<Kind: Ord + Copy> Default for Tally<Kind> {
    fn default() -> Tally<Kind> {
        Tally::new()
    }
}
