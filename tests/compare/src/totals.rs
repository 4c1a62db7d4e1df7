//! What was compared and reached, suite by suite.

use std::collections::BTreeSet;
use std::fmt::Debug;

use events::{Edge, Event, Observer, Tally};
use generator::{List, Suite};

pub struct Totals {
    suite: &'static Suite,
    pub lists: u64,
    pub frames: u64,
    frames_with_copies: u64,
    outputs: u64,
    /// Numbers of outputs that lists had.
    sizes: BTreeSet<usize>,
    events: Tally<Event>,
    edges: Tally<Edge>,
}

impl Totals {
    pub fn of(suite: &'static Suite) -> Totals {
        Totals {
            suite,
            lists: 0,
            frames: 0,
            frames_with_copies: 0,
            outputs: 0,
            sizes: BTreeSet::new(),
            events: Tally::new(),
            edges: Tally::new(),
        }
    }

    /// Adds a list that showed no difference, without and with copies.
    pub fn add(&mut self, list: &List, frames_with_copies: usize, observer: &Observer) {
        self.lists += 1;
        self.frames += list.frames.len() as u64;
        self.frames_with_copies += frames_with_copies as u64;
        if let Ok(panel) = &list.panel {
            let outputs = panel.outputs().len();
            self.outputs += 2 * outputs as u64;
            self.sizes.insert(outputs);
        }
        self.events.add(observer.events());
        self.edges.add(observer.edges());
    }

    fn missing_events(&self) -> Vec<Event> {
        missing(&self.events, (self.suite.events)())
    }

    fn missing_edges(&self) -> Vec<Edge> {
        missing(&self.edges, (self.suite.edges)())
    }

    /// All that is expected of the suite. Every suite has tables of all sizes;
    /// that document 01's has had each of them is enough.
    pub fn everything_reached(&self) -> bool {
        let sizes = self.suite.name != "base" || self.sizes.len() == 64;
        self.missing_events().is_empty() && self.missing_edges().is_empty() && sizes
    }

    fn print(&self, counts: bool) {
        println!(
            "suite {}, {}: {} lists and as many with copies, {} and {} frames",
            self.suite.name, self.suite.subject, self.lists, self.frames, self.frames_with_copies
        );
        if counts {
            print_counts(&self.events);
            print_counts(&self.edges);
        }
        print_missing(
            "events",
            &self.missing_events(),
            (self.suite.events)().len(),
        );
        print_missing("edges", &self.missing_edges(), (self.suite.edges)().len());
        println!("    numbers of outputs: {} of 64", self.sizes.len());
    }
}

pub fn print(all: &[Totals], counts: bool) {
    for totals in all {
        totals.print(counts);
    }
    let sum = |of: fn(&Totals) -> u64| all.iter().map(of).sum::<u64>();
    let frames = sum(|totals| totals.frames);
    let frames_with_copies = sum(|totals| totals.frames_with_copies);
    println!(
        "lists: {} and as many with copies",
        sum(|totals| totals.lists)
    );
    println!("frames: {frames}");
    println!("frames in the lists with copies: {frames_with_copies}");
    println!("answers compared: {}", frames + frames_with_copies);
    println!("outputs compared: {}", sum(|totals| totals.outputs));
    println!("no difference");
}

fn missing<Kind: Ord + Copy>(tally: &Tally<Kind>, expected: Vec<Kind>) -> Vec<Kind> {
    expected
        .into_iter()
        .filter(|kind| tally.of(*kind) == 0)
        .collect()
}

fn print_counts<Kind: Ord + Copy + Debug>(tally: &Tally<Kind>) {
    for (kind, count) in tally.iter() {
        println!("{count:>10}  {kind:?}");
    }
}

fn print_missing<Kind: Debug>(name: &str, missing: &[Kind], all: usize) {
    println!(
        "    expected {name} reached: {} of {all}",
        all - missing.len()
    );
    for kind in missing {
        println!("        NOT REACHED  {kind:?}");
    }
}
