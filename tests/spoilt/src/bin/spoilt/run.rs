//! The spoilt panels over the suites that are to tell them apart.

use std::thread;

use generator::{pair, suites, Suite, Which};
use spoilt::table::ALL;

use crate::arguments::Arguments;
use crate::trial::{Difference, Expected};

/// The lists of one suite, or of all.
#[derive(Clone, Copy, Default)]
pub struct Counts {
    pub lists: u64,
    pub frames: u64,
    pub frames_with_copies: u64,
}

pub struct Results {
    /// Where each panel was first told apart; 0 is the one with nothing spoilt.
    pub told: Vec<Option<Difference>>,
    /// Suite by suite, in the order of `suites::ALL`.
    pub counts: Vec<Counts>,
}

/// A suite runs the panels that name it, and those that no list should show.
pub fn is_its_own(suite: &Suite, number: usize) -> bool {
    number == 0 || {
        let spoilt = &ALL[number - 1];
        spoilt.unseen.is_some() || spoilt.suite == suite.name
    }
}

/// Suites side by side, each with the panels that it is to run.
pub fn run(arguments: &Arguments, runs: impl Fn(&Suite, usize) -> bool + Sync) -> Results {
    let by_suite: Vec<Results> = thread::scope(|scope| {
        let running: Vec<_> = suites::ALL
            .into_iter()
            .map(|suite| {
                let runs = &runs;
                scope.spawn(move || run_suite(arguments, suite, |number| runs(suite, number)))
            })
            .collect();
        let ended = running.into_iter().map(|suite| suite.join());
        ended
            .map(|results| results.expect("the suite's lists are made"))
            .collect()
    });
    let mut all = Results::none();
    for results in by_suite {
        all.counts.extend(results.counts);
        for (first, told) in all.told.iter_mut().zip(results.told) {
            *first = first.take().or(told);
        }
    }
    all
}

/// Where the panels that their own suite does not tell would be told apart.
pub fn elsewhere(arguments: &Arguments, results: &Results) -> Vec<Option<Difference>> {
    let left_out = |number: usize| {
        number > 0 && results.told[number].is_none() && ALL[number - 1].unseen.is_none()
    };
    if !(0..results.told.len()).any(left_out) {
        return (0..results.told.len()).map(|_| None).collect();
    }
    run(arguments, |_, number| left_out(number)).told
}

impl Results {
    fn none() -> Results {
        Results {
            told: (0..=ALL.len()).map(|_| None).collect(),
            counts: Vec::new(),
        }
    }

    pub fn sum(&self) -> Counts {
        let mut sum = Counts::default();
        for counts in &self.counts {
            sum.lists += counts.lists;
            sum.frames += counts.frames;
            sum.frames_with_copies += counts.frames_with_copies;
        }
        sum
    }
}

fn run_suite(
    arguments: &Arguments,
    suite: &'static Suite,
    runs: impl Fn(usize) -> bool,
) -> Results {
    let mut results = Results::none();
    let mut counts = Counts::default();
    // As `compare` takes them, so that these are the lists of the gate.
    while counts.frames * 100 < arguments.frames * suite.share {
        let which = Which {
            suite,
            run: arguments.seed,
            number: counts.lists,
        };
        let pair = pair(which, None);
        let lists = Expected::of_pair(which, &pair);
        for (number, told) in results.told.iter_mut().enumerate() {
            if told.is_none() && runs(number) {
                *told = lists.iter().find_map(|list| list.first_difference(number));
            }
        }
        counts.lists += 1;
        counts.frames += pair.list.frames.len() as u64;
        counts.frames_with_copies += pair.with_copies.frames.len() as u64;
    }
    results.counts.push(counts);
    results
}
