//! Making a list, with the plain panel beside it to aim by.

use std::collections::VecDeque;

use plain::{Answer, Panel};

use crate::body::{clock, Body, Head};
use crate::heading::Heading;
use crate::random::Random;
use crate::suite::Suite;
use crate::timing::When;

/// A list with what the plain panel answered and what it is left with.
pub struct List {
    pub heading: Heading,
    pub frames: Vec<Vec<u8>>,
    /// None if the panel was not started.
    pub answers: Vec<Answer>,
    /// The panel at the end, or what its start was answered (§6).
    pub panel: Result<Panel, Answer>,
}

/// A frame to come; head and time are made when its turn is there.
#[derive(Clone, Debug)]
pub struct Planned {
    /// The one that the time is aimed at, of a clock too.
    pub output: u8,
    /// Nothing for a clock, or, with a station, for its latest frame once more.
    pub body: Option<Body>,
    pub when: When,
    /// The station that it comes from; any if it has none.
    pub station: Option<u8>,
}

pub struct Generator {
    pub(crate) suite: &'static Suite,
    pub(crate) random: Random,
    pub(crate) panel: Panel,
    pub(crate) frames: Vec<Vec<u8>>,
    answers: Vec<Answer>,
    /// Milliseconds that outputs may still have to live one by one.
    pub(crate) budget: u64,
    /// Outputs that most frames go to, so that something builds up there.
    favourites: Vec<u8>,
    pub(crate) plan: VecDeque<Planned>,
}

/// Most lists are quick to live; some may live whole days, or hours.
const USUAL_BUDGET: u64 = 2_000_000;

/// Looks on while a list is made: at each frame, with its answer and the panel
/// after it.
pub type Onlooker<'a> = &'a mut dyn FnMut(&[u8], Answer, &Panel);

/// Which list.
#[derive(Clone, Copy)]
pub struct Which {
    pub suite: &'static Suite,
    /// The run's seed.
    pub run: u64,
    /// Its number in the suite, from 0.
    pub number: u64,
}

impl Which {
    pub fn seed(&self) -> u64 {
        self.suite.seed(self.run, self.number)
    }

    /// Whether it may live so long: one in the middle of so many lists.
    pub fn is_great(&self) -> bool {
        let great_lists = self.suite.tables.great_lists;
        great_lists > 0 && self.number % great_lists == great_lists / 2
    }
}

/// Makes that list, with `length` frames.
pub fn generate(which: Which, length: usize, onlooker: Onlooker) -> List {
    let mut random = Random::from_seed(which.seed());
    let heading = match which.suite.tables.headings {
        Some(headings) => headings(&mut random, which.number),
        None => Heading::of_document_01(outputs(which, &mut random)),
    };
    let panel = match Panel::start(heading.parameters()) {
        Ok(panel) => panel,
        Err(answer) => return List::not_started(heading, answer),
    };
    let mut generator = Generator::new(which, random, panel);
    while generator.frames.len() < length {
        let bytes = generator.next_frame();
        let answer = generator.panel.frame(&bytes);
        onlooker(&bytes, answer, &generator.panel);
        generator.answers.push(answer);
        generator.frames.push(bytes);
    }
    List {
        heading,
        frames: generator.frames,
        answers: generator.answers,
        panel: Ok(generator.panel),
    }
}

/// How many, in a list of document 01's numbers.
fn outputs(which: Which, random: &mut Random) -> u64 {
    match random.below(10) {
        _ if which.is_great() => random.between(1, 2),
        // Every number of outputs has its turn in 256 lists.
        _ if which.number.is_multiple_of(4) => which.number / 4 * 21 % 64 + 1,
        0..=3 => 1,
        4..=8 => random.between(2, 8),
        _ => 64,
    }
}

impl List {
    /// Two frames that nobody answers.
    fn not_started(heading: Heading, answer: Answer) -> List {
        List {
            heading,
            frames: vec![clock(1), Vec::new()],
            answers: Vec::new(),
            panel: Err(answer),
        }
    }
}

impl Generator {
    fn new(which: Which, mut random: Random, panel: Panel) -> Generator {
        let outputs = panel.outputs().len() as u64;
        let favourites = (0..random.between(1, 3))
            .map(|_| match random.one_in(4) {
                // The edge of the table.
                true => outputs - 1,
                false => random.below(outputs),
            } as u8)
            .collect();
        Generator {
            suite: which.suite,
            random,
            panel,
            frames: Vec::new(),
            answers: Vec::new(),
            budget: match which.is_great() {
                true => which.suite.tables.great_budget,
                false => USUAL_BUDGET,
            },
            favourites,
            plan: VecDeque::new(),
        }
    }

    fn next_frame(&mut self) -> Vec<u8> {
        match self.random.below(100) {
            0..=6 => self.copy_of_earlier(),
            7..=12 => self.hostile_frame(),
            13..=15 => {
                let output = self.some_output();
                clock(self.next_time(output, When::Whenever))
            }
            _ => {
                if self.plan.is_empty() {
                    let output = self.some_output();
                    self.plan_scene(output);
                }
                match self.plan.pop_front() {
                    Some(planned) => self.frame_of(&planned),
                    None => clock(self.panel.time()),
                }
            }
        }
    }

    pub(crate) fn some_output(&mut self) -> u8 {
        if self.random.chance(85) {
            let favourites = &self.favourites;
            self.random.pick(favourites)
        } else {
            self.random.below(self.panel.outputs().len() as u64) as u8
        }
    }

    pub(crate) fn frame_of(&mut self, planned: &Planned) -> Vec<u8> {
        // Now and then a script is drawn out in time.
        let when = match planned.when {
            When::Now if self.random.chance(6) => When::Whenever,
            when => when,
        };
        let time = self.next_time(planned.output, when);
        let Some(body) = &planned.body else {
            let latest = planned
                .station
                .and_then(|station| self.panel.latest_of_station(station));
            return latest.map_or(clock(time), |latest| latest.bytes.clone());
        };
        let (station, number) = match planned.station {
            Some(station) => (station, self.next_number(station)),
            None => self.station_and_number(),
        };
        let body = self.perhaps_tagged(body);
        body.bytes(Head {
            station,
            number,
            time,
            output: planned.output,
        })
    }

    /// Any station of the panel.
    pub(crate) fn some_station(&mut self) -> u8 {
        let stations = self.panel.parameters().stations;
        self.random.below(stations.into()) as u8
    }

    /// 0 if it has sent none.
    fn last_number(&self, station: u8) -> u32 {
        let latest = self.panel.latest_of_station(station);
        latest.map_or(0, |latest| latest.number)
    }

    /// 1 of a station that has no number left.
    fn next_number(&self, station: u8) -> u32 {
        self.last_number(station).checked_add(1).unwrap_or(1)
    }

    /// A station that still has a number to give, and such a number.
    fn station_and_number(&mut self) -> (u8, u32) {
        loop {
            let station = self.some_station();
            let last = self.last_number(station);
            let left = u32::MAX - last;
            if left == 0 {
                continue;
            }
            let further = match self.random.below(1_000) {
                0..=799 => 1,
                800..=989 => self.random.between(1, 10) as u32,
                990..=997 => self.random.between(1, 1 << 20) as u32,
                // Stations 0 to 5 never run out.
                _ if station > 5 => self
                    .random
                    .pick(&[left, left, left / 2, left - left.min(1)]),
                _ => 1 << 8,
            };
            return (station, last + further.clamp(1, left));
        }
    }
}
