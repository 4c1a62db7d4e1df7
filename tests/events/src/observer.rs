//! Sees a list frame by frame and counts what it meets. It decides nothing: the
//! plain panel does not know of it.

use plain::frame;
use plain::{Answer, Output, Panel, Parameter};

use crate::base::Event;
use crate::edges::{self, Edge};
use crate::passing::Passed;
use crate::seen::{Act, Seen};
use crate::tally::Tally;
use crate::{base, four_hours, jump, light, relay, set, tags, tenants, tie};

/// What the observer remembers of an output beside its record.
#[derive(Clone, Copy, Default)]
pub struct Memory {
    pub base: base::Memory,
    pub tie: tie::Memory,
    pub set: set::Memory,
    pub four_hours: four_hours::Memory,
}

pub struct Observer {
    /// The panel before the frame to come.
    outputs: Vec<Output>,
    time: u64,
    arrivals: usize,
    clocks: usize,
    memory: Vec<Memory>,
    events: Tally<Event>,
    edges: Tally<Edge>,
}

impl Observer {
    /// Of a list that is to begin.
    pub fn new() -> Observer {
        Observer {
            outputs: Vec::new(),
            time: 0,
            arrivals: 0,
            clocks: 0,
            memory: Vec::new(),
            events: Tally::new(),
            edges: Tally::new(),
        }
    }

    pub fn events(&self) -> &Tally<Event> {
        &self.events
    }

    pub fn edges(&self) -> &Tally<Edge> {
        &self.edges
    }

    /// The list that has ended has this heading, and its panel was started or not.
    pub fn saw_start(
        &mut self,
        words: &[(Parameter, u64)],
        tenants: tenants::Written,
        started: &Result<Panel, Answer>,
    ) {
        set::start(words, started, &mut self.events);
        four_hours::start(words, started, &mut self.events);
        tenants::start(words, tenants, started, &mut self.events);
        edges::of_heading(words, tenants, &mut self.edges);
    }

    /// The panel has just answered this string of bytes.
    pub fn saw(&mut self, bytes: &[u8], answer: Answer, after: &Panel) {
        // There at the first frame of the list; none is added later.
        let outputs = after.outputs().len();
        let fresh = || Output::fresh(after.parameters());
        self.outputs.resize_with(outputs, fresh);
        self.memory.resize_with(outputs, Memory::default);
        let seen = Seen {
            bytes,
            answer,
            before: &self.outputs,
            time: self.time,
            arrivals: &after.first_arrivals()[..self.arrivals],
            clocks: &after.accepted_clocks()[..self.clocks],
            after,
        };
        let events = &mut self.events;
        let (arrives, steps) = (seen.is_first_arrival(), seen.is_accepted_clock());
        base::list(&seen, events);
        tags::list(&seen, events);
        relay::list(&seen, events);
        set::list(&seen, events);
        four_hours::list(&seen, events);
        tenants::list(&seen, events);
        if arrives || steps {
            jump::frame(&seen, events);
            let acted_on = arrives.then(|| usize::from(frame::output(bytes)));
            for (index, before) in self.outputs.iter().enumerate() {
                let memory = &mut self.memory[index];
                let passed = Passed::of(before, seen.jump());
                base::passed(&passed, memory.base, events);
                light::passed(&passed, events);
                relay::passed(&passed, events);
                set::passed(&passed, after.parameters(), events);
                jump::passed(&passed, after.time(), events);
                if acted_on != Some(index) {
                    continue;
                }
                let act = Act {
                    bytes,
                    answer,
                    arrived: &passed.arrived,
                    after: &after.outputs()[index],
                    parameters: after.parameters(),
                };
                base::act(&act, &passed, &mut memory.base, events);
                tags::act(&act, events);
                light::act(&act, events);
                relay::act(&act, events);
                tie::act(&act, &mut memory.tie, events);
                set::act(&act, &passed, &mut memory.set, events);
                four_hours::act(&act, &passed, &mut memory.four_hours, events);
                tenants::act(&act, events);
                edges::of_frame(bytes, &mut self.edges);
            }
        }
        self.outputs.copy_from_slice(after.outputs());
        self.time = after.time();
        self.arrivals = after.first_arrivals().len();
        self.clocks = after.accepted_clocks().len();
    }
}

impl Default for Observer {
    fn default() -> Observer {
        Observer::new()
    }
}
