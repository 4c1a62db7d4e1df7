//! The list: first arrivals, copies, clocks and refusals 2 to 8.

use crate::answer::{self, Answer};
use crate::frame;
use crate::output::Output;
use crate::parameters::Parameters;

/// A frame that was a first arrival, with the answer it got.
#[derive(Clone, Debug)]
pub struct FirstArrival {
    pub station: u8,
    pub number: u32,
    pub time: u64,
    pub bytes: Vec<u8>,
    pub answer: Answer,
}

/// "It has outputs and a time, no stations." What it knows of stations it
/// looks up in the list so far, frame by frame.
#[derive(Clone, Debug)]
pub struct Panel {
    parameters: Parameters,
    outputs: Vec<Output>,
    time: u64,
    first_arrivals: Vec<FirstArrival>,
    accepted_clocks: Vec<u64>,
}

impl Panel {
    /// "Starts at time 0 with as many fresh outputs as the table": as the set
    /// has (§6), or the start is refused 17.
    pub fn start(parameters: Parameters) -> Result<Panel, Answer> {
        if parameters.out_of_range().is_some() {
            return Err(Answer::Refused(answer::PARAMETER));
        }
        Ok(Panel {
            parameters,
            outputs: vec![Output::fresh(&parameters); parameters.outputs as usize],
            time: 0,
            first_arrivals: Vec::new(),
            accepted_clocks: Vec::new(),
        })
    }

    pub fn parameters(&self) -> &Parameters {
        &self.parameters
    }

    pub fn outputs(&self) -> &[Output] {
        &self.outputs
    }

    pub fn time(&self) -> u64 {
        self.time
    }

    pub fn first_arrivals(&self) -> &[FirstArrival] {
        &self.first_arrivals
    }

    pub fn accepted_clocks(&self) -> &[u64] {
        &self.accepted_clocks
    }

    /// "The latest of earlier first arrivals and accepted clocks"; 0 with none.
    fn latest_time(&self) -> u64 {
        let arrivals = self.first_arrivals.iter().map(|arrival| arrival.time);
        let clocks = self.accepted_clocks.iter().copied();
        arrivals.chain(clocks).max().unwrap_or(0)
    }

    pub fn latest_of_station(&self, station: u8) -> Option<&FirstArrival> {
        self.first_arrivals
            .iter()
            .rev()
            .find(|arrival| arrival.station == station)
    }

    /// Takes the next string of bytes of the list. "Checked in this order."
    pub fn frame(&mut self, bytes: &[u8]) -> Answer {
        let Some(length) = bytes.first().and_then(|kind| frame::length_of_kind(*kind)) else {
            return Answer::Refused(answer::NO_BYTE_OR_UNKNOWN_KIND);
        };
        if bytes.len() != length {
            return Answer::Refused(answer::WRONG_LENGTH);
        }
        match bytes[0] {
            frame::CLOCK => self.clock(frame::clock_time(bytes)),
            _ => self.frame_of_station(bytes),
        }
    }

    /// "Clocks, accepted by that same time rule, only step it."
    fn clock(&mut self, time: u64) -> Answer {
        if time < self.latest_time() {
            return Answer::Refused(answer::TIME_BEFORE_PANEL_TIME);
        }
        self.step_to(time);
        self.accepted_clocks.push(time);
        Answer::Done
    }

    fn frame_of_station(&mut self, bytes: &[u8]) -> Answer {
        let station = frame::station(bytes);
        let number = frame::number(bytes);
        let time = frame::time(bytes);
        let output = usize::from(frame::output(bytes));
        if u32::from(station) >= self.parameters.stations || number == 0 {
            return Answer::Refused(answer::STATION_OR_NUMBER);
        }
        if output >= self.outputs.len() {
            return Answer::Refused(answer::OUTPUT_NOT_IN_TABLE);
        }
        if let Some(latest) = self.latest_of_station(station) {
            // "A copy of its station's latest first arrival gets that one's
            // answer."
            if latest.bytes == bytes {
                return latest.answer;
            }
            if latest.number == number {
                return Answer::Refused(answer::LAST_NUMBER_OTHER_BYTES);
            }
        }
        // "Its number is above all earlier first arrivals' of its station."
        let above_all_earlier = self
            .first_arrivals
            .iter()
            .filter(|arrival| arrival.station == station)
            .all(|arrival| number > arrival.number);
        if !above_all_earlier {
            return Answer::Refused(answer::NUMBER_BELOW_LAST);
        }
        // "Its time not before the latest of earlier first arrivals and
        // accepted clocks."
        if time < self.latest_time() {
            return Answer::Refused(answer::TIME_BEFORE_PANEL_TIME);
        }
        self.step_to(time);
        // §8: "The plain panel takes the mark with each first arrival."
        let tenant = self.parameters.is_tenant(station);
        let answer = self.outputs[output].act(&self.parameters, tenant, bytes);
        self.first_arrivals.push(FirstArrival {
            station,
            number,
            time,
            bytes: bytes.to_vec(),
            answer,
        });
        answer
    }

    fn step_to(&mut self, time: u64) {
        for output in &mut self.outputs {
            output.pass(time - self.time);
        }
        self.time = time;
    }
}

impl Output {
    /// A first arrival "does what its kind calls for, or refuses 9 to 13", and
    /// 14, 15 (§1) or 16 (§3).
    fn act(&mut self, parameters: &Parameters, tenant: bool, bytes: &[u8]) -> Answer {
        let (byte, value) = (frame::byte_field(bytes), frame::value_field);
        let answer = match bytes[0] {
            frame::WRITE_PRESENT_VALUE => self.write_present_value(byte, value(bytes)),
            frame::EMPTY_A_SLOT => self.empty_a_slot(byte),
            frame::WRITE_PROPERTY => self.write_property(parameters, byte, value(bytes)),
            frame::READ_PROPERTY => self.read_property_by(tenant, byte),
            frame::TAGGED_COMMAND => self.tagged_command(parameters, bytes),
            _ => self.command(parameters, bytes),
        };
        // §3: "It is judged after each frame's act."
        self.judge_relay();
        answer
    }
}
