//! Streams to time a panel with: each is a list of good frames of one sort.

use events::words::COMMANDS;
use plain::frame::*;
use plain::settings::*;

use crate::body::{clock, Body, Head};
use crate::heading::Heading;

const HOUR: u64 = 3_600_000;
const FIFTY_PERCENT: u32 = 0x4248_0000;
const ABSENT: u32 = 0xFFFF_FFFF;

#[derive(Clone, Debug)]
pub struct Stream {
    pub name: &'static str,
    pub outputs: usize,
    pub frames: Vec<Vec<u8>>,
}

impl Stream {
    pub fn heading(&self) -> Heading {
        Heading::of_document_01(self.outputs as u64)
    }
}

/// The numbers of outputs at which panels are timed.
pub const OUTPUTS: [usize; 3] = [1, 8, 64];

/// All streams for a number of outputs, of about `length` frames each.
pub fn streams(outputs: usize, length: usize) -> Vec<Stream> {
    vec![
        reads(outputs, length),
        writes(outputs, length),
        commands(outputs, length),
        copies(outputs, length),
        clocks_of_one_millisecond(outputs, length),
        clocks_with_commands("clocks of 1 hour", outputs, length, HOUR),
        // Six bytes of time hold 255 such jumps.
        clocks_with_commands("clocks of 2^40 ms", outputs, length.min(510), 1 << 40),
    ]
}

/// Gives good heads: outputs and stations in turn, numbers and time going up.
struct Writer {
    outputs: usize,
    time: u64,
    number: u32,
    frames: Vec<Vec<u8>>,
}

impl Writer {
    fn new(outputs: usize) -> Writer {
        Writer {
            outputs,
            time: 0,
            number: 0,
            frames: Vec::new(),
        }
    }

    fn count(&self) -> usize {
        self.frames.len()
    }

    fn send(&mut self, body: Body) {
        let index = self.number as usize;
        self.number += 1;
        self.frames.push(body.bytes(Head {
            station: (index % 8) as u8,
            number: self.number,
            time: self.time,
            output: (index % self.outputs) as u8,
        }));
    }

    fn send_clock(&mut self) {
        self.frames.push(clock(self.time));
    }

    /// A command in which every field is good.
    fn send_command(&mut self, kind: u8, fade_time: u32, duration: u32) {
        let level = if self.number.is_multiple_of(3) {
            0
        } else {
            FIFTY_PERCENT
        };
        let two_percent = 2.0_f32.to_bits();
        let fields = match kind {
            STOP | STEP_UP | STEP_DOWN | RELINQUISH => vec![duration],
            FADE_TO | RAMP_TO | GOTO => vec![level, duration],
            STEP_UP_BY | STEP_DOWN_BY => vec![two_percent, duration],
            RAMP_TO_AT_RATE => vec![level, two_percent, duration],
            _ => vec![level, fade_time, duration],
        };
        self.send(Body::Command { kind, fields });
    }

    /// Every output fades over four hours, with a duration of a day.
    fn set_all_in_motion(&mut self) {
        for _ in 0..self.outputs {
            self.send(Body::Command {
                kind: FADE_TO_OVER,
                fields: vec![FIFTY_PERCENT, FOUR_HOURS, LONGEST],
            });
        }
    }

    fn finish(self, name: &'static str) -> Stream {
        Stream {
            name,
            outputs: self.outputs,
            frames: self.frames,
        }
    }
}

/// Every readable property in turn, a millisecond after each other, while all
/// outputs move.
fn reads(outputs: usize, length: usize) -> Stream {
    let readable: Vec<u8> = (0x01..=0x14).chain(0x21..=0x30).collect();
    let mut writer = Writer::new(outputs);
    writer.set_all_in_motion();
    while writer.count() < length {
        writer.time += 1;
        let property = readable[writer.count() % readable.len()];
        writer.send(Body::Read { property });
    }
    writer.finish("reads")
}

/// Present_Value, slots and settings in turn, a millisecond after each other.
fn writes(outputs: usize, length: usize) -> Stream {
    let settings = [
        (FADE_TIME, 500),
        (RAMP_RATE, 3.0_f32.to_bits()),
        (STEP_INCREMENT, 4.0_f32.to_bits()),
        (BLINK_ENABLE, 1),
        (BLINK_TIME, 20),
        (BLINK_WARN_DELAY, 40),
        (MINIMUM, 2.0_f32.to_bits()),
        (MAXIMUM, 98.0_f32.to_bits()),
    ];
    let mut writer = Writer::new(outputs);
    while writer.count() < length {
        writer.time += 1;
        let index = writer.count();
        // Not in step with the turn of the outputs.
        let choice = index / outputs + index;
        let priority = 7 + (choice % 10) as u8;
        let body = match choice % 5 {
            0 | 1 => Body::Write {
                priority,
                bits: FIFTY_PERCENT,
            },
            2 => Body::Write { priority, bits: 0 },
            3 => Body::Empty { priority },
            _ => {
                let (property, value) = settings[choice / 5 % settings.len()];
                Body::WriteProperty { property, value }
            }
        };
        writer.send(body);
    }
    writer.finish("writes")
}

/// All commands in turn, a millisecond after each other.
fn commands(outputs: usize, length: usize) -> Stream {
    let mut writer = Writer::new(outputs);
    while writer.count() < length {
        writer.time += 1;
        let index = writer.count();
        let kind = COMMANDS[(index / outputs + index) % COMMANDS.len()];
        let duration = if index.is_multiple_of(4) {
            1_000
        } else {
            ABSENT
        };
        writer.send_command(kind, 2_000, duration);
    }
    writer.finish("commands")
}

/// A write by each station, then seven copies of each, again and again.
fn copies(outputs: usize, length: usize) -> Stream {
    let mut writer = Writer::new(outputs);
    while writer.count() < length {
        writer.time += 1;
        let first = writer.count();
        for priority in 1..=5 {
            writer.send(Body::Write {
                priority,
                bits: FIFTY_PERCENT,
            });
        }
        let originals = writer.frames[first..].to_vec();
        for _ in 0..7 {
            writer.frames.extend(originals.iter().cloned());
        }
    }
    writer.finish("copies")
}

/// Clocks alone, while all outputs move and have a duration running.
fn clocks_of_one_millisecond(outputs: usize, length: usize) -> Stream {
    let mut writer = Writer::new(outputs);
    writer.set_all_in_motion();
    while writer.count() < length {
        writer.time += 1;
        writer.send_clock();
    }
    writer.finish("clocks of 1 ms")
}

/// A command that starts a movement and a duration, then a clock far ahead.
fn clocks_with_commands(name: &'static str, outputs: usize, length: usize, jump: u64) -> Stream {
    let mut writer = Writer::new(outputs);
    while writer.count() + 1 < length {
        writer.send_command(FADE_TO_OVER, 60_000, 3 * 60_000);
        writer.time += jump;
        writer.send_clock();
    }
    writer.finish(name)
}
