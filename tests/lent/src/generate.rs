//! Tables from a seed: records in any state, most of them kept to the rules or
//! one field away from them, the old panel's set or another one, and a few
//! frames and starts.

use generator::suites::four_hours::FOUR_HOUR_EDGES;
use generator::suites::set::edges_of;
use generator::Random;
use plain::frame::{length_of_kind, CLOCK, READ_PROPERTY};
use plain::settings::{FOUR_HOURS, LONGEST};
use plain::tag_writer::fewest_octets;
use plain::tags::FADE_TIME;
use plain::{Parameter, Parameters};

use crate::record::{Activity, Record, Station, LONGEST_FRAME, NUMBERS};
use crate::states::{states, NOW};
use crate::text::{call, clock, Head, Text};

/// Every kind, the clock's first.
const KINDS: [u8; 17] = [
    0x01, 0x02, 0x03, 0x04, 0x05, 0x10, 0x11, 0x12, 0x13, 0x14, 0x15, 0x16, 0x17, 0x18, 0x19, 0x1A,
    0x1B,
];

const LEVELS: [u32; 12] = [
    0,
    1,
    65_535,
    65_536,
    65_537,
    45 * 65_536,
    47 * 65_536,
    50 * 65_536,
    50 * 65_536 + 1,
    6_553_599,
    6_553_600,
    6_553_601,
];
const SHORT_TIMES: [u32; 7] = [0, 1, 99, 100, 101, 700, 5_000];
const REALS: [u32; 16] = [
    0x0000_0000,
    0x8000_0000,
    0x0000_0001,
    0x3DFF_FFFF,
    0x3E00_0000,
    0x3F00_0000,
    0x3F7F_FFFF,
    0x3F80_0000,
    0x3F80_0040,
    0x3F80_00C0,
    0x4120_0000,
    0x4248_0000,
    0x42C8_0000,
    0x42C8_0001,
    0x7FC0_0000,
    0xBF80_0000,
];

/// Short ones, those about four hours and a day, and the greatest number.
fn times() -> Vec<u32> {
    [&SHORT_TIMES[..], &FOUR_HOUR_EDGES, &[u32::MAX]].concat()
}

/// A set, now and then with a number out of range.
fn set(random: &mut Random, outputs: usize) -> Parameters {
    let stations = random.pick(&[1, 2, 3, 7, 8, 9, 30, 31, 32]);
    let mut set = Parameters {
        stations,
        outputs: outputs as u32,
        fade: random.pick(&edges_of(Parameter::Fade)),
        duration: random.pick(&edges_of(Parameter::Duration)),
        tenants: marks(random, stations),
    };
    if random.one_in(8) {
        let (parameter, number) = random.pick(&[
            (Parameter::Stations, 0),
            (Parameter::Stations, 33),
            (Parameter::Outputs, 0),
            (Parameter::Outputs, 65),
            (Parameter::Fade, 99),
            (Parameter::Fade, FOUR_HOURS + 1),
            (Parameter::Fade, LONGEST),
            (Parameter::Duration, 99),
            (Parameter::Duration, LONGEST + 1),
            (Parameter::Duration, u32::MAX),
        ]);
        set.set(parameter, number);
    }
    set
}

/// Often the bits of some stations, and at times those of none, of all, of the
/// last one or of the one after it.
fn marks(random: &mut Random, stations: u32) -> u32 {
    let last = 1 << (stations - 1);
    let any = random.bits() as u32;
    random.pick(&[
        0,
        1,
        last,
        last.rotate_left(1),
        1 << 31,
        u32::MAX,
        any,
        any,
        any,
    ])
}

/// One more or one fewer, now and then.
fn about(random: &mut Random, number: u32) -> usize {
    match random.below(40) {
        0 => number.saturating_sub(1) as usize,
        1 => number as usize + 1,
        _ => number as usize,
    }
}

/// The rows of one table with its frames.
pub fn table(random: &mut Random) -> String {
    let mut text = Text(String::new());
    let outputs = match random.below(40) {
        0 => 0,
        1 => 64,
        2 => 65,
        _ => random.between(1, 3) as usize,
    };
    let of_old_panel = random.chance(50);
    let kept = match of_old_panel {
        true => Parameters::of_old_panel(outputs as u32),
        false => set(random, outputs),
    };
    let stations = about(random, kept.stations).min(33);
    let outputs = match of_old_panel {
        true => outputs,
        false => about(random, kept.outputs).min(65),
    };
    let time = match random.below(30) {
        0 => 0,
        1 => (1 << 48) - 1,
        2 => 1 << 48,
        _ => NOW,
    };
    text.table(outputs, stations, time);
    if !of_old_panel {
        text.keep(&kept);
        // As a start with that set leaves them.
        let mut fresh = Record::fresh();
        fresh.fade = kept.fresh_fade_time();
        for place in (0..outputs).filter(|_| fresh != Record::fresh()) {
            text.output(place, &fresh);
        }
    }
    let mut pending = false;
    for place in 0..outputs.min(3) {
        let place = if place == 2 { outputs - 1 } else { place };
        let mut row = record(random, &kept).row(place);
        if random.one_in(4) {
            change_one(random, &mut row, time);
        }
        let record = Record::of_row(&row);
        pending |= record.activity != Activity::Still || record.timer.is_some();
        text.output(place, &record);
    }
    for place in 0..stations {
        if random.one_in(6) {
            text.station(place, &station(random));
        }
    }
    let mut now = time;
    let mut kept = kept;
    for _ in 0..random.between(1, 5) {
        if random.one_in(12) {
            let mut other = set(random, outputs);
            if random.chance(70) {
                other.stations = stations as u32;
            }
            text.start(&other);
            let fits = (other.outputs, other.stations) == (outputs as u32, stations as u32);
            if fits && other.out_of_range().is_none() {
                (now, kept, pending) = (0, other, false);
            }
        }
        let later = match random.below(10) {
            0..=3 => random.below(3),
            4 | 5 => random.pick(&[299, 300, 301, 500, 599, 600, 601, 900]),
            6 | 7 => random.below(2_000),
            8 => random.below(20_000),
            _ if pending => 0,
            _ => random.below(1 << 40),
        };
        let moment = (now + later).min((1 << 48) - 1);
        text.frame(&frame(random, moment, outputs, &kept));
        now = now.max(moment);
        if random.one_in(2) {
            text.left();
        }
    }
    text.left();
    text.0
}

/// A state of the list, with some of its fields changed so that it keeps the
/// rules, or mostly so.
fn record(random: &mut Random, kept: &Parameters) -> Record {
    let states = states();
    let (_, mut record) = states[random.below(states.len() as u64) as usize];
    if random.one_in(3) {
        record.enable = random.chance(70);
        record.blink = random.pick(&[0, 1, 300, LONGEST]);
        record.delay = random.pick(&[0, 1, 600, LONGEST]);
    }
    if random.one_in(3) {
        record.slot = random.pick(&[0, 4, 6, 7, 8, 14, 15]);
    }
    if random.one_in(3) {
        record.fade = random.pick(&[100, 101, 1_000, FOUR_HOURS, kept.fade]);
        record.ramp = random.pick(&REALS[4..13]);
        record.step = random.pick(&REALS[4..13]);
    }
    if random.one_in(4) {
        record.store(
            random.pick(&[8, 14, 15]),
            random.pick(&[0, 65_536, 6_553_600]),
        );
    }
    if random.one_in(5) {
        record.timer = Some((
            random.pick(&[0, 2, 7, 8, 14, 15]),
            NOW + random.pick(&[1, 2, 300, 301, 600, 900, 5_000]),
        ));
    }
    if random.one_in(6) {
        record.reverse = !record.reverse;
    }
    record.burning = random.pick(&[0, 999, 1_000, 9_999, 10_000]);
    // At the longest that the set allows, and one more.
    if record.fade > kept.fade {
        record.fade = kept.fade.saturating_add(random.one_in(10).into());
    }
    if let Activity::Moving { length, over, .. } = &mut record.activity {
        let most = kept.fade.max(800_000);
        if random.one_in(6) || *length > most {
            *length = most.saturating_add(random.one_in(4).into());
            *over = NOW + u64::from(*length).min(random.pick(&[1, 600, 5_000]));
        }
    }
    record
}

/// One number of the row: one more, one less, or another one that matters.
fn change_one(random: &mut Random, row: &mut [u64; NUMBERS], time: u64) {
    let place = random.between(1, 48) as usize;
    row[place] = match random.below(6) {
        0 => row[place].saturating_add(1),
        1 => row[place].saturating_sub(1),
        2 => random.pick(&LEVELS).into(),
        3 => random.pick(&[0, 1, 2, 4, 5, 6, 7, 15, 16, 17, 32, 255, 256]),
        4 => random.pick(&[
            time.saturating_sub(1),
            time,
            time.saturating_add(1),
            time / 2,
        ]),
        _ => random.pick(&REALS).into(),
    };
}

fn station(random: &mut Random) -> Station {
    let mut frame = [0; LONGEST_FRAME];
    for byte in &mut frame {
        *byte = random.below(256) as u8;
    }
    frame[0] = if random.chance(90) {
        random.pick(&KINDS[1..])
    } else {
        random.pick(&[0x00, 0x01, 0x06, 0x0F, 0x1C, 0xFF])
    };
    Station {
        answer: match random.below(4) {
            0 => plain::Answer::Done,
            1 => plain::Answer::Value(random.bits() as u32),
            2 => plain::Answer::Absent,
            _ => plain::Answer::Refused(random.below(256) as u8),
        },
        number: random.pick(&[0, 1, 2, 3, u32::MAX]),
        frame,
    }
}

fn frame(random: &mut Random, time: u64, outputs: usize, kept: &Parameters) -> Vec<u8> {
    // One frame in four is a read.
    let kind = match random.one_in(5) {
        true => READ_PROPERTY,
        false => random.pick(&KINDS),
    };
    if kind == CLOCK {
        return clock(time);
    }
    let head = Head {
        station: match random.below(17) {
            0 => kept.stations.min(255) as u8,
            _ => random.below(kept.stations.clamp(1, 32).into()) as u8,
        },
        number: random.pick(&[0, 1, 2, 2, 3, 3, 4, 4, 5, 5, 6, 7, 8, 9, u32::MAX]),
        time,
        output: match random.below(12) {
            0 => outputs as u8,
            1 => outputs.saturating_sub(1) as u8,
            _ => random.below(outputs.clamp(1, 3) as u64) as u8,
        },
    };
    let mut adds = Vec::new();
    match kind {
        0x02 => {
            adds.push(priority(random));
            adds.extend(random.pick(&REALS).to_be_bytes());
        }
        0x03 => adds.push(priority(random)),
        0x04 => {
            adds.push(random.between(0, 0x1C) as u8);
            let value = match random.below(4) {
                0 => random.pick(&REALS),
                1 => random.pick(&times()),
                2 => time_about(random, kept),
                _ => random.below(18) as u32,
            };
            adds.extend(value.to_be_bytes());
        }
        0x05 => {
            let any = random.between(0, 0x31) as u8;
            let hidden = random.between(0x21, 0x26) as u8;
            adds.push(random.pick(&[any, any, 0x0C, 0x0D, hidden]));
        }
        0x1B => adds.extend(tagged(random, kept)),
        _ => {
            // Each field has four bytes; the last one is the duration.
            let fields = (length_of_kind(kind).unwrap_or(13) - 13) / 4;
            for field in 1..=fields {
                let value = if field == fields || (kind == 0x12 && field == 2) {
                    let about = time_about(random, kept);
                    random.pick(&[
                        0,
                        100,
                        300,
                        5_000,
                        99,
                        FOUR_HOURS + 1,
                        LONGEST,
                        u32::MAX,
                        u32::MAX,
                        about,
                        about,
                    ])
                } else {
                    random.pick(&REALS)
                };
                adds.extend(value.to_be_bytes());
            }
        }
    }
    let mut bytes = call(kind, head, &adds);
    if random.one_in(60) {
        bytes.pop();
    }
    bytes
}

/// A longest fade or duration, or one more.
fn time_about(random: &mut Random, kept: &Parameters) -> u32 {
    let longest = random.pick(&[kept.fade, kept.duration]);
    longest.saturating_add(random.below(2) as u32)
}

fn priority(random: &mut Random) -> u8 {
    random.pick(&[1, 3, 5, 7, 8, 8, 8, 9, 15, 16, 16, 16, 6, 0, 17])
}

/// GOTO, STOP, RELINQUISH or FADE_TO_OVER in tags, now and then with a byte
/// changed.
fn tagged(random: &mut Random, kept: &Parameters) -> [u8; 18] {
    let mut tags = match random.below(4) {
        0 => vec![0x09, 9, 0x1C, 0x42, 0x48, 0, 0],
        1 => vec![0x09, 0, 0x5A, 0x01, 0x2C],
        2 => vec![0x09, 10],
        _ => vec![0x09, 2, 0x1C, 0x42, 0x48, 0, 0],
    };
    if tags[1] == 2 {
        let octets = fewest_octets(time_about(random, kept));
        tags.push(FADE_TIME * 16 + 8 + octets.len() as u8);
        tags.extend(octets);
    }
    let mut body = [0; 18];
    body[0] = tags.len() as u8;
    body[1..=tags.len()].copy_from_slice(&tags);
    if random.one_in(5) {
        body[random.below(18) as usize] = random.below(256) as u8;
    }
    body
}
