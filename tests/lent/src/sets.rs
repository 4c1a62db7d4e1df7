//! The rows of crates/lent_tables/stdin on sets (§6): kept numbers at the ends
//! of their ranges and beside them, exact counts, the rules and ranges that read
//! the kept set, and starts over lent tables.

use generator::suites::set::edges_of;
use plain::settings::{FOUR_HOURS, LONGEST};
use plain::tag_writer::fewest_octets;
use plain::{tags, Parameter, Parameters};

use crate::record::{Activity, Record, Station, LONGEST_FRAME};
use crate::states::{state, NOW};
use crate::text::{call, clock, Head, Text};

/// Two outputs and three stations. A fresh record keeps the rules there.
pub const SHOP: Parameters = Parameters {
    stations: 3,
    outputs: 2,
    fade: 5_000,
    duration: 6_000,
    tenants: 0,
};

/// What no panel can be started with, and what it can: one out on each side,
/// each end, and the greatest number; of a longest fade a day too, where its
/// range ended before §7, and of a longest duration four hours.
const NUMBERS: [(Parameter, &[u32]); 4] = [
    (Parameter::Stations, &[0, 1, 32, 33, u32::MAX]),
    (Parameter::Outputs, &[0, 1, 64, 65, u32::MAX]),
    (
        Parameter::Fade,
        &[
            99,
            100,
            FOUR_HOURS - 1,
            FOUR_HOURS,
            FOUR_HOURS + 1,
            LONGEST,
            u32::MAX,
        ],
    ),
    (
        Parameter::Duration,
        &[
            99,
            100,
            FOUR_HOURS,
            FOUR_HOURS + 1,
            LONGEST,
            LONGEST + 1,
            u32::MAX,
        ],
    ),
];

pub fn sets(text: &mut Text) {
    kept_numbers(text);
    counts(text);
    records(text);
    ranges(text);
    starts(text);
    refused_starts(text);
}

fn with(parameter: Parameter, number: u32) -> Parameters {
    let mut set = SHOP;
    set.set(parameter, number);
    set
}

pub fn words(set: &Parameters) -> String {
    let words =
        Parameter::ALL.map(|parameter| format!("{} {}", parameter.name(), set.of(parameter)));
    words.join(", ")
}

/// As many records as the set has, or as there are.
fn tables(text: &mut Text, set: &Parameters) {
    text.table(
        set.outputs.min(65) as usize,
        set.stations.min(33) as usize,
        NOW,
    );
}

/// A record with the least Fade_Time, which keeps the rules at every set.
fn short(name: &str) -> Record {
    let mut record = state(name);
    record.fade = 100;
    record
}

pub fn read(station: u8, number: u32, time: u64, output: u8, property: u8) -> Vec<u8> {
    let head = Head {
        station,
        number,
        time,
        output,
    };
    call(0x05, head, &[property])
}

/// Every string of bytes meets 1 where a kept number is out of range.
fn kept_numbers(text: &mut Text) {
    for (parameter, numbers) in NUMBERS {
        for number in numbers {
            let set = with(parameter, *number);
            text.comment(&format!("kept: {}", words(&set)));
            tables(text, &set);
            text.keep(&set);
            if set.fade <= 1_000 {
                for place in 0..2 {
                    text.output(place, &short("a fresh output"));
                }
            }
            text.frame(&clock(NOW + 5));
            text.frame(&[]);
            text.frame(&[0x02]);
            text.frame(&read(0, 1, NOW + 5, 0, 0x0B));
            text.left();
        }
    }
}

/// One record too few and too many, of each table.
fn counts(text: &mut Text) {
    for (stations, outputs) in [(3, 2), (1, 1), (32, 64)] {
        for (fewer, more) in [(0, 0), (1, 0), (0, 1)] {
            for of_outputs in [false, true] {
                let mut lent = Parameters {
                    stations,
                    outputs,
                    ..SHOP
                };
                let kept = lent;
                match of_outputs {
                    true => lent.outputs = outputs + more - fewer,
                    false => lent.stations = stations + more - fewer,
                }
                let (records, others) = (lent.outputs, lent.stations);
                text.comment(&format!(
                    "{records} outputs and {others} stations lent, kept: {}",
                    words(&kept)
                ));
                tables(text, &lent);
                text.keep(&kept);
                text.frame(&clock(NOW + 5));
                text.left();
            }
        }
    }
}

/// What the last of two outputs may hold at each longest fade.
fn records(text: &mut Text) {
    for fade in edges_of(Parameter::Fade) {
        let set = with(Parameter::Fade, fade);
        text.comment(&format!("records, kept: {}", words(&set)));
        for record in records_at(&set) {
            tables(text, &set);
            text.keep(&set);
            text.output(0, &short("lit at 60 percent"));
            text.output(1, &record);
            text.frame(&clock(NOW + 5));
            text.left();
        }
    }
}

/// Those that keep the rules stand beside those that break one.
fn records_at(set: &Parameters) -> Vec<Record> {
    let most = set.fade.max(800_000);
    let mut records = Vec::new();
    for fade in [99, 100, set.fade, set.fade + 1] {
        let mut record = short("a fresh output");
        record.fade = fade;
        records.push(record);
    }
    for (name, lasts) in [
        ("a fade up", most),
        ("a fade up", most + 1),
        ("a ramp up", most),
        ("a ramp up", most + 1),
    ] {
        let mut record = short(name);
        if let Activity::Moving { length, .. } = &mut record.activity {
            *length = lasts;
        }
        records.push(record);
    }
    for blink in [LONGEST, LONGEST + 1] {
        let mut record = short("a fresh output");
        record.blink = blink;
        records.push(record);
        record.blink = 0;
        record.delay = blink;
        records.push(record);
    }
    // No rule bounds a running duration or the last command.
    for name in [
        "a duration due in the far future",
        "last FADE_TO_OVER, lasting",
        "last RELINQUISH, lasting longer than any may",
    ] {
        records.push(short(name));
    }
    records
}

/// The last station and the one after it; fade times, durations and blink times
/// at the longest and one more. Each on a panel that was just started.
fn ranges(text: &mut Text) {
    let whole = |number: u32| number.to_be_bytes().to_vec();
    let level = 50.0_f32.to_bits().to_be_bytes().to_vec();
    let greatest = Parameters {
        duration: LONGEST,
        ..with(Parameter::Fade, FOUR_HOURS)
    };
    for (set, property) in [
        (SHOP, 0x0D),
        (with(Parameter::Fade, 100), 0x02),
        (greatest, 0x02),
    ] {
        text.comment(&format!("frames after a start, {}", words(&set)));
        for more in [0, 1] {
            let (fade, duration) = (set.fade + more, set.duration + more);
            let mut frames = vec![
                (0x04, [vec![0x02], whole(fade)].concat()),
                (0x04, [vec![0x06], whole(LONGEST + more)].concat()),
                (0x04, [vec![0x07], whole(LONGEST + more)].concat()),
                (0x11, [level.clone(), whole(duration)].concat()),
                (0x12, [level.clone(), whole(fade), whole(u32::MAX)].concat()),
                (0x12, [level.clone(), whole(100), whole(duration)].concat()),
                (0x1A, whole(duration)),
                (0x1B, tagged(&[0x09, 10], tags::DURATION, duration)),
            ];
            let fade_to_over = [&[0x09, 2, 0x1C][..], &level].concat();
            frames.push((0x1B, tagged(&fade_to_over, tags::FADE_TIME, fade)));
            for (kind, adds) in frames {
                let head = Head {
                    station: 2,
                    number: 1,
                    time: 40,
                    output: 1,
                };
                tables(text, &set);
                text.start(&set);
                text.frame(&call(kind, head, &adds));
                text.frame(&read(1, 1, 90, 1, property));
                text.left();
            }
        }
        tables(text, &set);
        text.start(&set);
        for station in [0, 1, 2, 3, 4, 255] {
            text.frame(&read(station, 1, 40, 1, property));
        }
        text.frame(&read(3, 0, 40, 1, property));
        text.frame(&read(3, 1, 40, 2, property));
        text.left();
    }
}

/// L and 17 bytes: these, and a whole number under its tag in the fewest octets.
fn tagged(others: &[u8], tag: u8, number: u32) -> Vec<u8> {
    let octets = fewest_octets(number);
    let mut bytes = others.to_vec();
    bytes.push(tag * 16 + 8 + octets.len() as u8);
    bytes.extend(octets);
    let length = bytes.len() as u8;
    bytes.resize(17, 0);
    [vec![length], bytes].concat()
}

/// Records that are not fresh, and stations that keep frames.
pub fn used_tables(text: &mut Text, outputs: u32, stations: u32) {
    text.table(outputs as usize, stations as usize, NOW);
    if outputs > 0 {
        text.output(0, &state("a fade and a duration on its slot, due first"));
        text.output(outputs as usize - 1, &state("a warning in its delay"));
    }
    if stations > 0 {
        let mut frame = [0; LONGEST_FRAME];
        frame[0] = 0x05;
        let station = Station {
            answer: plain::Answer::Value(1),
            number: 9,
            frame,
        };
        text.station(0, &station);
        text.station(stations as usize - 1, &station);
    }
}

/// Done over tables of any content, whatever is kept; then a frame is taken.
fn starts(text: &mut Text) {
    let broken = Parameters {
        stations: 0,
        outputs: 65,
        fade: 99,
        duration: 0,
        tenants: 0,
    };
    for kept in [SHOP, broken] {
        for fade in edges_of(Parameter::Fade) {
            let set = with(Parameter::Fade, fade);
            text.comment(&format!("a start with {}", words(&set)));
            used_tables(text, set.outputs, set.stations);
            text.keep(&kept);
            text.frame(&clock(NOW + 5));
            text.start(&set);
            text.left();
            text.frame(&read(2, 1, 40, 0, 0x02));
            text.left();
        }
    }
    for (stations, outputs) in [(1, 1), (32, 1), (1, 64), (32, 64)] {
        let set = Parameters {
            stations,
            outputs,
            ..SHOP
        };
        text.comment(&format!("a start with {}", words(&set)));
        used_tables(text, outputs, stations);
        text.start(&set);
        text.left();
        text.frame(&clock(5));
    }
    text.comment("a start with another set over a panel that was started");
    used_tables(text, SHOP.outputs, SHOP.stations);
    text.start(&SHOP);
    text.start(&with(Parameter::Fade, 100));
    text.left();
}

/// 17 and 1: nothing is written, and the frame after it goes by what was kept.
fn refused_starts(text: &mut Text) {
    for (parameter, numbers) in NUMBERS {
        for number in numbers {
            let set = with(parameter, *number);
            if set.out_of_range().is_none() {
                continue;
            }
            text.comment(&format!("a start with {}", words(&set)));
            // With the counts of the set, if they can be had, and with others.
            let (outputs, stations) = (set.outputs.min(65), set.stations.min(33));
            for (outputs, stations) in [(outputs, stations), (4, 5)] {
                used_tables(text, outputs, stations);
                text.start(&set);
                text.left();
                text.frame(&clock(NOW + 5));
            }
        }
    }
    for (outputs, stations) in [(1, 3), (3, 3), (2, 2), (2, 4), (0, 3), (2, 0), (65, 33)] {
        text.comment(&format!(
            "a start with {} over {outputs} outputs and {stations} stations",
            words(&SHOP)
        ));
        used_tables(text, outputs, stations);
        text.keep(&Parameters {
            stations,
            outputs,
            ..SHOP
        });
        text.start(&SHOP);
        text.left();
        text.frame(&clock(NOW + 5));
        text.left();
    }
}

#[cfg(test)]
mod tests {
    use super::*;
    use crate::record::Kept;
    use crate::rules::all_broken;

    /// Half of what is tried at each longest fade is at a rule's end, and the
    /// other half breaks that rule alone.
    #[test]
    fn each_record_breaks_one_rule_or_none() {
        for fade in edges_of(Parameter::Fade) {
            let kept = Kept {
                time: NOW,
                parameters: with(Parameter::Fade, fade),
            };
            let broken: Vec<usize> = records_at(&kept.parameters)
                .iter()
                .map(|record| all_broken(record, &kept).len())
                .collect();
            assert_eq!(broken, [1, 0, 0, 1, 0, 1, 0, 1, 0, 0, 1, 1, 0, 0, 0]);
        }
    }
}
