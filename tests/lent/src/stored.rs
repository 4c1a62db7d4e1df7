//! The rows of crates/lent_tables/stdin: each rule broken alone in each place,
//! counts, and every state that the rules allow, each with a few frames, at the
//! old panel's set; then sets, starts and tenants.

use crate::breaking::breaking;
use crate::record::{Record, Station, LONGEST_FRAME};
use crate::sets::sets;
use crate::states::{state, states, NOW};
use crate::tenants::tenants;
use crate::text::{call, clock, Head, Text};

const STATIONS: usize = 8;

pub fn stored() -> String {
    let mut text = Text(String::new());
    text.comment("Made by `lent stored` of tests/lent. crates/lent_session/src/lib.rt says what the letters mean.");
    one_rule_broken(&mut text);
    stations_broken(&mut text);
    counts(&mut text);
    kept_frames(&mut text);
    far_times(&mut text);
    time_passes(&mut text);
    frames_act(&mut text);
    sets(&mut text);
    tenants(&mut text);
    text.0
}

fn head(number: u32, time: u64, output: u8) -> Head {
    Head {
        station: 1,
        number,
        time,
        output,
    }
}

fn read(number: u32, time: u64, output: u8, property: u8) -> Vec<u8> {
    call(0x05, head(number, time, output), &[property])
}

/// The first, the middle and the last of three outputs. No byte at all would be
/// refused 2, but refusal 1 comes first.
fn one_rule_broken(text: &mut Text) {
    for (what, record) in breaking() {
        text.comment(what);
        for place in 0..3 {
            text.table(3, STATIONS, NOW);
            text.output(place, &record);
            text.frame(&clock(NOW + 5));
            text.frame(&[]);
            text.left();
        }
    }
}

/// A station's record whose frame begins with this kind.
fn keeps(number: u32, kind: u8) -> Station {
    let mut frame = [0; LONGEST_FRAME];
    frame[0] = kind;
    Station {
        answer: plain::Answer::Absent,
        number,
        frame,
    }
}

/// Each station; a kind that is none, or a clock's.
fn stations_broken(text: &mut Text) {
    for kind in [0x00, 0x01, 0x06, 0x0F, 0x1C, 0xFF] {
        text.comment(&format!("a station that keeps a frame of kind {kind:02X}"));
        for place in 0..STATIONS {
            text.table(1, STATIONS, NOW);
            text.station(place, &keeps(1, kind));
            text.frame(&clock(NOW + 5));
            text.left();
        }
        text.comment("the same under number 0, which means none");
        text.table(1, STATIONS, NOW);
        text.station(3, &keeps(0, kind));
        text.frame(&clock(NOW + 5));
        text.left();
    }
}

fn counts(text: &mut Text) {
    for (outputs, stations) in [
        (0, 8),
        (1, 8),
        (2, 8),
        (63, 8),
        (64, 8),
        (65, 8),
        (1, 0),
        (1, 7),
        (1, 9),
        (64, 7),
        (64, 9),
        (65, 9),
        (0, 0),
    ] {
        text.comment(&format!("{outputs} outputs, {stations} stations"));
        text.table(outputs, stations, NOW);
        text.frame(&clock(NOW + 5));
        for (number, output) in [(1, 0), (2, 62), (3, 63), (4, 64)] {
            text.frame(&call(
                0x02,
                head(number, NOW + 10, output),
                &[8, 0x42, 0x48, 0, 0],
            ));
        }
        text.left();
    }
    let (_, wrong) = breaking()[0];
    for (outputs, place) in [(64, 63), (64, 64), (65, 64)] {
        text.comment(&format!(
            "{outputs} outputs lent, output {place} breaks a rule"
        ));
        text.table(outputs, STATIONS, NOW);
        text.output(place, &wrong);
        text.frame(&clock(NOW + 5));
        text.left();
    }
    text.comment("8 stations lent, station 8 breaks a rule, and no output does");
    text.table(1, STATIONS, NOW);
    text.station(8, &keeps(1, 0));
    text.frame(&clock(NOW + 5));
    text.left();
}

/// Copies, other bytes under the same number, lower numbers, late frames.
fn kept_frames(text: &mut Text) {
    let kept = read(5, NOW - 1_000, 0, 0x0C);
    let mut frame = [0xEE; LONGEST_FRAME];
    frame[..kept.len()].copy_from_slice(&kept);
    for answer in [
        plain::Answer::Value(0x4248_0000),
        plain::Answer::Done,
        plain::Answer::Absent,
        plain::Answer::Refused(200),
    ] {
        text.comment(&format!(
            "a frame kept with the answer {answer:?}, other bytes after it"
        ));
        text.table(1, STATIONS, NOW);
        text.output(0, &state("a fade up"));
        text.station(
            1,
            &Station {
                answer,
                number: 5,
                frame,
            },
        );
        text.frame(&kept);
        text.frame(&read(5, NOW, 0, 0x0C));
        text.frame(&read(4, NOW, 0, 0x0C));
        text.frame(&read(6, NOW - 1, 0, 0x0C));
        text.frame(&read(6, NOW, 1, 0x0C));
        text.frame(&[]);
        text.frame(&kept[..13]);
        text.frame(&[0x06]);
        text.frame(&frame);
        text.left();
        text.frame(&read(6, NOW, 0, 0x0D));
        text.frame(&read(6, NOW, 0, 0x0D));
        text.left();
    }
}

/// Panel time above what six bytes hold breaks no rule; every frame is late.
fn far_times(text: &mut Text) {
    for time in [(1 << 48) - 1, 1 << 48, u64::MAX] {
        text.comment(&format!("panel time {time}"));
        text.table(1, STATIONS, time);
        let mut record = Record::fresh();
        record.burning = time;
        text.output(0, &record);
        text.frame(&clock((1 << 48) - 1));
        text.frame(&read(1, (1 << 48) - 1, 0, 0x0B));
        text.left();
        record.burning = time.saturating_add(1);
        text.output(0, &record);
        text.frame(&read(2, (1 << 48) - 1, 0, 0x0B));
    }
}

/// In each state: what is read, then time passes by itself.
fn time_passes(text: &mut Text) {
    for (what, record) in states() {
        text.comment(what);
        text.table(2, STATIONS, NOW);
        text.output(1, &record);
        for (number, property) in (1..).zip([0x0B, 0x0C, 0x0D, 0x0E, 0x10, 0x12, 0x14, 0x1A]) {
            text.frame(&read(number, NOW, 1, property));
        }
        for later in [1, 299, 300, 301] {
            text.frame(&clock(NOW + later));
        }
        text.left();
        text.frame(&read(9, NOW + 600, 1, 0x0D));
        text.left();
        text.frame(&clock(NOW + 5_000));
        text.frame(&read(10, NOW + 5_000, 1, 0x1B));
        text.left();
    }
}

/// In each state: frames that act on it, each on a table of its own.
fn frames_act(text: &mut Text) {
    for (what, record) in states() {
        text.comment(what);
        for (kind, adds) in [
            (0x02, &[16, 0, 0, 0, 0][..]),
            (0x02, &[3, 0x42, 0x3E, 0, 0]),
            (0x03, &[8]),
            (0x10, &[0, 0, 1, 0x2C]),
            (0x11, &[0x41, 0xA0, 0, 0, 0xFF, 0xFF, 0xFF, 0xFF]),
            (0x1A, &[0, 0, 0, 0]),
        ] {
            text.table(1, STATIONS, NOW);
            text.output(0, &record);
            text.frame(&call(kind, head(1, NOW + 100, 0), adds));
            text.left();
        }
    }
}
