//! §8 by number, on both panels: what a tenant reads, and what it does as others do.

#[macro_use]
mod bench;
#[path = "bench/tags.rs"]
mod tags;

use bench::Bench;
use panels::replay::replay;
use panels::{Answer, FastPanel, Panel, Parameters, PlainPanel};
use tags::padded;

on_both_panels! {
    whole_percents
    movements
    hidden_slots
    a_warning
    everything_else
    copies
    writes_and_commands
    reads_leave_the_record
    two_panels_alike
    turned_down
}

const DONE: Answer = Answer::Done;
const ABSENT: Answer = Answer::Absent;

/// Station 1 is a tenant, stations 0 and 2 are not.
const SERVICE: u8 = 0;
const TENANT: u8 = 1;
const OTHER: u8 = 2;

fn set(stations: u32, tenants: u32) -> Parameters {
    Parameters {
        stations,
        tenants,
        ..Parameters::of_old_panel(1)
    }
}

fn three_stations<Chosen: Panel>() -> Bench<Chosen> {
    Bench::with(set(3, 0b010))
}

/// A level as it is read out.
fn units(level: u32) -> Answer {
    Answer::Value((level as f32 / 65_536.0).to_bits())
}

impl<Chosen: Panel> Bench<Chosen> {
    fn read_as(&mut self, station: u8, number: u32, time: u64, property: u8) -> Answer {
        self.bytes(&format!(
            "05 {station:02X} {number:08X} {time:012X} 00 {property:02X}"
        ))
    }

    /// What the tenant and another station read, each under that number.
    fn both_under(&mut self, number: u32, time: u64, property: u8) -> [Answer; 2] {
        [TENANT, OTHER].map(|station| self.read_as(station, number, time, property))
    }

    fn read_by_both(&mut self, time: u64, property: u8) -> [Answer; 2] {
        let number = self.next_number();
        self.both_under(number, time, property)
    }
}

/// Written by station 0; read by the tenant and by a service station.
fn whole_percents<Chosen: Panel>(_: Bench<Chosen>) {
    for (written, by_tenant) in [
        (0x0000_0000, 0x0000_0000),
        // 1 percent, a unit more, a half more, and a unit below 2 percent.
        (0x3F80_0000, 0x3F80_0000),
        (0x3F80_0080, 0x3F80_0000),
        (0x3FC0_0000, 0x3F80_0000),
        (0x3FFF_FF80, 0x3F80_0000),
        (0x4000_0000, 0x4000_0000),
        // A unit below 50 percent is 49 percent, and a unit above is 50.
        (0x4247_FFFC, 0x4244_0000),
        (0x4248_0000, 0x4248_0000),
        (0x4248_0004, 0x4248_0000),
        // 64 percent, with a REAL for every half unit from there on.
        (0x427F_FFFC, 0x427C_0000),
        (0x4280_0000, 0x4280_0000),
        (0x4280_0002, 0x4280_0000),
        // 98, 99 and 100 percent.
        (0x42C5_FFFE, 0x42C4_0000),
        (0x42C6_0000, 0x42C6_0000),
        (0x42C6_0002, 0x42C6_0000),
        (0x42C7_C000, 0x42C6_0000),
        (0x42C7_FFFE, 0x42C6_0000),
        (0x42C8_0000, 0x42C8_0000),
    ] {
        let mut bench = three_stations::<Chosen>();
        assert_eq!(bench.frame(0x02, 0, &format!("08 {written:08X}")), DONE);
        let both = [Answer::Value(by_tenant), Answer::Value(written)];
        assert_eq!(bench.read_by_both(0, 0x0C), both);
        assert_eq!(bench.read_by_both(0, 0x0D), both);
        // The slot itself is the tenant's to read.
        assert_eq!(bench.read_by_both(0, 0x28), [Answer::Value(written); 2]);
    }
}

fn movements<Chosen: Panel>(_: Bench<Chosen>) {
    // Bench figure 5: fade 0 to 50 over 1,000 ms.
    let mut bench = three_stations::<Chosen>();
    assert_eq!(bench.frame(0x12, 0, "42480000 000003E8 FFFFFFFF"), DONE);
    for (time, level, percent) in [
        (0, 0, 0),
        (333, 1_091_174, 16),
        (999, 3_273_523, 49),
        (1_000, 3_276_800, 50),
    ] {
        let both = [units(percent * 65_536), units(level)];
        assert_eq!(bench.read_by_both(time, 0x0D), both, "at {time}");
        let target = Answer::Value(0x4248_0000);
        assert_eq!(bench.read_by_both(time, 0x0C), [target; 2]);
        let moves = Answer::Value(u32::from(time < 1_000));
        assert_eq!(bench.read_by_both(time, 0x0E), [moves; 2]);
    }

    // Bench figure 7: rate 3, 0 to 1 percent.
    let mut bench = three_stations::<Chosen>();
    assert_eq!(bench.frame(0x14, 0, "3F800000 40400000 FFFFFFFF"), DONE);
    assert_eq!(bench.read_by_both(333, 0x0D), [units(0), units(65_470)]);
    assert_eq!(bench.read_by_both(334, 0x0D), [units(65_536); 2]);

    // A unit a millisecond, from 0 to 2 percent and back.
    let mut bench = three_stations::<Chosen>();
    assert_eq!(bench.frame(0x12, 0, "40000000 00020000 FFFFFFFF"), DONE);
    for (time, percent) in [
        (1, 0),
        (65_535, 0),
        (65_536, 1),
        (65_537, 1),
        (131_071, 1),
        (131_072, 2),
    ] {
        let both = [units(percent * 65_536), units(time)];
        assert_eq!(bench.read_by_both(time.into(), 0x0D), both, "at {time}");
    }
    let start = 131_072;
    assert_eq!(bench.frame(0x12, start, "00000000 00020000 FFFFFFFF"), DONE);
    for (later, level, percent) in [
        (1, 131_071, 1),
        (65_535, 65_537, 1),
        (65_536, 65_536, 1),
        (65_537, 65_535, 0),
        (131_071, 1, 0),
    ] {
        let both = [units(percent * 65_536), units(level)];
        assert_eq!(bench.read_by_both(start + later, 0x0D), both);
    }
}

/// Slot p holds p percent and a half.
fn hidden_slots<Chosen: Panel>(_: Bench<Chosen>) {
    let half = |slot: u8| Answer::Value((f32::from(slot) + 0.5).to_bits());
    let mut bench = three_stations::<Chosen>();
    for slot in 1..=16 {
        // Empty ones.
        assert_eq!(bench.read_by_both(0, 0x20 + slot), [ABSENT; 2]);
    }
    for slot in (1..=16).filter(|slot| *slot != 6) {
        let Answer::Value(bits) = half(slot) else {
            unreachable!()
        };
        assert_eq!(
            bench.frame(0x02, 1, &format!("{slot:02X} {bits:08X}")),
            DONE
        );
    }
    for slot in 1..=16 {
        let expected = match slot {
            6 => [ABSENT; 2],
            1..=5 => [ABSENT, half(slot)],
            _ => [half(slot); 2],
        };
        assert_eq!(bench.read_by_both(1, 0x20 + slot), expected, "slot {slot}");
    }
    // Slot 1 wins, and shows in whole percent.
    assert_eq!(bench.read_by_both(1, 0x0C), [units(65_536), half(1)]);
}

/// Bench figure 8, at 50 percent and a half: slot 6 is the warning's.
fn a_warning<Chosen: Panel>(_: Bench<Chosen>) {
    let mut bench = three_stations::<Chosen>();
    for setting in ["05 00000001", "06 000002BC", "07 0001D4C0"] {
        assert_eq!(bench.frame(0x04, 0, setting), DONE);
    }
    assert_eq!(bench.frame(0x02, 0, "10 424A0000"), DONE);
    assert_eq!(bench.frame(0x02, 1_000, "10 00000000"), DONE);
    let (zero, level) = (Answer::Value(0), Answer::Value(0x424A_0000));
    let percent = Answer::Value(0x4248_0000);
    for (time, in_slot, both) in [
        (1_000, zero, [zero; 2]),
        (1_699, zero, [zero; 2]),
        (1_700, level, [percent, level]),
        (121_699, level, [percent, level]),
        (121_700, ABSENT, [zero; 2]),
    ] {
        assert_eq!(bench.read_by_both(time, 0x26), [ABSENT, in_slot]);
        assert_eq!(bench.read_by_both(time, 0x0C), both, "at {time}");
        assert_eq!(bench.read_by_both(time, 0x0D), both, "at {time}");
    }
}

/// Nothing here is a whole number of percent, and all is read as it is.
fn everything_else<Chosen: Panel>(_: Bench<Chosen>) {
    let mut bench = three_stations::<Chosen>();
    let settings = [
        (0x01, 0x3FC0_0000),
        (0x02, 1_234),
        (0x03, 0x40A9_999A),
        (0x04, 0x3E80_0000),
        (0x05, 1),
        (0x06, 701),
        (0x07, 119_999),
        (0x08, 0x3FA0_0000),
        (0x09, 0x42C7_0000),
        (0x0A, 3),
        (0x17, 0x4249_0000),
        (0x18, 0x4235_0000),
        (0x19, 1),
    ];
    for (property, value) in settings {
        let rest = format!("{property:02X} {value:08X}");
        assert_eq!(bench.frame(0x04, 0, &rest), DONE);
    }
    // 33.3 percent at 2.7 percent a second, lasting 86,399,999 ms.
    assert_eq!(bench.frame(0x14, 0, "42053333 402CCCCD 05265BFF"), DONE);
    let last = [
        (0x0F, 4),
        (0x10, 0x4205_3333),
        (0x11, 0x402C_CCCD),
        (0x14, 86_399_999),
    ];
    // Lit all the time, by Relinquish_Default at first.
    let others = [(0x0B, 6), (0x0E, 1), (0x1A, 0), (0x1B, 1)];
    for (property, value) in settings.into_iter().chain(last).chain(others) {
        let expected = [Answer::Value(value); 2];
        assert_eq!(
            bench.read_by_both(6_999, property),
            expected,
            "{property:02X}"
        );
    }
    for property in [0x12, 0x13] {
        assert_eq!(bench.read_by_both(6_999, property), [ABSENT; 2]);
    }
    for property in [0x00, 0x15, 0x16, 0x20, 0x31, 0xFF] {
        let expected = [Answer::Refused(9); 2];
        assert_eq!(bench.read_by_both(7_000, property), expected);
    }
}

/// A copy gets the answer that its first arrival got.
fn copies<Chosen: Panel>(_: Bench<Chosen>) {
    let mut bench = three_stations::<Chosen>();
    assert_eq!(bench.frame(0x02, 5, "01 424A0000"), DONE);
    let before = [Answer::Value(0x4248_0000), Answer::Value(0x424A_0000)];
    assert_eq!(bench.both_under(1, 5, 0x0C), before);
    // 20 percent and a half.
    assert_eq!(bench.frame(0x02, 6, "01 41A40000"), DONE);
    bench.clock(1_000);
    assert_eq!(bench.both_under(1, 5, 0x0C), before);
    let after = [Answer::Value(0x41A0_0000), Answer::Value(0x41A4_0000)];
    assert_eq!(bench.both_under(2, 1_000, 0x0C), after);

    let hidden = [ABSENT, Answer::Value(0x41A4_0000)];
    assert_eq!(bench.both_under(3, 1_000, 0x21), hidden);
    assert_eq!(bench.frame(0x03, 1_000, "01"), DONE);
    assert_eq!(bench.both_under(3, 1_000, 0x21), hidden);
    assert_eq!(bench.both_under(4, 1_000, 0x21), [ABSENT; 2]);
}

/// A tenant's act as a service station's do, to the unit.
fn writes_and_commands<Chosen: Panel>(_: Bench<Chosen>) {
    let mut bench = three_stations::<Chosen>();
    let mut number = 0;
    let mut tenant = |bench: &mut Bench<Chosen>, kind: u8, rest: &str| {
        number += 1;
        bench.bytes(&format!(
            "{kind:02X} 01 {number:08X} 000000000000 00 {rest}"
        ))
    };
    // 50 percent and a unit into slot 1; GOTO 20 percent and a half in slot 2.
    assert_eq!(tenant(&mut bench, 0x02, "01 42480004"), DONE);
    assert_eq!(bench.found().slots[0], Some(3_276_801));
    assert_eq!(tenant(&mut bench, 0x04, "0A 00000002"), DONE);
    assert_eq!(tenant(&mut bench, 0x19, "41A40000 FFFFFFFF"), DONE);
    assert_eq!(bench.found().slots[1], Some(1_343_488));
    assert_eq!(bench.found().present_value, 3_276_801);
    assert_eq!(tenant(&mut bench, 0x03, "01"), DONE);
    assert_eq!(bench.found().present_value, 1_343_488);
    // A step of 1/8 percent in tags: 8,192 units, and 20.625 percent.
    let step = padded("0907 3C3E000000");
    assert_eq!(tenant(&mut bench, 0x1B, &step), DONE);
    assert_eq!(bench.found().present_value, 1_351_680);
    assert_eq!(tenant(&mut bench, 0x04, "01 3F800080"), DONE);
    assert_eq!(bench.found().settings[0], 0x3F80_0080);
    // Priority 6 is refused to everyone.
    assert_eq!(tenant(&mut bench, 0x02, "06 42480000"), Answer::Refused(10));
}

/// All properties, and what is found is what it was.
fn reads_leave_the_record<Chosen: Panel>(_: Bench<Chosen>) {
    let mut bench = three_stations::<Chosen>();
    assert_eq!(bench.frame(0x02, 0, "03 42480004"), DONE);
    assert_eq!(bench.frame(0x04, 0, "01 3F800080"), DONE);
    let before = bench.found();
    for property in 0x00..=0x31 {
        bench.read_as(TENANT, u32::from(property) + 1, 0, property);
    }
    assert_eq!(bench.found(), before);
}

/// They differ in slots 1 to 5 and in what is shown between 50 and 51 percent:
/// a tenant is answered the same, and a service station is not.
fn two_panels_alike<Chosen: Panel>(_: Bench<Chosen>) {
    let answers = |station: u8, writes: &[&str]| {
        let mut bench = three_stations::<Chosen>();
        assert_eq!(bench.frame(0x02, 0, "08 41280000"), DONE);
        for write in writes {
            assert_eq!(bench.frame(0x02, 0, write), DONE);
        }
        let read = |property: u8| bench.read_as(station, u32::from(property) + 1, 5_000, property);
        (0..=u8::MAX).map(read).collect::<Vec<Answer>>()
    };
    // 50.25 percent in slot 1; 50.75 in slot 3, above 20.5 in slot 5.
    let (one, other) = (["01 42490000"], ["05 41A40000", "03 424B0000"]);
    assert_eq!(answers(TENANT, &one), answers(TENANT, &other));
    assert_ne!(answers(OTHER, &one), answers(OTHER, &other));
}

fn turned_down<Chosen: Panel>(_: Bench<Chosen>) {
    let mut bench = three_stations::<Chosen>();
    assert_eq!(bench.frame(0x02, 100, "01 424A0000"), DONE);
    assert_eq!(bench.read_as(TENANT, 5, 100, 0x21), ABSENT);
    for (text, refusal) in [
        ("05 01 00000006 000000000064 00", 3),
        ("05 01 00000000 000000000064 00 21", 4),
        ("05 03 00000001 000000000064 00 21", 4),
        ("05 01 00000006 000000000064 01 21", 5),
        ("05 01 00000005 000000000064 00 22", 6),
        ("05 01 00000004 000000000064 00 21", 7),
        ("05 01 00000006 000000000063 00 21", 8),
        ("05 01 00000006 000000000064 00 20", 9),
    ] {
        assert_eq!(bench.bytes(text), Answer::Refused(refusal), "{text}");
    }
    // A hidden read has brought the panel to its time.
    assert_eq!(bench.read_as(TENANT, 7, 200, 0x26), ABSENT);
    assert_eq!(bench.bytes("01 0000000000C7"), Answer::Refused(8));
    assert_eq!(bench.found().burning, 100);
    assert_eq!(
        bench.read_as(SERVICE, 9, 200, 0x21),
        Answer::Value(0x424A_0000)
    );
}

/// Who is a tenant: the number of stations, the word, the tenants.
const MARKS: [(u32, u32, &[u8]); 18] = [
    (1, 0x0000_0000, &[]),
    (1, 0x0000_0001, &[0]),
    (1, 0x0000_0002, &[]),
    (1, 0xFFFF_FFFE, &[]),
    (3, 0x0000_0001, &[0]),
    (3, 0x0000_0004, &[2]),
    (3, 0x0000_0005, &[0, 2]),
    (3, 0x0000_0008, &[]),
    (3, 0x8000_0000, &[]),
    (3, 0xFFFF_FFFF, &[0, 1, 2]),
    (3, 0xFFFF_FFFA, &[1]),
    (8, 0x0000_0080, &[7]),
    (17, 0x0001_8001, &[0, 15, 16]),
    (31, 0x4000_0000, &[30]),
    (31, 0x8000_0000, &[]),
    (32, 0x8000_0000, &[31]),
    (32, 0x8001_0000, &[16, 31]),
    (32, 0x0000_0000, &[]),
];

#[test]
fn marks() {
    marks_of::<PlainPanel>();
    marks_of::<FastPanel>();
}

fn marks_of<Chosen: Panel>() {
    for (stations, word, tenants) in MARKS {
        let mut bench = Bench::<Chosen>::with(set(stations, word));
        assert_eq!(bench.frame(0x02, 0, "05 424A0000"), DONE);
        for station in 0..stations as u8 {
            let (slot, percent) = match tenants.contains(&station) {
                true => (ABSENT, 0x4248_0000),
                false => (Answer::Value(0x424A_0000), 0x424A_0000),
            };
            let told = format!("station {station} of {stations}, {word:08X}");
            assert_eq!(bench.read_as(station, 2, 0, 0x25), slot, "{told}");
            let shown = bench.read_as(station, 3, 0, 0x0C);
            assert_eq!(shown, Answer::Value(percent), "{told}");
        }
        let beyond = bench.read_as(stations as u8, 1, 0, 0x25);
        assert_eq!(beyond, Answer::Refused(4));
    }
}

/// 17 whatever the marks, and the marks are never the reason.
#[test]
fn starts() {
    for word in [0, 1, 1 << 31, u32::MAX] {
        for (stations, answer) in [(0, 17), (33, 17)] {
            let refused = Answer::Refused(answer);
            assert_eq!(PlainPanel::start(set(stations, word)).err(), Some(refused));
            assert_eq!(FastPanel::start(set(stations, word)).err(), Some(refused));
        }
        for stations in [1, 32] {
            assert!(PlainPanel::start(set(stations, word)).is_ok());
            assert!(FastPanel::start(set(stations, word)).is_ok());
        }
    }
}

/// The word in a heading: either case, zeros first, any place, or left out. The
/// four stations read slot 1; what is found is a service station's.
#[test]
fn headings() {
    for (heading, tenants) in [
        ("outputs 1 stations 4", ""),
        ("outputs 1 stations 4 tenants 0", ""),
        ("outputs 1 stations 4 tenants A", "13"),
        ("outputs 1 stations 4 tenants a", "13"),
        ("outputs 1 tenants 0000000A stations 4", "13"),
        ("outputs 1  tenants\t0a  stations 4\r", "13"),
        ("outputs 1 fade 500 tenants 5 duration 600 stations 4", "02"),
        (
            "outputs 1 fade 500 duration 600 stations 4 tenants fFfFfFf1",
            "0",
        ),
        ("outputs 1 stations 4 tenants FFFFFFFF", "0123"),
        ("outputs 1 stations 4 tenants 10", ""),
        ("outputs 1 stations 4 tenants 80000000", ""),
    ] {
        let mut list = format!("{heading}\n02 00 00000001 000000000000 00 01 424A0000\n");
        let mut expected = "Done\n".to_string();
        for station in 0..4 {
            list += &format!("05 {station:02X} 00000002 000000000000 00 21\n");
            expected += match tenants.contains(&station.to_string()) {
                true => "Absent\n",
                false => "Value 424A0000\n",
            };
        }
        expected += "--\noutput 0\nslots 3309568 - ";
        let written = [replayed::<PlainPanel>(&list), replayed::<FastPanel>(&list)];
        for text in written {
            assert!(text.starts_with(&expected), "{heading}: {text}");
            assert!(text.contains("\npv 3309568\nprogress 3309568\n"));
        }
    }
}

fn replayed<Chosen: Panel>(list: &str) -> String {
    let mut written = Vec::new();
    assert!(replay::<Chosen>(list.as_bytes(), &mut written).unwrap());
    String::from_utf8(written).unwrap()
}
