//! §6 by number, on both panels: what the set moves, and what it does not.

mod bench;
#[path = "bench/tags.rs"]
mod tags;

use bench::Bench;
use panels::lent_set::lent_sets;
use panels::{Answer, FastPanel, Panel, Parameters, PlainPanel};

const DONE: Answer = Answer::Done;
const REFUSED_12: Answer = Answer::Refused(12);
const DAY: u32 = 86_400_000;
/// The greatest longest fade (§7).
const FOUR_HOURS: u32 = 14_400_000;
/// 50 percent, as a REAL.
const HALF: &str = "42480000";

/// Longest fades.
const FADES: [u32; 10] = [
    100, 101, 999, 1_000, 1_001, 799_999, 800_000, 800_001, 14_399_999, FOUR_HOURS,
];

/// Longest durations.
const DURATIONS: [u32; 10] = [
    100, 101, 999, 1_000, 1_001, 799_999, 800_000, 800_001, 86_399_999, DAY,
];

fn set(stations: u32, fade: u32, duration: u32) -> Parameters {
    Parameters {
        stations,
        outputs: 1,
        fade,
        duration,
        tenants: 0,
    }
}

macro_rules! on_both {
    ($($name:ident)*) => {
        $(#[test]
        fn $name() {
            of::$name::<PlainPanel>();
            of::$name::<FastPanel>();
        })*
    };
}

on_both!(starts stations fade_times durations blink_times fresh_fade_times slowest_ramp copies);

/// Starts and frames over tables that no list lends.
#[test]
fn lent_tables() {
    for lent in lent_sets() {
        let expected = (lent.answer, lent.left());
        assert_eq!(FastPanel::over_lent_set(&lent), expected, "{lent:?}");
    }
}

/// A whole number under its tag, in the fewest octets.
fn in_tag(number: u8, value: u32) -> String {
    let octets = (4 - (value | 1).leading_zeros() / 8) as usize;
    let digits = format!("{value:08X}");
    format!("{number:X}{:X}{}", 8 + octets, &digits[8 - 2 * octets..])
}

fn write<Chosen: Panel>(bench: &mut Bench<Chosen>, property: u8, value: u32) -> Answer {
    bench.frame(0x04, 0, &format!("{property:02X} {value:08X}"))
}

fn read<Chosen: Panel>(bench: &mut Bench<Chosen>, time: u64, property: u8) -> Answer {
    bench.frame(0x05, time, &format!("{property:02X}"))
}

mod of {
    use super::*;

    pub fn starts<Chosen: Panel>() {
        let started = |stations, outputs, fade, duration| {
            let parameters = Parameters {
                stations,
                outputs,
                fade,
                duration,
                tenants: 0,
            };
            match Chosen::start(parameters) {
                Ok(panel) => {
                    assert_eq!(panel.found().len(), outputs as usize);
                    DONE
                }
                Err(answer) => answer,
            }
        };
        for (at_ends, outside) in [
            (
                [(1, 1, 100, 100), (32, 1, 100, 100)],
                [(0, 1, 100, 100), (33, 1, 100, 100)],
            ),
            (
                [(1, 1, 100, 100), (1, 64, 100, 100)],
                [(1, 0, 100, 100), (1, 65, 100, 100)],
            ),
            (
                [(1, 1, 100, 100), (1, 1, FOUR_HOURS, 100)],
                [(1, 1, 99, 100), (1, 1, FOUR_HOURS + 1, 100)],
            ),
            (
                [(1, 1, 100, 100), (1, 1, 100, DAY)],
                [(1, 1, 100, 99), (1, 1, 100, DAY + 1)],
            ),
        ] {
            for (stations, outputs, fade, duration) in at_ends {
                assert_eq!(started(stations, outputs, fade, duration), DONE);
            }
            for (stations, outputs, fade, duration) in outside {
                let answer = started(stations, outputs, fade, duration);
                assert_eq!(answer, Answer::Refused(17));
            }
        }
    }

    pub fn stations<Chosen: Panel>() {
        for stations in [1, 2, 3, 8, 30, 31, 32] {
            let mut bench = Bench::<Chosen>::with(set(stations, FOUR_HOURS, DAY));
            let mut of = |station: u32| {
                bench.bytes(&format!("05 {station:02X} 00000001 000000000000 00 0E"))
            };
            for station in 0..stations {
                assert_eq!(of(station), Answer::Value(0));
            }
            for station in [stations, stations + 1, 128, 255] {
                assert_eq!(of(station), Answer::Refused(4));
            }
        }
    }

    pub fn fade_times<Chosen: Panel>() {
        for longest in FADES {
            // The other number is as far away as can be.
            for duration in [100, DAY] {
                let mut bench = Bench::<Chosen>::with(set(8, longest, duration));
                for (value, answer) in [
                    (99, REFUSED_12),
                    (100, DONE),
                    (longest, DONE),
                    (longest + 1, REFUSED_12),
                ] {
                    assert_eq!(write(&mut bench, 0x02, value), answer);
                    let plain = format!("{HALF} {value:08X} FFFFFFFF");
                    assert_eq!(bench.frame(0x12, 0, &plain), answer);
                    let tags = format!("09021C{HALF}{}", in_tag(4, value));
                    assert_eq!(bench.tagged(0, &tags), answer);
                }
            }
        }
    }

    pub fn durations<Chosen: Panel>() {
        for longest in DURATIONS {
            for fade in [100, FOUR_HOURS] {
                let mut bench = Bench::<Chosen>::with(set(8, fade, longest));
                for (value, answer) in [
                    (0, DONE),
                    (99, REFUSED_12),
                    (100, DONE),
                    (longest, DONE),
                    (longest + 1, REFUSED_12),
                ] {
                    for kind in [0x10, 0x15, 0x16, 0x1A] {
                        let plain = format!("{value:08X}");
                        assert_eq!(bench.frame(kind, 0, &plain), answer);
                    }
                    let plain = format!("{HALF} {value:08X}");
                    assert_eq!(bench.frame(0x19, 0, &plain), answer);
                    let tags = format!("090A{}", in_tag(5, value));
                    assert_eq!(bench.tagged(0, &tags), answer);
                }
                // Absent is no duration.
                assert_eq!(bench.frame(0x1A, 0, "FFFFFFFF"), DONE);
                assert_eq!(bench.tagged(0, "090A 5CFFFFFFFF"), REFUSED_12);
            }
        }
    }

    pub fn blink_times<Chosen: Panel>() {
        for (fade, duration) in [(100, 100), (100, DAY), (FOUR_HOURS, 100), (FOUR_HOURS, DAY)] {
            let mut bench = Bench::<Chosen>::with(set(8, fade, duration));
            for property in [0x06, 0x07] {
                for value in [0, 99, 101, DAY] {
                    assert_eq!(write(&mut bench, property, value), DONE);
                    assert_eq!(read(&mut bench, 0, property), Answer::Value(value));
                }
                assert_eq!(write(&mut bench, property, DAY + 1), REFUSED_12);
            }
        }
    }

    pub fn fresh_fade_times<Chosen: Panel>() {
        for longest in FADES {
            let mut bench = Bench::<Chosen>::with(set(8, longest, DAY));
            let fresh = longest.min(1_000);
            assert_eq!(read(&mut bench, 0, 0x02), Answer::Value(fresh));
            assert_eq!(bench.frame(0x11, 0, &format!("{HALF} FFFFFFFF")), DONE);
            let end = u64::from(fresh);
            assert_eq!(read(&mut bench, end - 1, 0x0E), Answer::Value(1));
            assert_eq!(read(&mut bench, end, 0x0E), Answer::Value(0));
        }
    }

    /// 0.125 percent a second, from 0 to 100 percent: 800,000 ms.
    pub fn slowest_ramp<Chosen: Panel>() {
        let mut bench = Bench::<Chosen>::with(set(8, 100, 100));
        assert_eq!(bench.frame(0x14, 0, "42C80000 3E000000 FFFFFFFF"), DONE);
        // At half of the way: 50 percent.
        assert_eq!(read(&mut bench, 400_000, 0x0D), Answer::Value(0x4248_0000));
        assert_eq!(read(&mut bench, 799_999, 0x0E), Answer::Value(1));
        // 6,553,591 units of 6,553,600.
        let almost = (6_553_591_f32 / 65_536.0).to_bits();
        assert_eq!(read(&mut bench, 799_999, 0x0D), Answer::Value(almost));
        assert_eq!(read(&mut bench, 800_000, 0x0E), Answer::Value(0));
        assert_eq!(read(&mut bench, 800_000, 0x0D), Answer::Value(0x42C8_0000));
        assert_eq!(bench.found().present_value, 6_553_600);
    }

    /// A hotel: thirty stations, all of them with numbers of their own, and
    /// frames that come again.
    pub fn copies<Chosen: Panel>() {
        let mut bench = Bench::<Chosen>::with(set(30, FOUR_HOURS, DAY));
        let step = |station: u32| {
            let number = 31 - station;
            format!("17 {station:02X} {number:08X} 000000000000 00 3F800000 FFFFFFFF")
        };
        for station in 0..30 {
            assert_eq!(bench.bytes(&step(station)), DONE);
        }
        for station in (0..30).rev() {
            assert_eq!(bench.bytes(&step(station)), DONE);
        }
        assert_eq!(bench.found().present_value, 30 * 65_536);
    }
}
