//! Halves go to the even unit (§5), on both panels.

#[macro_use]
mod bench;

use bench::Bench;
use panels::{Answer, Panel};

on_both_panels! {
    slots
    levels_of_commands
    levels_of_properties
    levels_below_one_percent
    ranges_are_judged_before_rounding
    minimum_and_maximum_are_compared_in_units
    relay_values_are_compared_in_units
    rates
    a_ramp_ends_by_its_rounded_rate
    steps
    reals_are_kept_as_written
}

/// REALs at ties and one pattern beside them, and the units they become.
const ROUNDED: [(u32, u32); 18] = [
    (0x3F80_003F, 65_536),
    (0x3F80_0040, 65_536),
    (0x3F80_0041, 65_537),
    (0x3F80_00BF, 65_537),
    (0x3F80_00C0, 65_538),
    (0x3F80_00C1, 65_538),
    (0x4248_0001, 3_276_800),
    (0x4248_0002, 3_276_800),
    (0x4248_0003, 3_276_801),
    (0x4248_0006, 3_276_802),
    // The last tie below 64 percent, and those from there on.
    (0x427F_FFFD, 4_194_303),
    (0x427F_FFFE, 4_194_304),
    (0x4280_0001, 4_194_304),
    (0x4280_0002, 4_194_305),
    (0x4280_0003, 4_194_306),
    // The last unit below 100 percent, and the ties on either side of it.
    (0x42C7_FFFD, 6_553_598),
    (0x42C7_FFFE, 6_553_599),
    (0x42C7_FFFF, 6_553_600),
];

/// Half a unit and less, one and a half, two and a half, 65,534 and a half,
/// 65,535 and a half, and the last REAL below 1.
const RAISED: [u32; 8] = [
    0x0000_0001,
    0x36FF_FFFF,
    0x3700_0000,
    0x37C0_0000,
    0x3820_0000,
    0x3F7F_FE80,
    0x3F7F_FF80,
    0x3F7F_FFFF,
];

/// 3,276,800 units, the tie above it, and what comes after that.
const EVEN: u32 = 0x4248_0000;
const QUARTER_ABOVE: u32 = 0x4248_0001;
const TIE_ABOVE_EVEN: u32 = 0x4248_0002;
const ODD: u32 = 0x4248_0004;
const TIE_ABOVE_ODD: u32 = 0x4248_0006;
const NEXT_EVEN: u32 = 0x4248_0008;

const ONE: u32 = 0x3F80_0000;
const HUNDRED: u32 = 0x42C8_0000;

/// A property and the REAL for it.
type Written = (u8, u32);

impl<Chosen: Panel> Bench<Chosen> {
    fn set(&mut self, property: u8, value: u32) -> Answer {
        self.frame(0x04, 0, &format!("{property:02X} {value:08X}"))
    }

    fn read(&mut self, property: u8) -> Answer {
        self.frame(0x05, 0, &format!("{property:02X}"))
    }

    /// Min and Max, and the relay's two values, as far apart as can be.
    fn widen(&mut self) {
        for (property, value) in [(0x09, HUNDRED), (0x08, ONE), (0x17, HUNDRED), (0x18, 0)] {
            assert_eq!(self.set(property, value), Answer::Done);
        }
    }

    /// A level that a property reads after it was written, in units.
    fn set_and_read(&mut self, property: u8, value: u32) -> u32 {
        self.widen();
        assert_eq!(self.set(property, value), Answer::Done, "{value:08X}");
        match self.read(property) {
            Answer::Value(bits) => (f32::from_bits(bits) * 65_536.0) as u32,
            other => panic!("{other}"),
        }
    }

    /// Two properties one after the other, and the answer to the second write.
    fn compares(&mut self, cases: &[(Written, Written, Answer)]) {
        for (first, second, answer) in cases {
            self.widen();
            assert_eq!(self.set(first.0, first.1), Answer::Done);
            let answered = self.set(second.0, second.1);
            assert_eq!(answered, *answer, "{first:X?}, {second:X?}");
        }
    }

    /// What slot 16 holds after a frame.
    fn slot_after(&mut self, kind: u8, time: u64, rest: &str) -> u32 {
        assert_eq!(self.frame(kind, time, rest), Answer::Done, "{rest}");
        self.found().slots[15].expect("slot 16 is live")
    }

    fn goto(&mut self, time: u64, units: u32) {
        let level = (units as f32 / 65_536.0).to_bits();
        let reached = self.slot_after(0x19, time, &format!("{level:08X} FFFFFFFF"));
        assert_eq!(reached, units);
    }
}

fn slots<Chosen: Panel>(mut bench: Bench<Chosen>) {
    for (real, units) in ROUNDED {
        let stored = bench.slot_after(0x02, 0, &format!("10 {real:08X}"));
        assert_eq!(stored, units, "{real:08X}");
    }
}

/// Each command with a level, in its plain form and in tags.
fn commands(level: u32) -> [(u8, String); 10] {
    let tagged = |length: usize, tags: String| {
        let padding = "00".repeat(17 - length);
        (0x1B, format!("{length:02X} {tags} {padding}"))
    };
    [
        (0x11, format!("{level:08X} FFFFFFFF")),
        (0x12, format!("{level:08X} 000003E8 FFFFFFFF")),
        (0x13, format!("{level:08X} FFFFFFFF")),
        (0x14, format!("{level:08X} 41200000 FFFFFFFF")),
        (0x19, format!("{level:08X} FFFFFFFF")),
        tagged(7, format!("0901 1C{level:08X}")),
        tagged(10, format!("0902 1C{level:08X} 4A03E8")),
        tagged(7, format!("0903 1C{level:08X}")),
        tagged(12, format!("0904 1C{level:08X} 2C41200000")),
        tagged(7, format!("0909 1C{level:08X}")),
    ]
}

fn levels_of_commands<Chosen: Panel>(mut bench: Bench<Chosen>) {
    for (real, units) in ROUNDED {
        for (kind, rest) in commands(real) {
            assert_eq!(bench.slot_after(kind, 0, &rest), units, "{rest}");
        }
    }
}

fn levels_of_properties<Chosen: Panel>(mut bench: Bench<Chosen>) {
    for (real, units) in ROUNDED {
        for property in [0x01, 0x08, 0x09, 0x17] {
            assert_eq!(bench.set_and_read(property, real), units, "{real:08X}");
        }
        // No inactive value is 100 percent.
        if units < 6_553_600 {
            assert_eq!(bench.set_and_read(0x18, real), units, "{real:08X}");
        }
    }
}

fn levels_below_one_percent<Chosen: Panel>(mut bench: Bench<Chosen>) {
    for real in RAISED {
        let stored = bench.slot_after(0x02, 0, &format!("10 {real:08X}"));
        assert_eq!(stored, 65_536, "{real:08X}");
        for (kind, rest) in commands(real) {
            assert_eq!(bench.slot_after(kind, 0, &rest), 65_536, "{rest}");
        }
        for property in [0x01, 0x17, 0x18] {
            assert_eq!(bench.set_and_read(property, real), 65_536, "{real:08X}");
        }
    }
}

/// 42C80001 would become 6,553,600, 3F7FFF80 65,536, and 3DFFFFFF 8,192.
fn ranges_are_judged_before_rounding<Chosen: Panel>(mut bench: Bench<Chosen>) {
    let refused = Answer::Refused(11);
    assert_eq!(bench.frame(0x02, 0, "10 42C80001"), refused);
    for (kind, rest) in commands(0x42C8_0001) {
        assert_eq!(bench.frame(kind, 0, &rest), refused);
    }
    for property in [0x01, 0x03, 0x04, 0x08, 0x09, 0x17, 0x18] {
        assert_eq!(bench.set(property, 0x42C8_0001), refused);
    }
    for bound in [0x08, 0x09] {
        assert_eq!(bench.set(bound, 0x3F7F_FF80), refused);
    }
    for setting in [0x03, 0x04] {
        assert_eq!(bench.set(setting, 0x3DFF_FFFF), refused);
        assert_eq!(bench.set(setting, 0x3E00_0000), Answer::Done);
    }
}

fn minimum_and_maximum_are_compared_in_units<Chosen: Panel>(mut bench: Bench<Chosen>) {
    let (done, refused) = (Answer::Done, Answer::Refused(13));
    bench.compares(&[
        // Min's REAL is above Max's, and both are one unit.
        ((0x09, EVEN), (0x08, QUARTER_ABOVE), done),
        // Refused if halves went up.
        ((0x09, EVEN), (0x08, TIE_ABOVE_EVEN), done),
        ((0x08, TIE_ABOVE_EVEN), (0x09, EVEN), done),
        // Taken if halves went up.
        ((0x08, ODD), (0x09, TIE_ABOVE_EVEN), refused),
        ((0x09, TIE_ABOVE_EVEN), (0x08, ODD), refused),
        // Refused and taken, whether halves go up or to the even unit.
        ((0x09, ODD), (0x08, TIE_ABOVE_ODD), refused),
        ((0x08, TIE_ABOVE_ODD), (0x09, ODD), refused),
        ((0x08, NEXT_EVEN), (0x09, TIE_ABOVE_ODD), done),
        ((0x09, TIE_ABOVE_EVEN), (0x08, TIE_ABOVE_EVEN), done),
    ]);
}

fn relay_values_are_compared_in_units<Chosen: Panel>(mut bench: Bench<Chosen>) {
    let (done, refused) = (Answer::Done, Answer::Refused(16));
    bench.compares(&[
        // Taken if halves went up.
        ((0x18, EVEN), (0x17, TIE_ABOVE_EVEN), refused),
        ((0x17, TIE_ABOVE_EVEN), (0x18, EVEN), refused),
        // Refused if halves went up.
        ((0x17, ODD), (0x18, TIE_ABOVE_EVEN), done),
        ((0x18, TIE_ABOVE_EVEN), (0x17, ODD), done),
        // Taken and refused, whether halves go up or to the even unit.
        ((0x18, ODD), (0x17, TIE_ABOVE_ODD), done),
        ((0x17, NEXT_EVEN), (0x18, TIE_ABOVE_ODD), refused),
        ((0x18, TIE_ABOVE_EVEN), (0x17, TIE_ABOVE_EVEN), refused),
    ]);
}

/// In a second a ramp goes as many units as its rate has.
fn rates<Chosen: Panel>(mut bench: Bench<Chosen>) {
    let below_one = [
        (0x3E00_0000, 8_192),
        (0x3E00_0200, 8_192),
        (0x3E00_0201, 8_193),
        (0x3E00_0600, 8_194),
        (0x3F7F_FE80, 65_534),
        (0x3F7F_FF80, 65_536),
    ];
    let mut time = 0;
    for (rate, units) in below_one.into_iter().chain(ROUNDED) {
        for of_setting in [false, true] {
            bench.goto(time, 0);
            if of_setting {
                let rest = format!("03 {rate:08X}");
                assert_eq!(bench.frame(0x04, time, &rest), Answer::Done);
                bench.slot_after(0x13, time, "42C80000 FFFFFFFF");
            } else {
                bench.slot_after(0x14, time, &format!("42C80000 {rate:08X} FFFFFFFF"));
            }
            time += 1_000;
            bench.clock(time);
            assert_eq!(bench.found().progress_value, units, "{rate:08X}");
        }
    }
}

/// At 65,536 units a second all of the way takes 100,000 ms, and at 65,537
/// 99,999.
fn a_ramp_ends_by_its_rounded_rate<Chosen: Panel>(mut bench: Bench<Chosen>) {
    for (start, rate, last) in [
        (0, "3F800040", 99_999),
        (1_000_000, "3F800041", 99_998),
        (2_000_000, "42C7FFFD", 1_000),
        (3_000_000, "42C7FFFF", 999),
    ] {
        bench.goto(start, 0);
        bench.slot_after(0x14, start, &format!("42C80000 {rate} FFFFFFFF"));
        bench.clock(start + last);
        assert!(bench.found().in_process, "{rate}");
        bench.clock(start + last + 1);
        assert!(!bench.found().in_process, "{rate}");
    }
}

/// From an even and from an odd level: it is the step that is rounded, and not
/// where it leads.
fn steps<Chosen: Panel>(mut bench: Bench<Chosen>) {
    for (step, units) in [
        (0x3E00_0200, 8_192),
        (0x3E00_0600, 8_194),
        (0x3F7F_FE80, 65_534),
        (0x3F80_0040, 65_536),
        (0x3F80_00BF, 65_537),
        (0x3F80_00C0, 65_538),
        (0x4248_0002, 3_276_800),
        (0x4248_0006, 3_276_802),
    ] {
        for from in [3_000_000, 3_000_001] {
            let down_from = from + units;
            for (kind, rest) in [
                (0x17, format!("{step:08X} FFFFFFFF")),
                (0x15, "FFFFFFFF".into()),
            ] {
                assert_eq!(bench.set(0x04, step), Answer::Done);
                bench.goto(0, from);
                assert_eq!(bench.slot_after(kind, 0, &rest), from + units, "{rest}");
                bench.goto(0, down_from);
                assert_eq!(bench.slot_after(kind + 1, 0, &rest), from, "{rest}");
            }
        }
    }
}

fn reals_are_kept_as_written<Chosen: Panel>(mut bench: Bench<Chosen>) {
    for (real, _) in ROUNDED {
        for property in [0x03, 0x04] {
            assert_eq!(bench.set(property, real), Answer::Done);
            assert_eq!(bench.read(property), Answer::Value(real));
        }
        bench.slot_after(0x14, 0, &format!("{real:08X} {real:08X} FFFFFFFF"));
        assert_eq!(bench.read(0x10), Answer::Value(real));
        assert_eq!(bench.read(0x11), Answer::Value(real));
        bench.slot_after(0x17, 0, &format!("{real:08X} FFFFFFFF"));
        assert_eq!(bench.read(0x12), Answer::Value(real));
    }
    // What is raised too.
    for real in RAISED {
        bench.slot_after(0x19, 0, &format!("{real:08X} FFFFFFFF"));
        assert_eq!(bench.read(0x10), Answer::Value(real));
    }
}
