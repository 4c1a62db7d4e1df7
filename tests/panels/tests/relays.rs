//! Binary relays on a lighting output (§3), on both panels.

#[macro_use]
mod bench;

use bench::Bench;
use panels::lent_warning::lent_warnings;
use panels::{Answer, FastPanel, Panel};

on_both_panels! {
    a_fresh_relay
    at_the_two_values_and_beside_them
    between_the_values_it_stays
    present_value_turns_it_and_not_the_light
    values_written_across_what_is_shown
    bounds_and_default
    the_inactive_value_is_below_the_active_one
    sixteen_leaves_what_thirteen_leaves
    polarity
    a_blink
    turned_on_the_way
}

const ABSENT: &str = "FFFFFFFF";
const FORTY: &str = "42200000";
const FORTY_SEVEN: &str = "423C0000";
const SIXTY: &str = "42700000";

impl<Chosen: Panel> Bench<Chosen> {
    fn property(&mut self, time: u64, property: u8, value: &str) -> Answer {
        self.frame(0x04, time, &format!("{property:02X} {value}"))
    }

    /// GOTO a level, in slot 16.
    fn goto(&mut self, time: u64, level: &str) {
        let answer = self.frame(0x19, time, &format!("{level} {ABSENT}"));
        assert_eq!(answer, Answer::Done);
    }

    /// Whether Binary_Present_Value is active, by reading it.
    fn is_active(&mut self, time: u64) -> bool {
        let answer = self.frame(0x05, time, "1A");
        assert!(matches!(answer, Answer::Value(0 | 1)), "{answer}");
        answer == Answer::Value(1)
    }

    fn goes(&mut self, level: &str, active: bool) {
        self.goto(0, level);
        assert_eq!(self.is_active(0), active, "{level}");
    }

    /// Binary_Present_Value at moments one after the other.
    fn turns(&mut self, moments: &[(u64, bool)]) {
        for (time, active) in moments {
            assert_eq!(self.is_active(*time), *active, "at {time}");
        }
    }

    /// A warning of slot 16 at time 0, after Y was shown.
    fn warn(&mut self, level: &str, dark: &str, lit: &str) {
        for (property, value) in [(0x05, "00000001"), (0x06, dark), (0x07, lit)] {
            assert_eq!(self.property(0, property, value), Answer::Done);
        }
        self.goto(0, level);
        assert_eq!(self.frame(0x02, 0, "10 00000000"), Answer::Done);
    }
}

fn a_fresh_relay<Chosen: Panel>(mut bench: Bench<Chosen>) {
    for (property, value) in [
        (0x17, 0x4248_0000),
        (0x18, 0x4234_0000),
        (0x19, 0),
        (0x1A, 0),
        (0x1B, 0),
    ] {
        let answer = bench.frame(0x05, 0, &format!("{property:02X}"));
        assert_eq!(answer, Answer::Value(value));
    }
    for property in [0x15, 0x16, 0x1A, 0x1B, 0x1C] {
        let answer = bench.property(0, property, "00000000");
        assert_eq!(answer, Answer::Refused(9));
    }
    for property in ["15", "16", "1C", "20"] {
        assert_eq!(bench.frame(0x05, 0, property), Answer::Refused(9));
    }
}

/// 3,276,800 and 2,949,120 units.
fn at_the_two_values_and_beside_them<Chosen: Panel>(mut bench: Bench<Chosen>) {
    bench.goes("4247FFFC", false);
    bench.goes("42480000", true);
    bench.goes("42480004", true);
    bench.goes("42340004", true);
    bench.goes("42340000", false);
    bench.goes("42480000", true);
    bench.goes("4233FFFC", false);
}

fn between_the_values_it_stays<Chosen: Panel>(mut bench: Bench<Chosen>) {
    bench.goes(FORTY_SEVEN, false);
    bench.goes(SIXTY, true);
    bench.goes(FORTY_SEVEN, true);
    bench.goes(FORTY, false);
    bench.goes(FORTY_SEVEN, false);
}

fn present_value_turns_it_and_not_the_light<Chosen: Panel>(mut bench: Bench<Chosen>) {
    bench.frame(0x12, 0, &format!("{SIXTY} 000003E8 {ABSENT}"));
    assert_eq!(bench.found().progress_value, 0);
    bench.turns(&[(0, true), (1, true)]);
    // A STOP brings Present_Value to what is reached: 30 percent.
    bench.frame(0x10, 500, ABSENT);
    bench.turns(&[(500, false)]);
    bench.goto(600, SIXTY);
    bench.frame(0x12, 600, &format!("00000000 000003E8 {ABSENT}"));
    bench.turns(&[(600, false)]);
}

fn values_written_across_what_is_shown<Chosen: Panel>(mut bench: Bench<Chosen>) {
    bench.goto(0, FORTY_SEVEN);
    assert_eq!(bench.property(0, 0x17, "423C0004"), Answer::Done);
    bench.turns(&[(0, false)]);
    assert_eq!(bench.property(0, 0x17, FORTY_SEVEN), Answer::Done);
    bench.turns(&[(0, true)]);
    assert_eq!(bench.property(0, 0x17, SIXTY), Answer::Done);
    bench.turns(&[(0, true)]);
    assert_eq!(bench.property(0, 0x18, "423BFFFC"), Answer::Done);
    bench.turns(&[(0, true)]);
    assert_eq!(bench.property(0, 0x18, FORTY_SEVEN), Answer::Done);
    bench.turns(&[(0, false)]);
}

fn bounds_and_default<Chosen: Panel>(mut bench: Bench<Chosen>) {
    bench.property(0, 0x01, SIXTY);
    bench.turns(&[(0, true)]);
    bench.property(0, 0x01, FORTY);
    bench.turns(&[(0, false)]);
    bench.property(0, 0x08, SIXTY);
    bench.turns(&[(0, true)]);
    bench.property(0, 0x08, FORTY);
    bench.turns(&[(0, false)]);
    bench.property(0, 0x01, SIXTY);
    bench.property(0, 0x09, FORTY);
    bench.turns(&[(0, false)]);
}

fn the_inactive_value_is_below_the_active_one<Chosen: Panel>(mut bench: Bench<Chosen>) {
    for (property, value, answer) in [
        // Equal, one unit below, and another REAL of the same unit.
        (0x17, "42340000", Answer::Refused(16)),
        (0x17, "4233FFFC", Answer::Refused(16)),
        (0x17, "42340001", Answer::Refused(16)),
        (0x17, "00000000", Answer::Refused(16)),
        (0x18, "42480000", Answer::Refused(16)),
        (0x18, "42480004", Answer::Refused(16)),
        (0x18, "4247FFFF", Answer::Refused(16)),
        (0x18, "42C80000", Answer::Refused(16)),
        (0x17, "42C80001", Answer::Refused(11)),
        (0x18, "7FC00000", Answer::Refused(11)),
        (0x18, "BF800000", Answer::Refused(11)),
        // A half goes to the even unit (§5): down to 45 percent, and up.
        (0x17, "42340002", Answer::Refused(16)),
        (0x17, "42340006", Answer::Done),
        (0x17, "42C80000", Answer::Done),
        (0x18, "80000000", Answer::Done),
        (0x17, "3F000000", Answer::Done),
        (0x18, "3F000000", Answer::Refused(16)),
        (0x18, "3F800000", Answer::Refused(16)),
    ] {
        assert_eq!(bench.property(0, property, value), answer, "{value}");
    }
    assert_eq!(bench.found().relay[..2], [0x3F80_0000, 0]);
}

/// The panel has moved, the station keeps number, frame and answer.
fn sixteen_leaves_what_thirteen_leaves<Chosen: Panel>(mut bench: Bench<Chosen>) {
    let refused = "04 00 00000001 000000000064 00 17 42340000";
    let other_bytes = "04 00 00000001 000000000064 00 17 42340001";
    let late = "05 01 00000001 000000000063 00 17";
    let before = bench.found();
    assert_eq!(bench.bytes(refused), Answer::Refused(16));
    assert_eq!(bench.found(), before);
    assert_eq!(bench.bytes(late), Answer::Refused(8));
    assert_eq!(bench.bytes(refused), Answer::Refused(16));
    assert_eq!(bench.bytes(other_bytes), Answer::Refused(6));
}

fn polarity<Chosen: Panel>(mut bench: Bench<Chosen>) {
    bench.goto(0, SIXTY);
    for (reverse, state) in [("00000001", 0), ("00000000", 1), ("00000001", 0)] {
        assert_eq!(bench.property(0, 0x19, reverse), Answer::Done);
        assert_eq!(bench.frame(0x05, 0, "1A"), Answer::Value(1));
        assert_eq!(bench.frame(0x05, 0, "1B"), Answer::Value(state));
    }
    for wrong in ["00000002", "FFFFFFFF"] {
        assert_eq!(bench.property(0, 0x19, wrong), Answer::Refused(12));
    }
    bench.goto(0, FORTY);
    assert_eq!(bench.frame(0x05, 0, "1A"), Answer::Value(0));
    assert_eq!(bench.frame(0x05, 0, "1B"), Answer::Value(1));
}

fn a_blink<Chosen: Panel>(mut bench: Bench<Chosen>) {
    bench.warn(SIXTY, "00000064", "000000C8");
    bench.turns(&[
        (0, false),
        (99, false),
        (100, true),
        (299, true),
        (300, false),
    ]);
}

/// A clock goes over the warning's turn and its end, after which Present_Value
/// lies between the two values.
fn turned_on_the_way<Chosen: Panel>(mut bench: Bench<Chosen>) {
    bench.warn(SIXTY, "00000064", "000000C8");
    bench.property(0, 0x01, FORTY_SEVEN);
    bench.turns(&[(0, false), (1_000, true)]);
}

#[test]
fn a_lent_warning_is_judged_once() {
    for lent in lent_warnings() {
        let active = FastPanel::active_of_lent(&lent);
        assert_eq!(active, lent.active_lived(), "{lent:?}");
    }
}
