//! Burning time by the light itself (§2), on both panels.

#[macro_use]
mod bench;

use bench::Bench;
use panels::lent::{lent_movements, steps};
use panels::{Answer, FastPanel, Panel};

on_both_panels! {
    a_rise_is_dark_at_first
    a_ramp_is_dark_for_one_millisecond
    a_fall_is_lit_to_its_last_millisecond
    between_lit_levels_there_is_light
    a_stop_in_the_dark
    a_command_in_the_dark
    a_duration_that_ends_a_rise
    cleared_in_the_dark
    a_warning_goes_by_what_is_shown
}

const ABSENT: &str = "FFFFFFFF";

impl<Chosen: Panel> Bench<Chosen> {
    /// Burning time and Progress_Value at moments one after the other.
    fn burns(&mut self, moments: &[(u64, u64, u32)]) {
        for (time, burning, progress) in moments {
            self.clock(*time);
            let found = self.found();
            assert_eq!(
                (found.burning, found.progress_value),
                (*burning, *progress),
                "at {time}"
            );
        }
    }

    /// Brings the output to a level in slot 16.
    fn goto(&mut self, time: u64, level: &str) {
        assert_eq!(
            self.frame(0x19, time, &format!("{level} {ABSENT}")),
            Answer::Done
        );
    }

    /// FADE_TO_OVER one percent, as long as can be.
    fn fade_over_four_hours(&mut self, time: u64, duration: &str) {
        let fields = format!("3F800000 00DBBA00 {duration}");
        assert_eq!(self.frame(0x12, time, &fields), Answer::Done);
    }
}

/// 220 ms of a fade by one percent over four hours: one unit takes 219.7 ms.
fn a_rise_is_dark_at_first<Chosen: Panel>(mut bench: Bench<Chosen>) {
    bench.fade_over_four_hours(0, ABSENT);
    assert_eq!(bench.found().present_value, 65_536);
    bench.burns(&[
        (1, 0, 0),
        (219, 0, 0),
        (220, 0, 1),
        (221, 1, 1),
        (3_000, 2_780, 13),
        (14_399_999, 14_399_779, 65_535),
        (14_400_000, 14_399_780, 65_536),
        (14_400_001, 14_399_781, 65_536),
    ]);
}

fn a_ramp_is_dark_for_one_millisecond<Chosen: Panel>(mut bench: Bench<Chosen>) {
    bench.frame(0x14, 0, &format!("42C80000 3E000000 {ABSENT}"));
    bench.burns(&[(1, 0, 8), (2, 1, 16), (1_000, 999, 8_192)]);
}

fn a_fall_is_lit_to_its_last_millisecond<Chosen: Panel>(mut bench: Bench<Chosen>) {
    bench.goto(0, "42480000");
    bench.frame(0x12, 0, &format!("00000000 000003E8 {ABSENT}"));
    assert_eq!(bench.found().present_value, 0);
    bench.burns(&[(999, 999, 3_277), (1_000, 1_000, 0), (2_000, 1_000, 0)]);
    // Two thirds of a second for one percent.
    bench.goto(2_000, "3F800000");
    bench.frame(0x14, 2_000, &format!("00000000 3FC00000 {ABSENT}"));
    bench.burns(&[(2_666, 1_666, 66), (2_667, 1_667, 0), (2_668, 1_667, 0)]);
}

fn between_lit_levels_there_is_light<Chosen: Panel>(mut bench: Bench<Chosen>) {
    bench.goto(0, "42480000");
    bench.frame(0x12, 0, &format!("3F800000 000003E8 {ABSENT}"));
    bench.burns(&[
        (1, 1, 3_273_589),
        (1_000, 1_000, 65_536),
        (1_500, 1_500, 65_536),
    ]);
}

fn a_stop_in_the_dark<Chosen: Panel>(mut bench: Bench<Chosen>) {
    bench.fade_over_four_hours(0, ABSENT);
    bench.frame(0x10, 219, ABSENT);
    bench.burns(&[(5_000, 0, 0)]);
    // One millisecond later there is light, raised to Min.
    bench.fade_over_four_hours(5_000, ABSENT);
    bench.frame(0x10, 5_220, ABSENT);
    bench.burns(&[(5_220, 0, 65_536), (7_000, 1_780, 65_536)]);
}

/// It starts from Progress_Value, which is zero.
fn a_command_in_the_dark<Chosen: Panel>(mut bench: Bench<Chosen>) {
    bench.fade_over_four_hours(0, ABSENT);
    bench.fade_over_four_hours(100, ABSENT);
    bench.burns(&[(319, 0, 0), (320, 0, 1), (321, 1, 1)]);
    bench.goto(3_000, "00000000");
    bench.fade_over_four_hours(3_000, ABSENT);
    bench.frame(0x12, 3_100, &format!("00000000 000003E8 {ABSENT}"));
    assert!(!bench.found().in_process);
    bench.burns(&[(5_000, 2_680, 0)]);
}

/// The millisecond before counts by what was before the due moment.
fn a_duration_that_ends_a_rise<Chosen: Panel>(mut bench: Bench<Chosen>) {
    bench.frame(0x04, 0, "01 42480000");
    bench.goto(0, "00000000");
    bench.fade_over_four_hours(0, &format!("{:08X}", 221));
    bench.burns(&[(220, 0, 1), (221, 1, 3_276_800), (231, 11, 3_276_800)]);
    bench.goto(2_000, "00000000");
    bench.fade_over_four_hours(2_000, &format!("{:08X}", 200));
    bench.burns(&[
        (2_199, 1_780, 0),
        (2_200, 1_780, 3_276_800),
        (2_201, 1_781, 3_276_800),
    ]);
}

fn cleared_in_the_dark<Chosen: Panel>(mut bench: Bench<Chosen>) {
    bench.goto(0, "42480000");
    bench.goto(700, "00000000");
    bench.fade_over_four_hours(700, ABSENT);
    bench.burns(&[(800, 700, 0)]);
    assert_eq!(bench.frame(0x04, 850, "0B 00000000"), Answer::Done);
    // The light begins at 920.
    bench.burns(&[(920, 0, 1), (921, 1, 1)]);
    assert_eq!(bench.frame(0x05, 1_919, "0B"), Answer::Value(0));
    assert_eq!(bench.frame(0x05, 1_920, "0B"), Answer::Value(1));
}

fn a_warning_goes_by_what_is_shown<Chosen: Panel>(mut bench: Bench<Chosen>) {
    bench.frame(0x04, 0, "05 00000001");
    bench.frame(0x04, 0, "06 00000064");
    bench.frame(0x04, 0, "07 000000C8");
    // In the dark part of a rise Present_Value is above zero: it warns.
    bench.fade_over_four_hours(0, ABSENT);
    assert_eq!(bench.frame(0x02, 100, "10 00000000"), Answer::Done);
    bench.burns(&[(200, 0, 65_536), (300, 100, 65_536), (500, 200, 0)]);
}

#[test]
fn lent_movements_burn_by_their_levels() {
    for lent in lent_movements() {
        for steps in steps() {
            assert_eq!(
                FastPanel::burning_of_lent(&lent, &steps),
                lent.burning_lived(&steps),
                "{lent:?}"
            );
        }
    }
}
