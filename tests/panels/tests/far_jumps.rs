//! Jumps of 2^32 ms and more out of a movement (§4), on both panels.

#[macro_use]
mod bench;

use bench::Bench;
use panels::{Answer, Panel};

on_both_panels! {
    a_fade_is_over_after_a_far_jump
    a_ramp_is_over_after_a_far_jump
    a_fall_to_zero_burns_to_its_end_alone
    a_command_starts_from_the_target
    a_fade_goes_on_where_the_low_bits_begin_anew
    four_hours_late_in_the_panels_time
}

const ABSENT: &str = "FFFFFFFF";
const TWO_TO_32: u64 = 1 << 32;

/// From the start of a movement of 1,000 ms.
const JUMPS: [u64; 8] = [
    1 << 31,
    TWO_TO_32 - 1,
    TWO_TO_32,
    TWO_TO_32 + 1,
    TWO_TO_32 + 5,
    TWO_TO_32 + 999,
    TWO_TO_32 + 1_000,
    1 << 40,
];

impl<Chosen: Panel> Bench<Chosen> {
    /// In slot 16, and without a movement.
    fn goto(&mut self, time: u64, level: &str) {
        let answer = self.frame(0x19, time, &format!("{level} {ABSENT}"));
        assert_eq!(answer, Answer::Done);
    }

    /// Fades over 1,000 ms.
    fn fade(&mut self, time: u64, level: &str) {
        let answer = self.frame(0x12, time, &format!("{level} 000003E8 {ABSENT}"));
        assert_eq!(answer, Answer::Done);
    }
}

fn a_fade_is_over_after_a_far_jump<Chosen: Panel>(mut bench: Bench<Chosen>) {
    let (mut start, mut burning) = (0, 0);
    for jump in JUMPS {
        for looked_at in [0_u64, 400] {
            bench.goto(start, "00000000");
            bench.fade(start, "42480000");
            // Dark in its first millisecond.
            let level = 3_276_800 * looked_at / 1_000;
            let lit = looked_at.saturating_sub(1);
            bench.moves(start + looked_at, (true, level as u32, burning + lit));
            burning += jump - 1;
            bench.moves(start + jump, (false, 3_276_800, burning));
            start += jump;
        }
    }
}

/// 100 percent a second.
fn a_ramp_is_over_after_a_far_jump<Chosen: Panel>(mut bench: Bench<Chosen>) {
    let mut start = 0;
    for jump in JUMPS {
        bench.goto(start, "42C80000");
        let fields = format!("00000000 42C80000 {ABSENT}");
        assert_eq!(bench.frame(0x14, start, &fields), Answer::Done);
        let read =
            |bench: &mut Bench<Chosen>, time, property: &str| bench.frame(0x05, time, property);
        assert_eq!(read(&mut bench, start + 999, "0E"), Answer::Value(1));
        start += jump;
        // In_Process is read by the frame that makes the jump.
        assert_eq!(read(&mut bench, start, "0E"), Answer::Value(0));
        assert_eq!(read(&mut bench, start, "0D"), Answer::Value(0));
    }
}

fn a_fall_to_zero_burns_to_its_end_alone<Chosen: Panel>(mut bench: Bench<Chosen>) {
    let (mut start, mut burning) = (0, 0);
    for jump in JUMPS {
        bench.goto(start, "42480000");
        bench.fade(start, "00000000");
        burning += 1_000;
        start += jump;
        bench.moves(start, (false, 0, burning));
    }
}

/// STOP finds no movement, and a step goes from the target.
fn a_command_starts_from_the_target<Chosen: Panel>(mut bench: Bench<Chosen>) {
    let mut start = 0;
    for jump in JUMPS {
        bench.goto(start, "00000000");
        bench.fade(start, "42480000");
        start += jump;
        assert_eq!(bench.frame(0x10, start, ABSENT), Answer::Done);
        assert_eq!(bench.found().present_value, 3_276_800);
        bench.fade(start, "42C80000");
        start += jump;
        assert_eq!(bench.frame(0x16, start, ABSENT), Answer::Done);
        assert_eq!(bench.found().present_value, 95 * 65_536);
    }
}

fn a_fade_goes_on_where_the_low_bits_begin_anew<Chosen: Panel>(mut bench: Bench<Chosen>) {
    for high in [1, 1 << 8, (1 << 16) - 1] {
        let start = high * TWO_TO_32 - 500;
        bench.goto(start, "00000000");
        assert_eq!(bench.frame(0x04, start, "0B 00000000"), Answer::Done);
        bench.fade(start, "42480000");
        for (time, expected) in [
            (start + 499, (true, 1_635_123, 498)),
            (start + 500, (true, 1_638_400, 499)),
            (start + 501, (true, 1_641_676, 500)),
            (start + 999, (true, 3_273_523, 998)),
            (start + 1_000, (false, 3_276_800, 999)),
        ] {
            bench.moves(time, expected);
        }
    }
}

/// The longest fade, and as late as it can be lived to its end.
fn four_hours_late_in_the_panels_time<Chosen: Panel>(mut bench: Bench<Chosen>) {
    let start = (1 << 48) - 1 - 14_400_000;
    bench.goto(start, "00000000");
    let fields = format!("42C80000 00DBBA00 {ABSENT}");
    assert_eq!(bench.frame(0x12, start, &fields), Answer::Done);
    bench.moves(start + 7_200_000, (true, 3_276_800, 7_199_997));
    bench.moves(start + 14_399_999, (true, 6_553_599, 14_399_996));
    bench.moves(start + 14_400_000, (false, 6_553_600, 14_399_997));
}
