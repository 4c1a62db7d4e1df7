//! The paper's bench figures and traps, on both panels.

#[macro_use]
mod bench;

use bench::Bench;
use panels::{Answer, Panel};

impl<Chosen: Panel> Bench<Chosen> {
    /// The level in slot 16 after a write, or the refusal.
    fn level(&mut self, real: &str) -> Result<u32, Answer> {
        match self.frame(0x02, 0, &format!("10 {real}")) {
            Answer::Done => Ok(self.found().slots[15].expect("slot 16 was written")),
            refused => Err(refused),
        }
    }
}

on_both_panels! {
    levels
    fade_up
    fade_down
    ramps
    blink_warning
    copies
    times
    late_copy_of_refused_write
    step_down_from_dark
    fade_from_progress
    fresh_output
}

fn levels<Chosen: Panel>(mut bench: Bench<Chosen>) {
    assert_eq!(bench.level("42480000"), Ok(3_276_800));
    assert_eq!(bench.level("3F000000"), Ok(65_536));
    assert_eq!(bench.level("00000001"), Ok(65_536));
    assert_eq!(bench.level("80000000"), Ok(0));
    assert_eq!(bench.level("42C80000"), Ok(6_553_600));
    assert_eq!(bench.level("3F80003F"), Ok(65_536));
    // Figure 4 as §5 has it.
    assert_eq!(bench.level("3F800040"), Ok(65_536));
    assert_eq!(bench.level("3F8000C0"), Ok(65_538));
    for refused in ["42C80001", "BF800000", "7FC00000", "7F800000"] {
        assert_eq!(bench.level(refused), Err(Answer::Refused(11)));
    }
}

fn fade_up<Chosen: Panel>(mut bench: Bench<Chosen>) {
    assert_eq!(
        bench.frame(0x12, 0, "42480000 000003E8 FFFFFFFF"),
        Answer::Done
    );
    bench.clock(333);
    assert_eq!(bench.found().progress_value, 1_091_174);
    bench.clock(999);
    assert_eq!(bench.found().progress_value, 3_273_523);
    assert!(bench.found().in_process);
    bench.clock(1_000);
    assert_eq!(bench.found().progress_value, 3_276_800);
    assert!(!bench.found().in_process);
}

fn fade_down<Chosen: Panel>(mut bench: Bench<Chosen>) {
    bench.frame(0x19, 0, "42480000 FFFFFFFF");
    bench.frame(0x12, 0, "00000000 000003E8 FFFFFFFF");
    bench.clock(333);
    assert_eq!(bench.found().progress_value, 2_185_626);
}

fn ramps<Chosen: Panel>(mut bench: Bench<Chosen>) {
    bench.frame(0x14, 0, "3F800000 40400000 FFFFFFFF");
    bench.clock(333);
    assert_eq!(bench.found().progress_value, 65_470);
    assert!(bench.found().in_process);
    bench.clock(334);
    assert_eq!(bench.found().progress_value, 65_536);
    assert!(!bench.found().in_process);

    bench.frame(0x19, 1_000, "00000000 FFFFFFFF");
    bench.frame(0x14, 1_000, "42C80000 3E000000 FFFFFFFF");
    bench.clock(800_999);
    assert!(bench.found().in_process);
    bench.clock(801_000);
    assert!(!bench.found().in_process);
    assert_eq!(bench.found().progress_value, 6_553_600);
}

fn blink_warning<Chosen: Panel>(mut bench: Bench<Chosen>) {
    bench.frame(0x04, 0, "05 00000001");
    bench.frame(0x04, 0, &format!("06 {:08X}", 700));
    bench.frame(0x04, 0, &format!("07 {:08X}", 120_000));
    bench.frame(0x02, 0, "10 42480000");
    bench.frame(0x02, 1_000, "10 00000000");
    for (time, present_value) in [
        (1_000, 0),
        (1_699, 0),
        (1_700, 3_276_800),
        (121_699, 3_276_800),
        (121_700, 0),
    ] {
        bench.clock(time);
        assert_eq!(bench.found().present_value, present_value, "at {time}");
    }
    assert_eq!(bench.found().slots, [None; 16]);
    assert_eq!(bench.found().burning, 121_000);
}

fn copies<Chosen: Panel>(mut bench: Bench<Chosen>) {
    let frame = "02 02 00000001 0000000003E8 00 08 42480000";
    assert_eq!(bench.bytes(frame), Answer::Done);
    assert_eq!(bench.found().slots[7], Some(3_276_800));
    bench.clock(2_000);
    let found = bench.found();
    assert_eq!(bench.bytes(frame), Answer::Done);
    assert_eq!(bench.found(), found);
    let other = "02 02 00000001 0000000003E8 00 08 42480001";
    assert_eq!(bench.bytes(other), Answer::Refused(6));
    assert_eq!(bench.found(), found);
}

fn times<Chosen: Panel>(mut bench: Bench<Chosen>) {
    let refused = Answer::Refused(12);
    assert_eq!(bench.frame(0x12, 0, "42480000 00000063 FFFFFFFF"), refused);
    assert_eq!(
        bench.frame(0x12, 0, "42480000 00000064 FFFFFFFF"),
        Answer::Done
    );
    assert_eq!(bench.frame(0x10, 0, "05265C00"), Answer::Done);
    assert_eq!(bench.frame(0x10, 0, "05265C01"), refused);
    assert_eq!(bench.frame(0x10, 0, "00000000"), Answer::Done);
    assert_eq!(bench.found().last[5], Some(0));
}

/// "A late copy judged by its time before its number; a refused write leaving
/// its number free for a copy."
fn late_copy_of_refused_write<Chosen: Panel>(mut bench: Bench<Chosen>) {
    let frame = "02 00 00000001 000000000064 00 06 42480000";
    assert_eq!(bench.bytes(frame), Answer::Refused(10));
    bench.clock(5_000);
    assert_eq!(bench.bytes(frame), Answer::Refused(10));
    let good = "02 00 00000001 000000001388 00 07 42480000";
    assert_eq!(bench.bytes(good), Answer::Refused(6));
}

/// "Step down lighting a dark output at Min."
fn step_down_from_dark<Chosen: Panel>(mut bench: Bench<Chosen>) {
    bench.frame(0x16, 0, "FFFFFFFF");
    assert_eq!(bench.found().present_value, 0);
    assert_eq!(bench.found().slots[15], Some(0));
    bench.frame(0x19, 0, "40000000 FFFFFFFF");
    bench.frame(0x16, 0, "FFFFFFFF");
    assert_eq!(bench.found().present_value, 65_536);
}

/// "A fade started from Present_Value instead of Progress_Value; a duration
/// read in seconds."
fn fade_from_progress<Chosen: Panel>(mut bench: Bench<Chosen>) {
    bench.frame(0x12, 0, "42C80000 000003E8 FFFFFFFF");
    bench.frame(0x12, 500, "00000000 000003E8 000003E8");
    assert_eq!(bench.found().progress_value, 3_276_800);
    bench.clock(1_000);
    assert_eq!(bench.found().progress_value, 1_638_400);
    assert_eq!(bench.found().slots[15], Some(0));
    bench.clock(1_500);
    assert_eq!(bench.found().slots[15], None);
}

fn fresh_output<Chosen: Panel>(bench: Bench<Chosen>) {
    let text = "slots - - - - - - - - - - - - - - - -\n\
                pv 0\n\
                progress 0\n\
                inprocess 0\n\
                settings 00000000 000003E8 41200000 40A00000 00000000 \
                00000000 00000000 3F800000 42C80000 00000010\n\
                last 00000000 - - - - -\n\
                burning 0\n\
                tagged 0900\n\
                relay 42480000 42340000 00000000 00000000 00000000\n";
    assert_eq!(bench.found().to_string(), text);
}
