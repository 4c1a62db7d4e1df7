//! §7 by number, on both panels: "Four hours is the longest anyone fades."

#[macro_use]
mod bench;
#[path = "bench/tags.rs"]
mod tags;

use bench::Bench;
use panels::replay::replay;
use panels::{Answer, FastPanel, Panel, Parameters, PlainPanel};

on_both_panels! {
    starts
    fade_times_of_the_old_set
    fade_times_of_other_sets
    what_keeps_its_day
    another_refusal_first
    frames_that_never_arrive
    a_dawn
    a_dusk
}

const DONE: Answer = Answer::Done;
const REFUSED_12: Answer = Answer::Refused(12);

/// Whole numbers, as plain fields have them and as tag 4 and tag 5 have them.
const FOUR_HOURS_LESS_1: (&str, &str) = ("00DBB9FF", "BDBB9FF");
const FOUR_HOURS: (&str, &str) = ("00DBBA00", "BDBBA00");
const FOUR_HOURS_AND_1: (&str, &str) = ("00DBBA01", "BDBBA01");
const DAY: (&str, &str) = ("05265C00", "C05265C00");
const DAY_AND_1: (&str, &str) = ("05265C01", "C05265C01");

fn set(fade: u32, duration: u32) -> Parameters {
    Parameters {
        stations: 8,
        outputs: 1,
        fade,
        duration,
        tenants: 0,
    }
}

impl<Chosen: Panel> Bench<Chosen> {
    /// The same fade time in all three ways.
    fn fades(&mut self, (plain, tagged): (&str, &str), answer: Answer) {
        assert_eq!(self.frame(0x04, 0, &format!("02 {plain}")), answer);
        let fields = format!("42480000 {plain} FFFFFFFF");
        assert_eq!(self.frame(0x12, 0, &fields), answer);
        let tags = format!("0902 1C42480000 4{tagged}");
        assert_eq!(self.tagged(0, &tags), answer);
    }

    /// The same duration in both forms, and as both blink times.
    fn lasts(&mut self, (plain, tagged): (&str, &str), answer: Answer) {
        assert_eq!(self.frame(0x10, 0, plain), answer);
        assert_eq!(self.tagged(0, &format!("090A 5{tagged}")), answer);
        for property in ["06", "07"] {
            assert_eq!(self.frame(0x04, 0, &format!("{property} {plain}")), answer);
        }
    }
}

/// "That becomes the greatest value of the longest fade parameter ... that
/// parameter 17." The longest duration keeps its range.
fn starts<Chosen: Panel>(_: Bench<Chosen>) {
    let started = |fade, duration| match Chosen::start(set(fade, duration)) {
        Ok(_) => DONE,
        Err(answer) => answer,
    };
    for fade in [100, 14_399_999, 14_400_000] {
        for duration in [100, 14_400_000, 14_400_001, 86_400_000] {
            assert_eq!(started(fade, duration), DONE);
        }
        assert_eq!(started(fade, 86_400_001), Answer::Refused(17));
    }
    for fade in [14_400_001, 14_400_002, 86_399_999, 86_400_000, 86_400_001] {
        for duration in [100, 14_400_000, 86_400_000] {
            assert_eq!(started(fade, duration), Answer::Refused(17));
        }
    }
}

/// "A fade time of 14,400,001 now meets 12."
fn fade_times_of_the_old_set<Chosen: Panel>(mut bench: Bench<Chosen>) {
    bench.fades(FOUR_HOURS_LESS_1, DONE);
    bench.fades(FOUR_HOURS, DONE);
    let found = bench.found();
    bench.fades(FOUR_HOURS_AND_1, REFUSED_12);
    bench.fades(DAY, REFUSED_12);
    bench.fades(DAY_AND_1, REFUSED_12);
    assert_eq!(bench.found(), found);
}

fn fade_times_of_other_sets<Chosen: Panel>(_: Bench<Chosen>) {
    let mut bench = Bench::<Chosen>::with(set(14_399_999, 86_400_000));
    bench.fades(FOUR_HOURS_LESS_1, DONE);
    bench.fades(FOUR_HOURS, REFUSED_12);
    let mut bench = Bench::<Chosen>::with(set(800_000, 86_400_000));
    for refused in [FOUR_HOURS_LESS_1, FOUR_HOURS, FOUR_HOURS_AND_1, DAY] {
        bench.fades(refused, REFUSED_12);
    }
}

/// "The old panel's set now ends in 14,400,000, 86,400,000."
fn what_keeps_its_day<Chosen: Panel>(mut bench: Bench<Chosen>) {
    for taken in [FOUR_HOURS_LESS_1, FOUR_HOURS, FOUR_HOURS_AND_1, DAY] {
        bench.lasts(taken, DONE);
    }
    bench.lasts(DAY_AND_1, REFUSED_12);
}

/// 11 for the level; 14 and 15 for the tags; a bad duration is 12 as well.
fn another_refusal_first<Chosen: Panel>(mut bench: Bench<Chosen>) {
    for (fields, answer) in [
        ("BF800000 00DBBA01 FFFFFFFF", Answer::Refused(11)),
        ("7FC00000 05265C00 00000001", Answer::Refused(11)),
        ("42480000 00DBBA01 00000063", REFUSED_12),
        ("42480000 00DBBA01 00000064", REFUSED_12),
        ("42480000 00DBBA00 05265C01", REFUSED_12),
    ] {
        assert_eq!(bench.frame(0x12, 0, fields), answer, "{fields}");
    }
    for (tags, answer) in [
        ("0902 1C42C80001 4BDBBA01", Answer::Refused(11)),
        ("0902 1C42480000 4BDBBA01 00", Answer::Refused(14)),
        ("090B 1C42480000 4BDBBA01", Answer::Refused(14)),
        ("0902 4BDBBA01", Answer::Refused(15)),
        ("0901 1C42480000 4BDBBA01", Answer::Refused(15)),
        ("0902 1C42480000 4C00DBBA01", Answer::Refused(15)),
        ("0902 1C42480000 4BDBBA01 5963", REFUSED_12),
        ("0902 1C42480000 4BDBBA01 5964", REFUSED_12),
    ] {
        assert_eq!(bench.tagged(0, tags), answer, "{tags}");
    }
    assert_eq!(bench.found().last[0], Some(0));
}

/// A copy is answered as before; a lower number is 7 and a late frame 8.
fn frames_that_never_arrive<Chosen: Panel>(mut bench: Bench<Chosen>) {
    let frame =
        |number, time| format!("12 00 {number:08X} {time:012X} 00 42480000 00DBBA01 FFFFFFFF");
    assert_eq!(bench.bytes(&frame(2, 10)), REFUSED_12);
    bench.clock(20);
    assert_eq!(bench.bytes(&frame(2, 10)), REFUSED_12);
    assert_eq!(bench.bytes(&frame(2, 20)), Answer::Refused(6));
    assert_eq!(bench.bytes(&frame(1, 20)), Answer::Refused(7));
    assert_eq!(bench.bytes(&frame(3, 19)), Answer::Refused(8));
    assert_eq!(bench.bytes(&frame(3, 20)), REFUSED_12);
}

/// "The longest fade in our schedules, a dawn": from 0 to 100 percent, by
/// Fade_Time and by tag 4. One unit takes 2.2 ms.
fn a_dawn<Chosen: Panel>(mut bench: Bench<Chosen>) {
    assert_eq!(bench.frame(0x04, 0, "02 00DBBA00"), DONE);
    assert_eq!(bench.frame(0x11, 0, "42C80000 FFFFFFFF"), DONE);
    for (time, expected) in [
        (2, (true, 0, 0)),
        (3, (true, 1, 0)),
        (3_600_000, (true, 1_638_400, 3_599_997)),
        (7_200_000, (true, 3_276_800, 7_199_997)),
        (14_399_999, (true, 6_553_599, 14_399_996)),
        (14_400_000, (false, 6_553_600, 14_399_997)),
    ] {
        bench.moves(time, expected);
    }
    assert_eq!(bench.frame(0x19, 14_400_000, "00000000 00000000"), DONE);
    let tags = "0902 1C42C80000 4BDBBA00";
    assert_eq!(bench.tagged(14_400_000, tags), DONE);
    bench.moves(28_799_999, (true, 6_553_599, 28_799_993));
    bench.moves(28_800_000, (false, 6_553_600, 28_799_994));
}

/// The other way, lit to its last millisecond, with a duration of a day.
fn a_dusk<Chosen: Panel>(mut bench: Bench<Chosen>) {
    assert_eq!(bench.frame(0x19, 0, "42C80000 FFFFFFFF"), DONE);
    assert_eq!(bench.frame(0x12, 0, "00000000 00DBBA00 05265C00"), DONE);
    bench.moves(1, (true, 6_553_600, 1));
    bench.moves(14_399_999, (true, 1, 14_399_999));
    bench.moves(14_400_000, (false, 0, 14_400_000));
    bench.clock(86_399_999);
    assert_eq!(bench.found().slots[15], Some(0));
    bench.clock(86_400_000);
    assert_eq!(bench.found().slots[15], None);
}

/// A list that names its outputs alone: the longest fade is four hours, and the
/// longest duration a day.
#[test]
fn left_out_of_the_heading() {
    let frames = [
        "04 00 00000001 000000000000 00 02 00DBBA00",
        "04 00 00000002 000000000000 00 02 00DBBA01",
        "04 00 00000003 000000000000 00 02 05265C00",
        "10 00 00000004 000000000000 00 05265C00",
        "10 00 00000005 000000000000 00 05265C01",
    ];
    let answers = "Done\nRefused 12\nRefused 12\nDone\nRefused 12\n--\n";
    for heading in ["outputs 1", "outputs 1 fade 14400000 duration 86400000"] {
        let list = format!("{heading}\n{}\n", frames.join("\n"));
        let (mut plain, mut fast) = (Vec::new(), Vec::new());
        assert!(replay::<PlainPanel>(list.as_bytes(), &mut plain).unwrap());
        assert!(replay::<FastPanel>(list.as_bytes(), &mut fast).unwrap());
        assert_eq!(plain, fast);
        assert!(plain.starts_with(answers.as_bytes()), "{heading}");
    }
}
