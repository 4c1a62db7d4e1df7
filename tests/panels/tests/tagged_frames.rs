//! Tagged commands (§1) in the list: numbers, times, copies and refusals before
//! 14 and 15, on both panels.

#[macro_use]
mod bench;
#[path = "bench/tags.rs"]
mod tags;

use bench::Bench;
use panels::{Answer, Panel};
use tags::padded;

const DONE: Answer = Answer::Done;
const TAGGING: Answer = Answer::Refused(14);
const TAGGED_FIELD: Answer = Answer::Refused(15);

on_both_panels! {
    refused_frames_keep_number_and_time
    copies
    plain_and_tagged_under_one_number
    refusals_before
}

fn refused_frames_keep_number_and_time<Chosen: Panel>(mut bench: Bench<Chosen>) {
    bench.frame(0x19, 0, "42480000 FFFFFFFF");
    for (time, tags, refused) in [(1_000, "0A0000", TAGGING), (2_500, "0901", TAGGED_FIELD)] {
        let before = bench.found();
        assert_eq!(bench.tagged(time, tags), refused);
        // The panel has moved, and nothing else has changed.
        let mut after = bench.found();
        assert_eq!(after.burning, time);
        after.burning = before.burning;
        assert_eq!(after, before);
        let late = format!("01 {:012X}", time - 1);
        assert_eq!(bench.bytes(&late), Answer::Refused(8));
    }
    // The last number is taken, and so is the one before.
    let good = padded("0900");
    let last = format!("1B 00 00000003 0000000009C4 00 {good}");
    assert_eq!(bench.bytes(&last), Answer::Refused(6));
    let before = format!("1B 00 00000002 0000000009C4 00 {good}");
    assert_eq!(bench.bytes(&before), Answer::Refused(7));
}

fn copies<Chosen: Panel>(mut bench: Bench<Chosen>) {
    for (number, tags, answer) in [
        (1, "0907 3C41200000", DONE),
        (2, "0A0000", TAGGING),
        (3, "0901", TAGGED_FIELD),
        (4, "0901 1C7FC00000", Answer::Refused(11)),
    ] {
        let time = 100 * number;
        let body = padded(tags);
        let frame = format!("1B 02 {number:08X} {time:012X} 00 {body}");
        assert_eq!(bench.bytes(&frame), answer);
        bench.clock(time + 50);
        let found = bench.found();
        assert_eq!(bench.bytes(&frame), answer);
        // All 31 bytes count, the last one too.
        let other = format!("{}1", &frame[..frame.len() - 1]);
        assert_eq!(bench.bytes(&other), Answer::Refused(6));
        assert_eq!(bench.found(), found);
    }
}

fn plain_and_tagged_under_one_number<Chosen: Panel>(mut bench: Bench<Chosen>) {
    let step_up = ["15", "FFFFFFFF", "1B", &padded("0905")];
    let [plain, duration, tagged, tags] = step_up;
    let first = "00 00000001 000000000064 00";
    assert_eq!(bench.bytes(&format!("{plain} {first} {duration}")), DONE);
    let found = bench.found();
    let refused = Answer::Refused(6);
    assert_eq!(bench.bytes(&format!("{tagged} {first} {tags}")), refused);
    assert_eq!(bench.found(), found);
    let second = "00 00000002 000000000064 00";
    assert_eq!(bench.bytes(&format!("{tagged} {second} {tags}")), DONE);
    let found = bench.found();
    assert_eq!(
        bench.bytes(&format!("{plain} {second} {duration}")),
        refused
    );
    assert_eq!(bench.found(), found);
}

/// 2 to 8 come before 14.
fn refusals_before<Chosen: Panel>(mut bench: Bench<Chosen>) {
    let (good, bad) = (padded("0900"), padded("0A0000"));
    let mut answered = |head: &str, body: &str, refused: u8| {
        let answer = bench.bytes(&format!("1B {head} {body}"));
        assert_eq!(answer, Answer::Refused(refused), "{head} {body}");
    };
    let head = "00 00000001 000000000064 00";
    answered(head, &good[..good.len() - 2], 3);
    answered(head, &format!("{good} 00"), 3);
    answered("08 00000001 000000000064 00", &bad, 4);
    answered("00 00000000 000000000064 00", &bad, 4);
    answered("00 00000001 000000000064 01", &bad, 5);
    answered("00 00000005 000000000064 00", &bad, 14);
    answered("00 00000005 000000000064 00", &good, 6);
    answered("00 00000004 000000000064 00", &bad, 7);
    answered("00 00000006 000000000063 00", &bad, 8);
    answered("00 00000006 000000000064 00", &bad, 14);
}
