//! Tagged commands (§1) by bodies that were worked out by hand, on both panels.

#[macro_use]
mod bench;
#[path = "bench/tags.rs"]
mod tags;

use bench::Bench;
use panels::{Answer, Found, Panel};
use tags::padded;

const DONE: Answer = Answer::Done;
const TAGGING: Answer = Answer::Refused(14);
const TAGGED_FIELD: Answer = Answer::Refused(15);

/// What the writer made of the last command.
fn written(found: &Found) -> String {
    let tagged = found.tagged.iter();
    tagged.map(|byte| format!("{byte:02X}")).collect()
}

impl<Chosen: Panel> Bench<Chosen> {
    /// Every one of these bodies, with commas between them, is answered so.
    fn all_answered(&mut self, expected: Answer, bodies: &str) {
        for tags in bodies.split(',') {
            assert_eq!(self.tagged(0, tags.trim()), expected, "{tags}");
        }
    }
}

on_both_panels! {
    each_operation
    no_other_bytes
    octets_of_whole_numbers
    length_and_padding_wrong
    tag_wrong
    tag_order_wrong
    tag_length_wrong
    operation_above_ten
    field_missing
    field_foreign
    tagging_before_fields
    both_before_ranges
    ranges
}

/// The tags, the plain kind and its body: they do the same, and the writer
/// makes the tags again.
fn each_operation<Chosen: Panel>(mut bench: Bench<Chosen>) {
    let without_duration = [
        ("0900", 0x10, ""),
        ("0901 1C42480000", 0x11, "42480000"),
        ("0902 1C42480000 4A03E8", 0x12, "42480000 000003E8"),
        ("0903 1C80000000", 0x13, "80000000"),
        ("0904 1C42C80000 2C40400000", 0x14, "42C80000 40400000"),
        ("0905", 0x15, ""),
        ("0906", 0x16, ""),
        ("0907 3C3E000000", 0x17, "3E000000"),
        ("0908 3C42C80000", 0x18, "42C80000"),
        ("0909 1C00000001", 0x19, "00000001"),
        ("090A", 0x1A, ""),
    ];
    let durations = [
        ("", "FFFFFFFF"),
        ("5900", "00000000"),
        ("5964", "00000064"),
        ("5A0100", "00000100"),
        ("5C05265C00", "05265C00"),
    ];
    let mut plain = Bench::<Chosen>::new();
    let mut time = 0;
    for (tags, kind, fields) in without_duration {
        for (tagged_duration, duration) in durations {
            // In the middle of what the one before began.
            time += 70;
            let tags = format!("{tags} {tagged_duration}");
            assert_eq!(bench.tagged(time, &tags), DONE, "{tags}");
            assert_eq!(
                plain.frame(kind, time, &format!("{fields} {duration}")),
                DONE
            );
            assert_eq!(written(&bench.found()), tags.replace(' ', ""));
            assert_eq!(bench.found(), plain.found(), "{tags}");
            // "Property 0F reads the operation", not 1B minus 10.
            let operation = u32::from(kind - 0x10);
            assert_eq!(bench.found().last[0], Some(operation));
        }
    }
}

/// "Reading what it made gives the command back, and no other bytes do": any
/// other byte in any place is refused, or it is what the writer makes.
fn no_other_bytes<Chosen: Panel>(_: Bench<Chosen>) {
    for tags in [
        "0900",
        "0905 5900",
        "0907 3C3E000000 5A0100",
        "0909 1C42480000",
        "0902 1C42480000 49FF 5B010000",
        "0904 1C42C80000 2C40400000 5C01000000",
    ] {
        let body = padded(tags).replace(' ', "");
        for place in (0..body.len()).step_by(2) {
            for byte in 0..=255 {
                let mut other = body.clone();
                other.replace_range(place..place + 2, &format!("{byte:02X}"));
                let mut bench = Bench::<Chosen>::new();
                if bench.frame(0x1B, 0, &other) == DONE {
                    let written = padded(&written(&bench.found()));
                    assert_eq!(other, written.replace(' ', ""));
                }
            }
        }
    }
}

/// Each number in as many octets as it needs, and in one more.
fn octets_of_whole_numbers<Chosen: Panel>(mut bench: Bench<Chosen>) {
    bench.all_answered(
        DONE,
        "0900 5900, 0900 59FF, 0900 5A0100, 0900 5AFFFF, 0900 5B010000, \
         0900 5BFFFFFF, 0900 5C01000000, 0902 1C00000000 49FF, \
         0902 1C00000000 4A0100, 0902 1C00000000 4B010000, \
         0902 1C00000000 4BDBBA00 5C01000000",
    );
    // In the fewest octets, and longer than anyone fades (§7).
    bench.all_answered(
        Answer::Refused(12),
        "0902 1C00000000 4BFFFFFF, 0902 1C00000000 4C01000000 5C01000000",
    );
    bench.all_answered(
        TAGGED_FIELD,
        "0900 5A0000, 0900 5A0064, 0900 5C00000064, 0900 5A00FF, 0900 5B000100, 0900 5B00FFFF, \
         0900 5C00010000, 0900 5C00FFFFFF, 0902 1C00000000 4A00FF, \
         0902 1C00000000 4B00FFFF, 0902 1C00000000 4C00FFFFFF, \
         0902 1C00000000 49FF 5A00FF, 0902 1C00000000 4A00FF 59FF",
    );
}

fn length_and_padding_wrong<Chosen: Panel>(mut bench: Bench<Chosen>) {
    let longest = "0904 1C42C80000 2C40400000 5C01000000";
    assert_eq!(bench.tagged(0, longest), DONE);
    for (length, tags) in [
        (0, ""),
        (0, "0900"),
        (1, "0900"),
        (1, "08"),
        // A byte inside L that looks like padding.
        (3, "0900"),
        (17, "0900"),
        (18, longest),
        (255, longest),
        (18, "0900"),
        (0x82, "0900"),
        // Bytes beyond L.
        (2, "0900 01"),
        (2, "0900 5964"),
        (2, "0900 000000000000000000000000000001"),
        (12, longest),
    ] {
        let tags = tags.replace(' ', "");
        let body = format!("{length:02X} {tags:0<34}");
        assert_eq!(bench.frame(0x1B, 0, &body), TAGGING, "{body}");
    }
}

/// A number above 5, or an application tag.
fn tag_wrong<Chosen: Panel>(mut bench: Bench<Chosen>) {
    bench.all_answered(
        TAGGING,
        "0900 6964, 0900 68, 0909 1C42480000 7964, 0900 F964",
    );
    // The number in the next octet, as clause 20.2 has it from 15 on.
    bench.all_answered(TAGGING, "F900 00");
    bench.all_answered(TAGGING, "0100, 2105, 0901 1442480000, 0900 5164");
}

fn tag_order_wrong<Chosen: Panel>(mut bench: Bench<Chosen>) {
    bench.all_answered(
        TAGGING,
        "0900 0900, 0905 0906, 1C42480000 0901, 5964 0900, \
         0904 2C40400000 1C42480000, 0902 49FF 1C42480000, 0901 5964 1C42480000, \
         0901 1C42480000 1C42480000, 0900 5964 5964, 0902 1C42480000 5964 49FF",
    );
}

/// The forms 5, 6 and 7 too, and content that runs past L.
fn tag_length_wrong<Chosen: Panel>(mut bench: Bench<Chosen>) {
    bench.all_answered(
        TAGGING,
        "0800, 0A0000, 0B000000, 0C00000000, 0D0100, 0E 00 0F, 0909 1842480000, \
         0909 1942, 0909 1A4248, 0909 1B424800, 0909 1D0442480000, \
         0909 1E42480000 1F, 0904 1C42480000 2B404000, 0907 3B3E0000, 0900 58, \
         0900 5D0164, 0900 5D0500, 0900 5E64 5F, 0902 1C42480000 48, \
         0902 1C42480000 4D0164, 0900 59, 0900 5A01, 0909 1C424800, 0909 1C",
    );
}

fn operation_above_ten<Chosen: Panel>(mut bench: Bench<Chosen>) {
    bench.all_answered(
        TAGGING,
        "090B, 090B 5964, 090B 1C42480000, 0910, 091A, 09FF, 0980",
    );
}

fn field_missing<Chosen: Panel>(mut bench: Bench<Chosen>) {
    bench.all_answered(
        TAGGED_FIELD,
        "0901, 0902 1C42480000, 0902 4A03E8, 0903 5964, 0904 1C42480000, \
         0904 2C40400000, 0907, 0908 5964, 0909",
    );
    // The operation itself.
    bench.all_answered(TAGGED_FIELD, "1C42480000, 5964, 49FF");
}

fn field_foreign<Chosen: Panel>(mut bench: Bench<Chosen>) {
    bench.all_answered(
        TAGGED_FIELD,
        "0900 1C42480000, 0901 1C42480000 2C40400000, 0901 1C42480000 3C40400000, \
         0901 1C42480000 4A03E8, 0905 3C40400000, 0907 1C42480000 3C40400000, \
         090A 1C42480000 5964, 0900 49FF",
    );
}

/// 14 over the whole body before any 15, wherever in it each stands.
fn tagging_before_fields<Chosen: Panel>(mut bench: Bench<Chosen>) {
    // A field is missing, and a later tag is wrong.
    bench.all_answered(TAGGING, "0901 6964, 0901 59, 1C42480000 0901");
    // Not in fewest octets, and a later tag is wrong.
    bench.all_answered(
        TAGGING,
        "0902 1C42480000 4A0064 58, 0902 1C42480000 4A0064 4964",
    );
    // A foreign field of a wrong length.
    bench.all_answered(TAGGING, "0900 1942");
    // An operation above 10 with a number that is not in fewest octets.
    bench.all_answered(TAGGING, "090B 5A0064");
    // A field is missing, and a byte beyond L is not zero.
    let body = "02 0901 00000000000000 00000000000000 01";
    assert_eq!(bench.frame(0x1B, 0, body), TAGGING);
}

fn both_before_ranges<Chosen: Panel>(mut bench: Bench<Chosen>) {
    bench.all_answered(
        TAGGING,
        "0909 1C7FC00000 59, 0909 1CBF800000 0000, 0900 5901 5901",
    );
    bench.all_answered(
        TAGGED_FIELD,
        "0904 1C7FC00000, 0909 1C42C80001 5A0064, 0902 1C00000000 4901 5A0001, \
         0900 5A0001",
    );
}

/// Field by field in the order of the tags, as the plain kind has them.
fn ranges<Chosen: Panel>(mut bench: Bench<Chosen>) {
    bench.all_answered(
        Answer::Refused(11),
        "0909 1C42C80001, 0909 1C7FC00000 5901, 0902 1CBF800000 4901, \
         0904 1C42480000 2C3DFFFFFF, 0904 1C42480000 2C00000000 5901, \
         0907 3C42C80001, 0908 3C80000000",
    );
    bench.all_answered(
        Answer::Refused(12),
        "0902 1C42480000 4900, 0902 1C42480000 4963, 0902 1C42480000 4C05265C01, \
         0902 1C42480000 4CFFFFFFFF, 0900 5901, 0900 5963, 0900 5C05265C01",
    );
    // Absent in the plain kind; here absent is missing.
    bench.all_answered(
        Answer::Refused(12),
        "0900 5CFFFFFFFF, 0902 1C42480000 4A03E8 5CFFFFFFFF",
    );
}
