//! The text of the replay programs: comments, blanks, either case, bad lines.

use panels::replay::replay;
use panels::{FastPanel, PlainPanel};

fn both(list: &str) -> (String, bool) {
    let mut plain = Vec::new();
    let good = replay::<PlainPanel>(list.as_bytes(), &mut plain).unwrap();
    let mut fast = Vec::new();
    replay::<FastPanel>(list.as_bytes(), &mut fast).unwrap();
    assert_eq!(plain, fast);
    (String::from_utf8(plain).unwrap(), good)
}

#[test]
fn comments_blanks_and_cases() {
    let (text, good) = both(
        "outputs 1\n# a comment\n\n-\n01 00 00 00 00 00 0A\n01 00000000000a\n\
         01 000000000009\r\n05 000000000100000000000A 00 0A",
    );
    assert!(good);
    let answers: Vec<&str> = text.lines().take_while(|line| *line != "--").collect();
    assert_eq!(
        answers,
        ["Refused 2", "Done", "Done", "Refused 8", "Value 00000010"]
    );
}

#[test]
fn long_strings_are_for_the_panel_to_refuse() {
    let (text, good) = both(&format!("outputs 64\n{}\n", "10".repeat(5_000)));
    assert!(good);
    assert!(text.starts_with("Refused 3\n--\noutput 0\n"));
    assert_eq!(text.lines().count(), 2 + 64 * 10);
}

#[test]
fn a_bad_line_ends_the_replay() {
    let (text, good) = both("outputs 2\n\n01 000000000001\n01 0000000000x1\n01 000000000002\n");
    assert!(!good);
    assert!(text.starts_with("Done\nline 4: "));
    assert_eq!(text.lines().count(), 2);
}

#[test]
fn bad_first_lines() {
    let no_outputs = "the first line is to be `outputs N`";
    let no_count = "N is to be 1 to 64";
    let bad_word = "after `outputs N` may come `stations S`, `fade F`, `duration D` and `tenants HEX`, each once";
    let no_marks = "HEX is to be 1 to 8 hexadecimal digits";
    for (list, wrong) in [
        ("outputs", no_outputs),
        ("outputs5", no_outputs),
        ("output 5", no_outputs),
        ("stations 5 outputs 5", no_outputs),
        ("01", no_outputs),
        ("outputs ", no_count),
        ("outputs +1", no_count),
        ("outputs x", no_count),
        ("outputs 1x", no_count),
        ("outputs stations 5", no_count),
        ("outputs 1 1", bad_word),
        ("outputs 1 outputs 1", bad_word),
        ("outputs 1 stations", bad_word),
        ("outputs 1 stations 5x", bad_word),
        ("outputs 1 stations fade 100", bad_word),
        ("outputs 1 station 5", bad_word),
        ("outputs 1 stations5", bad_word),
        ("outputs 1 stations 5 stations 5", bad_word),
        ("outputs 1 fade 100 duration 100 fade 100", bad_word),
        ("outputs 0 stations 0 fade 0 duration", bad_word),
        ("outputs 1 # a comment", bad_word),
        ("outputs 1 tenant 3", bad_word),
        ("outputs 1 Tenants 3", bad_word),
        ("outputs 1 tenants 3 tenants 3", bad_word),
        ("outputs 1 tenants 3 stations 3 tenants", bad_word),
        ("outputs 1 tenants 3 stations", bad_word),
        ("outputs 1 tenants 3 5", bad_word),
        ("outputs 1 tenants", bad_word),
        ("outputs 1 tenants \t\r", no_marks),
        ("outputs 1 tenants stations 3", no_marks),
        ("outputs 1 tenants 123456789", no_marks),
        ("outputs 1 tenants 000000003", no_marks),
        ("outputs 1 tenants 3G", no_marks),
        ("outputs 1 tenants 0x3", no_marks),
        ("outputs 1 tenants +3", no_marks),
        ("outputs 1 tenants -", no_marks),
        ("outputs 65 stations 33 tenants x", no_marks),
    ] {
        let (text, good) = both(list);
        assert!(!good, "{list}");
        assert_eq!(text, format!("line 1: {wrong}\n"), "{list}");
    }
    let (text, good) = both("");
    assert!(!good && text.starts_with("line 1: "), "{text}");
}

/// §6: the first one out of range, in the order of the set.
#[test]
fn refused_starts() {
    let stations = "`stations` is to be 1 to 32: Refused 17";
    let outputs = "`outputs` is to be 1 to 64: Refused 17";
    let fade = "`fade` is to be 100 to 14400000: Refused 17";
    let duration = "`duration` is to be 100 to 86400000: Refused 17";
    for (heading, wrong) in [
        ("outputs 0", outputs),
        ("outputs 65", outputs),
        ("outputs 4294967297", outputs),
        ("outputs 18446744073709551617", outputs),
        ("outputs 1 stations 0", stations),
        ("outputs 1 stations 33", stations),
        ("outputs 1 fade 99", fade),
        ("outputs 1 fade 14400001", fade),
        ("outputs 1 fade 86400000", fade),
        ("outputs 1 fade 86400000 duration 86400000", fade),
        ("outputs 1 duration 99", duration),
        ("outputs 1 duration 86400001", duration),
        (
            "outputs 1 duration 340282366920938463463374607431768211556",
            duration,
        ),
        ("outputs 0 duration 0 fade 0 stations 0", stations),
        ("outputs 0 duration 0 fade 0", outputs),
        ("outputs 1 duration 0 fade 0", fade),
        ("outputs 1 tenants FFFFFFFF stations 33", stations),
        ("outputs 65 tenants 0", outputs),
    ] {
        let (text, good) = both(&format!("# a comment\n\n{heading}\n01 000000000001\n"));
        assert!(!good, "{heading}");
        assert_eq!(text, format!("line 3: {wrong}\n"), "{heading}");
    }
}

/// Those of the bad lists whose heading is bad are answered as the proved
/// program answers them.
#[test]
fn bad_lists() {
    for name in [
        "all",
        "count",
        "duration",
        "fade",
        "first",
        "great",
        "great-fade",
        "long-fade",
        "no-count",
        "no-number",
        "stations",
        "tenants",
        "tenants-letter",
        "tenants-nine",
        "tenants-twice",
        "twice",
        "word",
    ] {
        let file = |ending| {
            format!(
                "{}/../bad-lists/{name}.{ending}",
                env!("CARGO_MANIFEST_DIR")
            )
        };
        let list = std::fs::read_to_string(file("txt")).unwrap();
        let (text, good) = both(&list);
        assert!(!good, "{name}");
        assert_eq!(
            text,
            std::fs::read_to_string(file("out")).unwrap(),
            "{name}"
        );
    }
}

/// §6: words in any order, blanks between them, and the old panel's numbers for
/// those that are left out.
#[test]
fn headings() {
    for (heading, stations, fade) in [
        ("outputs 2", 8, 1_000),
        ("  outputs\t002  \r", 8, 1_000),
        ("outputs 2 stations 3", 3, 1_000),
        ("outputs 2 fade 250", 8, 250),
        ("outputs 2 duration 100", 8, 1_000),
        ("outputs 2 duration 100 fade 999 stations 32", 32, 999),
        (
            "outputs  2\tstations 0001 fade 00000000000000000000250",
            1,
            250,
        ),
        (
            "outputs 2 stations 8 fade 14400000 duration 86400000",
            8,
            1_000,
        ),
    ] {
        let frame = |station| format!("05 {station:02X} 00000001 000000000000 00 02");
        let list = format!("{heading}\n{}\n{}\n", frame(stations - 1), frame(stations));
        let (text, good) = both(&list);
        assert!(good, "{heading}");
        let expected = format!("Value {fade:08X}\nRefused 4\n--\noutput 0\n");
        assert!(text.starts_with(&expected), "{heading}: {text}");
    }
}

#[test]
fn half_a_byte_is_bad() {
    for line in ["0", "01 0", "0 1", "010"] {
        let (text, good) = both(&format!("outputs 1\n{line}\n"));
        assert!(!good && text.starts_with("line 2: "), "{line}");
    }
}
