//! Spoilt panels that no list can show, told apart by the tables and the kept
//! set (§6, §7, §8) that are lent to them.

use panels::lent_set::lent_sets;
use spoilt::table::ALL;
use spoilt::{switch, SpoiltPanel};

/// Whether a start or a frame over lent tables is answered otherwise, or leaves
/// something else.
fn told_apart(number: usize) -> bool {
    switch::turn_on(number);
    lent_sets()
        .iter()
        .any(|lent| SpoiltPanel::over_lent_set(lent) != (lent.answer, lent.left()))
}

#[test]
fn lent_sets_tell() {
    assert!(!told_apart(0), "nothing is spoilt");
    let mut count = 0;
    for (index, spoilt) in ALL.iter().enumerate() {
        if spoilt.wrong.starts_with("Over lent tables, ") {
            assert!(told_apart(index + 1), "{}", spoilt.wrong);
            count += 1;
        }
    }
    assert_eq!(count, 57);
}
