//! The spoilt panel that judges its relay between a duration and a warning
//! (§3), which no list can show, told apart by a warning that is lent to it.

use panels::lent_warning::lent_warnings;
use spoilt::table::ALL;
use spoilt::{switch, SpoiltPanel};

/// Whether the relay turns otherwise in a lent warning.
fn told_apart(number: usize) -> bool {
    switch::turn_on(number);
    lent_warnings()
        .iter()
        .any(|lent| SpoiltPanel::active_of_lent(lent) != lent.active_lived())
}

#[test]
fn a_lent_warning_tells() {
    assert!(!told_apart(0), "nothing is spoilt");
    let between = "The relay is judged between the duration and the warning of one millisecond";
    let number = ALL
        .iter()
        .position(|spoilt| spoilt.wrong.starts_with(between));
    assert!(told_apart(1 + number.unwrap()));
}
