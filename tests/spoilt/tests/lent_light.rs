//! Spoilt panels that no list can show, told apart by what is lent to them:
//! movements that no command starts and the record rules allow (§2).

use panels::lent::{lent_movements, steps};
use spoilt::table::ALL;
use spoilt::{switch, SpoiltPanel};

/// Whether a lent movement burns otherwise than by its levels.
fn told_apart(number: usize) -> bool {
    switch::turn_on(number);
    lent_movements().iter().any(|lent| {
        steps()
            .iter()
            .any(|steps| SpoiltPanel::burning_of_lent(lent, steps) != lent.burning_lived(steps))
    })
}

#[test]
fn lent_movements_tell() {
    assert!(!told_apart(0), "nothing is spoilt");
    let mut count = 0;
    for (index, spoilt) in ALL.iter().enumerate() {
        if spoilt.wrong.starts_with("In a lent record, ") {
            assert!(told_apart(index + 1), "{}", spoilt.wrong);
            count += 1;
        }
    }
    assert_eq!(count, 5);
}
