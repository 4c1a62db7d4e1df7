//! The list of the bus error: what the panels have on their meters after it.

use panels::list_text::{read_heading, read_string, Line};
use panels::{FastPanel, Panel, PlainPanel};
use spoilt::table::ALL;
use spoilt::{switch, SpoiltPanel};

const LIST: &str = include_str!("../../../examples/bus-error.txt");

fn frames() -> Vec<Vec<u8>> {
    let lines = LIST.lines().filter(|line| read_heading(line).is_err());
    lines
        .filter_map(|line| match read_string(line) {
            Ok(Line::Content(bytes)) => Some(bytes),
            _ => None,
        })
        .collect()
}

fn burning_after<Chosen: Panel>(frames: &[Vec<u8>]) -> u64 {
    let mut panel = Chosen::with_outputs(1);
    for bytes in frames {
        panel.frame(bytes);
    }
    panel.found()[0].burning
}

#[test]
fn a_message_sent_again_counts_once() {
    let mut sent_once = frames();
    sent_once.dedup();
    assert_eq!(sent_once.len() + 6, frames().len());
    for list in [sent_once, frames()] {
        assert_eq!(burning_after::<PlainPanel>(&list), 4_000_000);
        assert_eq!(burning_after::<FastPanel>(&list), 4_000_000);
    }
}

#[test]
fn the_bought_code_counts_it_again() {
    let bought = ALL
        .iter()
        .position(|spoilt| spoilt.wrong.starts_with("The bought code"));
    switch::turn_on(1 + bought.unwrap());
    assert_eq!(burning_after::<SpoiltPanel>(&frames()), 11_144_300);
}
