//! The suites, in the order of their papers. A change adds its file and a line.

pub mod base;
pub mod four_hours;
pub mod jump;
pub mod light;
pub mod relay;
pub mod set;
pub mod tags;
pub mod tenants;
pub mod tie;

use crate::suite::Suite;

pub static ALL: [&Suite; 9] = [
    &base::SUITE,
    &tags::SUITE,
    &light::SUITE,
    &relay::SUITE,
    &jump::SUITE,
    &tie::SUITE,
    &set::SUITE,
    &four_hours::SUITE,
    &tenants::SUITE,
];

/// The suite of that name, the sign § left out or not.
pub fn named(name: &str) -> Option<&'static Suite> {
    let bare = |name: &str| name.trim_start_matches('§').to_string();
    ALL.into_iter().find(|suite| bare(suite.name) == bare(name))
}

/// The names of all that the suites must reach, suite by suite: tests/EVENTS.txt.
pub fn names() -> String {
    let mut text = String::new();
    for suite in ALL {
        text += &format!("suite {}: {}\n", suite.name, suite.subject);
        for event in (suite.events)() {
            text += &format!("    {event:?}\n");
        }
        for edge in (suite.edges)() {
            text += &format!("    edge {edge:?}\n");
        }
    }
    text
}
