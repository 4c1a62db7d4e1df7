//! Lists for the panels: suites of hostile ones, and streams to time.

pub mod body;
pub mod copies;
pub mod heading;
pub mod hostile;
pub mod list;
pub mod pair;
mod plan;
pub mod random;
pub mod stream;
pub mod suite;
pub mod suites;
pub mod timing;
pub mod values;

pub use heading::Heading;
pub use list::{generate, List, Which};
pub use pair::{pair, pair_seen_by, Pair};
pub use random::Random;
pub use suite::Suite;
