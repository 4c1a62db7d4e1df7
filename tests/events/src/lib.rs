//! What lists make the plain panel meet: events and edges of fields, seen from
//! outside.
//!
//! `Observer` is shown each frame with the panel before and after it. A module
//! for document 01 (`base`) and for each change of document 02 has the events
//! of that part, how they are seen, and `expected`: those that a thorough suite
//! of lists must reach.

pub mod base;
pub mod edges;
pub mod four_hours;
pub mod jump;
pub mod light;
pub mod observer;
pub mod passing;
pub mod relay;
pub mod seen;
pub mod set;
pub mod tags;
pub mod tally;
pub mod tenants;
pub mod tie;
pub mod words;

pub use base::Event;
pub use edges::Edge;
pub use observer::Observer;
pub use tally::Tally;
