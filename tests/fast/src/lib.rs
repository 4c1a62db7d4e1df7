//! The dimming panel as one would write it for use: records lent by the
//! caller, station records for copies, and time that goes from due moment to
//! due moment.

mod act;
mod advance;
pub mod answer;
mod command;
pub mod frame;
pub mod level;
mod light;
pub mod output;
pub mod panel;
pub mod parameters;
pub mod property;
mod relay;
pub mod rules;
pub mod station;
pub mod tag_writer;
mod tags;

pub use answer::Answer;
pub use output::Output;
pub use panel::{frame, start};
pub use parameters::{PanelRecord, Parameters};
pub use station::Station;
