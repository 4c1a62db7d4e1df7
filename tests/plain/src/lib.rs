//! The plain panel of document 01, with §1 to §8 of document 02: outputs and a
//! time, no stations.
//!
//! It is written to be read beside the paper, not to be quick. It lives every
//! millisecond in the paper's order, and it decides what a first arrival is
//! from the list of frames met so far.

pub mod answer;
pub mod command;
pub mod frame;
pub mod last_command;
pub mod movement;
pub mod output;
pub mod panel;
pub mod parameters;
pub mod passing;
pub mod property;
pub mod real;
pub mod relay;
pub mod settings;
pub mod slots;
pub mod tag_writer;
pub mod tags;
pub mod warning;

pub use answer::Answer;
pub use output::Output;
pub use panel::Panel;
pub use parameters::{Parameter, Parameters};
