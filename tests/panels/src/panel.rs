//! The face that all panels show to a list.

use crate::answer::Answer;
use crate::found::Found;
use crate::Parameters;

pub trait Panel: Sized {
    /// A panel after a start that answered Done; else the start's answer.
    fn start(parameters: Parameters) -> Result<Self, Answer>;

    /// A panel with the old panel's numbers. The caller gives 1 to 64.
    fn with_outputs(outputs: u32) -> Self {
        let started = Self::start(Parameters::of_old_panel(outputs));
        started.unwrap_or_else(|answer| panic!("{outputs} outputs: {answer}"))
    }

    fn frame(&mut self, bytes: &[u8]) -> Answer;

    /// What is found of every output, in the order of the table.
    fn found(&self) -> Vec<Found>;
}
