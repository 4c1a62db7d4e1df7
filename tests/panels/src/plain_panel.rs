//! The plain panel behind the common face.

use crate::answer::Answer;
use crate::found::Found;
use crate::panel::Panel;
use crate::Parameters;

pub struct PlainPanel {
    panel: plain::Panel,
}

impl Panel for PlainPanel {
    fn start(parameters: Parameters) -> Result<PlainPanel, Answer> {
        let panel = plain::Panel::start(parameters)?;
        Ok(PlainPanel { panel })
    }

    fn frame(&mut self, bytes: &[u8]) -> Answer {
        self.panel.frame(bytes).into()
    }

    fn found(&self) -> Vec<Found> {
        self.panel.outputs().iter().map(found_of_plain).collect()
    }
}

pub fn found_of_plain(output: &plain::Output) -> Found {
    Found {
        slots: std::array::from_fn(|index| output.slot(index as u8 + 1)),
        present_value: output.present_value(),
        progress_value: output.progress_value(),
        in_process: output.movement.is_some(),
        settings: std::array::from_fn(|index| read(output, 0x01 + index as u8).unwrap_or(0)),
        last: std::array::from_fn(|index| read(output, 0x0F + index as u8)),
        burning: output.burning,
        tagged: output.last.tagged(),
        relay: std::array::from_fn(|index| read(output, 0x17 + index as u8).unwrap_or(0)),
    }
}

fn read(output: &plain::Output, property: u8) -> Option<u32> {
    match output.read_property(property) {
        plain::Answer::Value(value) => Some(value),
        _ => None,
    }
}
