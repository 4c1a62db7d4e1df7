//! Tagged commands (§1) as text.

use panels::{Answer, Panel};

use crate::bench::Bench;

/// L and the 17 bytes, padded with zeros.
pub fn padded(tags: &str) -> String {
    let tags = tags.replace(' ', "");
    format!("{:02X} {tags:0<34}", tags.len() / 2)
}

impl<Chosen: Panel> Bench<Chosen> {
    // some tests have none
    #[allow(dead_code)]
    pub fn tagged(&mut self, time: u64, tags: &str) -> Answer {
        self.frame(0x1B, time, &padded(tags))
    }
}
