//! §1: "A writer makes this form from every command the panel keeps."

use crate::last_command::LastCommand;
use crate::tags::*;

impl LastCommand {
    /// The tags in rising order; what the command had not has no tag.
    pub fn tags(&self) -> Vec<Tag> {
        let mut tags = vec![Tag::context(OPERATION, &[self.operation])];
        for (number, real) in [(LEVEL, self.level), (RATE, self.rate), (STEP, self.step)] {
            tags.extend(real.map(|bits| Tag::context(number, &bits.to_be_bytes())));
        }
        for (number, whole) in [(FADE_TIME, self.fade_time), (DURATION, self.duration)] {
            tags.extend(whole.map(|value| Tag::context(number, &fewest_octets(value))));
        }
        tags
    }

    /// The L bytes.
    pub fn tagged(&self) -> Vec<u8> {
        spelled(&self.tags())
    }
}

/// "Whole numbers use the fewest octets, 1 to 4."
pub fn fewest_octets(value: u32) -> Vec<u8> {
    let mut octets = vec![(value % 256) as u8];
    let mut rest = value / 256;
    while rest > 0 {
        octets.insert(0, (rest % 256) as u8);
        rest /= 256;
    }
    octets
}

pub fn spelled(tags: &[Tag]) -> Vec<u8> {
    let mut bytes = Vec::new();
    for tag in tags {
        bytes.push(tag.octet);
        bytes.extend(&tag.content);
    }
    bytes
}
