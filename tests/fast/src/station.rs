//! A station's record: what it takes to tell a copy and to answer it.

use crate::answer::Answer;
use crate::frame::LONGEST_FRAME;

#[derive(Clone, Copy, Debug)]
pub struct Station {
    /// The last number, 0 meaning none.
    pub number: u32,
    pub answer: Answer,
    /// The last frame; its kind says how many bytes count.
    pub frame: [u8; LONGEST_FRAME],
}

impl Station {
    pub const FRESH: Station = Station {
        number: 0,
        answer: Answer::Done,
        frame: [0; LONGEST_FRAME],
    };

    /// The bytes already have the length of their kind.
    pub fn keep(&mut self, number: u32, bytes: &[u8], answer: Answer) {
        self.number = number;
        self.answer = answer;
        self.frame[..bytes.len()].copy_from_slice(bytes);
    }

    pub fn has_frame(&self, bytes: &[u8]) -> bool {
        self.frame[..bytes.len()] == *bytes
    }
}
