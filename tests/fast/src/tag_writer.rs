//! §1: the last command in context tags.

use crate::output::Command;
use crate::tags::{CONTEXT, DURATION, FADE_TIME, LEVEL, LONGEST_TAGS, OPERATION, RATE, STEP};

/// The L bytes.
#[derive(Clone, Copy, Debug)]
pub struct TaggedForm {
    bytes: [u8; LONGEST_TAGS],
    length: usize,
}

impl TaggedForm {
    pub fn bytes(&self) -> &[u8] {
        &self.bytes[..self.length]
    }

    fn put(&mut self, octet: u8) {
        self.bytes[self.length] = octet;
        self.length += 1;
    }

    /// A tag with the low octets of a value.
    fn put_tag(&mut self, number: u8, octets: u8, value: u32) {
        self.put(number << 4 | CONTEXT | octets);
        for octet in &value.to_be_bytes()[4 - usize::from(octets)..] {
            self.put(*octet);
        }
    }

    fn put_real(&mut self, number: u8, real: Option<f32>) {
        if let Some(real) = real {
            self.put_tag(number, 4, real.to_bits());
        }
    }

    fn put_whole(&mut self, number: u8, whole: Option<u32>) {
        if let Some(value) = whole {
            self.put_tag(number, fewest_octets(value), value);
        }
    }
}

/// One octet for 0 too.
fn fewest_octets(value: u32) -> u8 {
    4 - (value | 1).leading_zeros() as u8 / 8
}

impl Command {
    pub fn tagged(&self) -> TaggedForm {
        let mut form = TaggedForm {
            bytes: [0; LONGEST_TAGS],
            length: 0,
        };
        let operation = self.operation;
        form.put_tag(OPERATION, 1, u32::from(operation.number()));
        form.put_real(LEVEL, operation.level());
        form.put_real(RATE, operation.rate());
        form.put_real(STEP, operation.step());
        form.put_whole(FADE_TIME, operation.fade_time());
        form.put_whole(DURATION, self.duration);
        form
    }
}
