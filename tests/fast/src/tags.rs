//! §1: the body of a tagged command, read by one cursor.

use crate::answer::Refusal;
use crate::frame::{Fields, HEAD_LENGTH};

pub const TAGGED_COMMAND: u8 = 0x1B;
/// The bit of a tag that makes it a context tag.
pub const CONTEXT: u8 = 8;
pub const SHORTEST_TAGS: usize = 2;
pub const LONGEST_TAGS: usize = 17;

pub const OPERATION: u8 = 0;
pub const LEVEL: u8 = 1;
pub const RATE: u8 = 2;
pub const STEP: u8 = 3;
pub const FADE_TIME: u8 = 4;
pub const DURATION: u8 = 5;

const TAGS: usize = 6;
const STOP: u8 = 0x10;

/// Which tags must be there, bit by bit, for each operation; the duration's may.
const NEEDED: [u8; 11] = [
    ALONE,
    TO_LEVEL,
    TO_LEVEL | 1 << FADE_TIME,
    TO_LEVEL,
    TO_LEVEL | 1 << RATE,
    ALONE,
    ALONE,
    ALONE | 1 << STEP,
    ALONE | 1 << STEP,
    TO_LEVEL,
    ALONE,
];
const ALONE: u8 = 1 << OPERATION;
const TO_LEVEL: u8 = ALONE | 1 << LEVEL;

/// A command as its plain kind would bring it.
pub struct Tagged {
    pub kind: u8,
    pub duration: Option<u32>,
    /// Tags rise in the order in which the plain kind has its fields.
    before_duration: [u8; 8],
}

/// Goes over the L bytes.
struct Cursor<'a> {
    rest: &'a [u8],
}

impl<'a> Cursor<'a> {
    fn take(&mut self, octets: usize) -> Result<&'a [u8], Refusal> {
        if octets > self.rest.len() {
            return Err(Refusal::Tagging);
        }
        let (taken, rest) = self.rest.split_at(octets);
        self.rest = rest;
        Ok(taken)
    }
}

/// The first 15 is only remembered while the cursor goes on: a 14 may follow.
struct Seen {
    values: [u32; TAGS],
    present: u8,
    in_fewest_octets: bool,
}

impl Tagged {
    pub fn read(bytes: &[u8]) -> Result<Tagged, Refusal> {
        let length = usize::from(bytes[HEAD_LENGTH]);
        if !(SHORTEST_TAGS..=LONGEST_TAGS).contains(&length) {
            return Err(Refusal::Tagging);
        }
        let (tags, padding) = bytes[HEAD_LENGTH + 1..].split_at(length);
        if padding.iter().any(|byte| *byte != 0) {
            return Err(Refusal::Tagging);
        }
        Seen::by_cursor(Cursor { rest: tags })?.command()
    }

    pub fn fields(&self) -> Fields<'_> {
        Fields::of(&self.before_duration)
    }
}

impl Seen {
    fn by_cursor(mut cursor: Cursor) -> Result<Seen, Refusal> {
        let mut seen = Seen {
            values: [0; TAGS],
            present: 0,
            in_fewest_octets: true,
        };
        while !cursor.rest.is_empty() {
            let tag = cursor.take(1)?[0];
            let (number, octets) = (tag >> 4, tag & 7);
            if tag & CONTEXT == 0 {
                return Err(Refusal::Tagging);
            }
            if !has_octets(number, octets) {
                return Err(Refusal::Tagging);
            }
            // A bit at or above the number's is a tag that it is not above.
            if seen.present >> number != 0 {
                return Err(Refusal::Tagging);
            }
            let content = cursor.take(usize::from(octets))?;
            seen.keep(number, content);
        }
        Ok(seen)
    }

    fn keep(&mut self, number: u8, content: &[u8]) {
        self.present |= 1 << number;
        let value = &mut self.values[usize::from(number)];
        for octet in content {
            *value = *value << 8 | u32::from(*octet);
        }
        if number >= FADE_TIME && content.len() > 1 && content[0] == 0 {
            self.in_fewest_octets = false;
        }
    }

    fn command(self) -> Result<Tagged, Refusal> {
        // Without its tag the operation is 0 so far.
        let operation = self.values[usize::from(OPERATION)] as u8;
        let needed = *NEEDED.get(usize::from(operation)).ok_or(Refusal::Tagging)?;
        let present = self.present & !(1 << DURATION);
        if present != needed {
            return Err(Refusal::TaggedField);
        }
        if !self.in_fewest_octets {
            return Err(Refusal::TaggedField);
        }
        let has_duration = self.present & 1 << DURATION != 0;
        let mut tagged = Tagged {
            kind: STOP + operation,
            duration: has_duration.then_some(self.values[usize::from(DURATION)]),
            before_duration: [0; 8],
        };
        let numbers = (LEVEL..DURATION).filter(|number| needed >> number & 1 == 1);
        for (place, number) in tagged.before_duration.chunks_exact_mut(4).zip(numbers) {
            place.copy_from_slice(&self.values[usize::from(number)].to_be_bytes());
        }
        Ok(tagged)
    }
}

/// The forms 5, 6 and 7 of clause 20.2 are no tag's.
fn has_octets(number: u8, octets: u8) -> bool {
    match number {
        OPERATION => octets == 1,
        LEVEL | RATE | STEP => octets == 4,
        FADE_TIME | DURATION => (1..=4).contains(&octets),
        _ => false,
    }
}
