//! The body of a tagged command (§1) in the making: right tags, which are then
//! spoilt in one way or in several.

use plain::last_command::own_fields;
use plain::tag_writer::spelled;
use plain::tags::*;

use crate::body::Body;
use crate::random::Random;

#[derive(Clone, Debug)]
pub struct Draft {
    pub tags: Vec<Tag>,
    pub ending: Ending,
}

/// How L and the bytes beyond the tags come out.
#[derive(Clone, Copy, Debug)]
pub enum Ending {
    Right,
    /// Another L.
    Length(u8),
    /// Zero bytes inside L.
    Longer(usize),
    /// The last octets are not there, and L is right for that.
    CutOff(usize),
    /// A byte of the padding that is not zero.
    Beyond {
        place: usize,
        byte: u8,
    },
}

const ROOM: usize = LONGEST_BODY as usize;

impl Draft {
    pub fn of(tags: Vec<Tag>) -> Draft {
        Draft {
            tags,
            ending: Ending::Right,
        }
    }

    /// What does not fit the 17 bytes is left out.
    pub fn body(&self) -> Body {
        let mut bytes = spelled(&self.tags);
        bytes.truncate(ROOM);
        let mut length = bytes.len();
        match self.ending {
            Ending::Right => {}
            Ending::Length(wrong) => length = usize::from(wrong),
            Ending::Longer(by) => length = ROOM.min(length + by),
            Ending::CutOff(by) => {
                length = length.saturating_sub(by);
                bytes.truncate(length);
            }
            Ending::Beyond { place, byte } => {
                let first = bytes.len();
                bytes.resize(ROOM, 0);
                if let Some(padding) = bytes[first..].get_mut(place) {
                    *padding = byte;
                }
            }
        }
        bytes.resize(ROOM, 0);
        Body::Tagged {
            length: length as u8,
            bytes,
        }
    }

    fn operation(&self) -> Option<u8> {
        let tag = self.tags.iter().find(|tag| tag.number() == OPERATION)?;
        tag.content.first().copied()
    }

    fn has(&self, number: u8) -> bool {
        self.tags.iter().any(|tag| tag.number() == number)
    }

    /// One cause of refusal 14.
    pub fn spoil_tagging(&mut self, random: &mut Random) {
        let last = self.tags.len().saturating_sub(1);
        let some_tag = random.below(last as u64 + 1) as usize;
        match random.below(17) {
            0 if random.chance(50) => self.tags.clear(),
            0 => self.ending = Ending::Length(random.pick(&[0, 1])),
            1 => self.ending = Ending::Length(random.pick(&[18, 19, 31, 34, 64, 128, 255])),
            2 | 3 => {
                let number = random.between(6, 15) as u8;
                let content = some_octets(random, 0, 4);
                let place = random.between(1, last as u64 + 1) as usize;
                let place = place.min(self.tags.len());
                self.tags.insert(place, Tag::context(number, &content));
            }
            4 | 5 => {
                if let Some(tag) = self.tags.get_mut(some_tag) {
                    tag.octet &= !8;
                }
            }
            6 => self.ending = Ending::Longer(random.between(1, 3) as usize),
            7 | 8 => {
                if let Some(tag) = self.tags.get(some_tag).cloned() {
                    self.tags.insert(some_tag, tag);
                }
            }
            9 if last > 0 => {
                let first = random.below(last as u64) as usize;
                self.tags.swap(first, first + 1);
            }
            10..=13 => {
                if let Some(tag) = self.tags.get_mut(some_tag) {
                    spoil_octets(random, tag);
                }
            }
            14 => {
                let content = self.tags.last().map_or(0, |tag| tag.content.len());
                let by = random.between(1, content.max(1) as u64) as usize;
                self.ending = Ending::CutOff(by);
            }
            15 => {
                let room = ROOM.saturating_sub(spelled(&self.tags).len()).max(1);
                self.ending = Ending::Beyond {
                    place: random.below(room as u64) as usize,
                    byte: random.between(1, 255) as u8,
                };
            }
            _ => {
                if let Some(tag) = self.tags.first_mut().filter(|tag| tag.number() == 0) {
                    tag.content = vec![match random.below(3) {
                        0 => 11,
                        1 => random.pick(&[12, 0x10, 0x1A, 0x80, 0xFF]),
                        _ => random.between(11, 255) as u8,
                    }];
                }
            }
        }
    }

    /// One cause of refusal 15.
    pub fn spoil_field(&mut self, random: &mut Random) {
        match random.below(8) {
            0 => self.tags.retain(|tag| tag.number() != OPERATION),
            // Without an operation nothing is foreign: as long as can be.
            1 if random.chance(20) => {
                self.tags = [LEVEL, RATE, STEP]
                    .map(|number| Tag::context(number, &[0x42, 0x48, 0, 0]))
                    .to_vec();
                self.tags.push(Tag::context(FADE_TIME, &[0xFF]));
            }
            1 | 2 => {
                let own = own_fields(self.operation().unwrap_or(0));
                if !own.is_empty() {
                    let missing = random.pick(own);
                    self.tags.retain(|tag| tag.number() != missing);
                }
            }
            3..=5 => self.add_foreign(random),
            _ => {
                if !self.has(DURATION) {
                    let content = some_octets(random, 1, 3);
                    self.tags.push(Tag::context(DURATION, &content));
                }
                let whole = |tag: &&mut Tag| tag.number() >= FADE_TIME;
                let mut tags: Vec<&mut Tag> = self.tags.iter_mut().filter(whole).collect();
                let some_tag = random.below(tags.len() as u64) as usize;
                let tag = &mut tags[some_tag];
                let mut content = tag.content.clone();
                if content.len() == 4 {
                    content[0] = 0;
                } else {
                    content.insert(0, 0);
                }
                **tag = Tag::context(tag.number(), &content);
            }
        }
    }

    fn add_foreign(&mut self, random: &mut Random) {
        let foreign: Vec<u8> = (LEVEL..DURATION)
            .filter(|number| !self.has(*number))
            .collect();
        if foreign.is_empty() {
            return;
        }
        let number = random.pick(&foreign);
        let content = match number {
            FADE_TIME => some_octets(random, 1, 4),
            _ => vec![0x42, 0x48, 0, 0],
        };
        if spelled(&self.tags).len() + 1 + content.len() > ROOM {
            self.tags.retain(|tag| tag.number() != DURATION);
        }
        let place = self.tags.iter().filter(|tag| tag.number() < number).count();
        self.tags.insert(place, Tag::context(number, &content));
    }
}

/// A number of so many octets that begins with none too many.
pub fn some_octets(random: &mut Random, least: u64, most: u64) -> Vec<u8> {
    let octets = random.between(least, most);
    (0..octets).map(|_| random.between(1, 255) as u8).collect()
}

/// A form that the tag may not have, with what belongs to that form.
fn spoil_octets(random: &mut Random, tag: &mut Tag) {
    let number = tag.number();
    let forms: Vec<u8> = (0..8).filter(|form| !has_form(number, *form)).collect();
    let form = random.pick(&forms);
    match form {
        1..=4 => {
            // As if the number had so many octets, from the right.
            let mut content = vec![0; 4];
            content.extend(&tag.content);
            tag.content = content.split_off(content.len() - usize::from(form));
        }
        // The number of octets stands in the next octet.
        5 => tag.content.insert(0, tag.content.len() as u8),
        // Opening and closing tags, and no octets at all.
        _ => tag.content.clear(),
    }
    tag.octet = number * 16 + 8 + form;
}
