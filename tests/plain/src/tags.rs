//! §1: a command in context tags (clause 20.2), read as a list of tags that is
//! then judged sentence by sentence.
//!
//! All that is wrong with a body is listed, since refusal 14 comes before 15
//! wherever in the body each stands.

use crate::answer;
use crate::last_command::{own_fields, LastCommand};

pub const OPERATION: u8 = 0;
pub const LEVEL: u8 = 1;
pub const RATE: u8 = 2;
pub const STEP: u8 = 3;
pub const FADE_TIME: u8 = 4;
pub const DURATION: u8 = 5;

/// "A length L from 2 to 17, then 17 bytes."
pub const SHORTEST_BODY: u8 = 2;
pub const LONGEST_BODY: u8 = 17;
/// "An operation above 10" is none.
const LAST_OPERATION: u8 = 10;

/// A tag's octet with what stands between it and the next tag.
#[derive(Clone, Debug, PartialEq, Eq)]
pub struct Tag {
    pub octet: u8,
    pub content: Vec<u8>,
}

impl Tag {
    /// "A context tag octet is number × 16 + 8 + length."
    pub fn context(number: u8, content: &[u8]) -> Tag {
        Tag {
            octet: number * 16 + 8 + content.len() as u8,
            content: content.to_vec(),
        }
    }

    pub fn number(&self) -> u8 {
        self.octet / 16
    }

    /// Bit 3 tells a context tag from an application tag.
    fn is_context(&self) -> bool {
        self.octet & 8 != 0
    }

    /// The low three bits: 0 to 4 is the number of octets. 5, 6 and 7 are other
    /// forms of clause 20.2.
    pub fn form(&self) -> u8 {
        self.octet % 8
    }

    /// How many octets belong to the tag whose octet stands before them. With
    /// form 5 the number stands in the next octet; 6 and 7 open and close a
    /// list and have none.
    fn wanted(octet: u8, after: &[u8]) -> usize {
        match octet % 8 {
            5 => 1 + after.first().map_or(0, |number| usize::from(*number)),
            6 | 7 => 0,
            form => usize::from(form),
        }
    }

    /// L ends before the content does.
    fn is_cut_off(&self) -> bool {
        self.content.len() < Tag::wanted(self.octet, &self.content)
    }

    fn has_right_octets(&self) -> bool {
        has_form(self.number(), self.form())
    }

    /// "Whole numbers use the fewest octets."
    fn is_in_fewest_octets(&self) -> bool {
        let is_whole_number = matches!(self.number(), FADE_TIME | DURATION);
        !(is_whole_number && self.has_right_octets() && self.content.len() > 1)
            || self.content[0] != 0
    }

    pub fn value(&self) -> u32 {
        let octets = self.content.iter();
        octets.fold(0, |value, octet| value * 256 + u32::from(*octet))
    }
}

/// "0 operation in one octet", the REALs in four, whole numbers in 1 to 4.
pub fn has_form(number: u8, form: u8) -> bool {
    match number {
        OPERATION => form == 1,
        LEVEL | RATE | STEP => form == 4,
        _ => (1..=4).contains(&form),
    }
}

/// What can be wrong with a body, in the order of §1's sentences.
#[derive(Clone, Copy, Debug, PartialEq, Eq, PartialOrd, Ord)]
pub enum Cause {
    LengthBelowTwo,
    LengthAboveSeventeen,
    NumberAboveFive,
    ApplicationTag,
    /// Such a byte is an application tag too; it looks like padding.
    ZeroInsideLength,
    EqualNumbers,
    FallingNumbers,
    Octets {
        form: u8,
    },
    PastLength,
    Padding,
    OperationAboveTen,
    Missing,
    Foreign,
    NotInFewestOctets,
}

impl Cause {
    pub fn refusal(self) -> u8 {
        match self {
            Cause::Missing | Cause::Foreign | Cause::NotInFewestOctets => answer::TAGGED_FIELD,
            _ => answer::TAGGING,
        }
    }
}

/// A cause and the number of the tag in which it lies; 0 for all of the body.
#[derive(Clone, Copy, Debug, PartialEq, Eq, PartialOrd, Ord)]
pub struct Fault {
    pub cause: Cause,
    pub tag: u8,
}

/// What the tags say, and what is wrong with them.
pub struct Reading {
    /// As far as it could be read, where something is wrong.
    pub command: LastCommand,
    pub faults: Vec<Fault>,
}

impl Reading {
    /// "Tested in that order": 14 over the whole body before any 15.
    pub fn refusal(&self) -> Option<u8> {
        self.faults.iter().map(|fault| fault.cause.refusal()).min()
    }

    fn fault(&mut self, cause: Cause, tag: u8) {
        self.faults.push(Fault { cause, tag });
    }
}

/// Reads L and the 17 bytes after it.
pub fn read(body: &[u8]) -> Reading {
    let length = body[0];
    let (used, padding) = used_and_padding(body);
    let mut reading = Reading {
        command: LastCommand::fresh(),
        faults: Vec::new(),
    };
    if length < SHORTEST_BODY {
        reading.fault(Cause::LengthBelowTwo, 0);
    }
    if length > LONGEST_BODY {
        reading.fault(Cause::LengthAboveSeventeen, 0);
    }
    if padding.iter().any(|byte| *byte != 0) {
        reading.fault(Cause::Padding, 0);
    }
    let (zeros, tags): (Vec<Tag>, Vec<Tag>) =
        tags_of(used).into_iter().partition(|tag| tag.octet == 0);
    if !zeros.is_empty() {
        reading.fault(Cause::ZeroInsideLength, 0);
    }
    judge_numbers(&tags, &mut reading);
    judge_octets(&tags, &mut reading);
    judge_fields(&tags, &mut reading);
    reading.command = command_of(&tags);
    reading
}

/// The L bytes, of which there are no more than 17, and those beyond them.
pub fn used_and_padding(body: &[u8]) -> (&[u8], &[u8]) {
    let bytes = &body[1..];
    bytes.split_at(bytes.len().min(usize::from(body[0])))
}

/// Cuts the bytes into tags; the last one may be cut off.
pub fn tags_of(bytes: &[u8]) -> Vec<Tag> {
    let mut tags = Vec::new();
    let mut rest = bytes;
    while let Some((octet, after)) = rest.split_first() {
        let wanted = Tag::wanted(*octet, after);
        let (content, following) = after.split_at(wanted.min(after.len()));
        tags.push(Tag {
            octet: *octet,
            content: content.to_vec(),
        });
        rest = following;
    }
    tags
}

/// "Context tags in rising order: 0 operation, 1 level, 2 rate, 3 step, 4 fade
/// time, 5 duration."
fn judge_numbers(tags: &[Tag], reading: &mut Reading) {
    let mut before = None;
    for tag in tags {
        let number = tag.number();
        if !tag.is_context() {
            reading.fault(Cause::ApplicationTag, number);
        }
        if number > DURATION {
            reading.fault(Cause::NumberAboveFive, number);
            continue;
        }
        if before == Some(number) {
            reading.fault(Cause::EqualNumbers, number);
        }
        if before > Some(number) {
            reading.fault(Cause::FallingNumbers, number);
        }
        before = Some(number);
    }
}

/// The right number of octets, all of them there; "whole numbers use the
/// fewest octets, 1 to 4."
fn judge_octets(tags: &[Tag], reading: &mut Reading) {
    for tag in tags {
        if tag.is_cut_off() {
            reading.fault(Cause::PastLength, tag.number());
        }
        if tag.number() > DURATION {
            continue;
        }
        if !tag.has_right_octets() {
            let form = tag.form();
            reading.fault(Cause::Octets { form }, tag.number());
        }
        if !tag.is_in_fewest_octets() {
            reading.fault(Cause::NotInFewestOctets, tag.number());
        }
    }
}

/// "The operation's own fields must be there and no others; duration may be
/// missing." Where the operation is not known, no field is its own or foreign.
fn judge_fields(tags: &[Tag], reading: &mut Reading) {
    let Some(operation) = find(tags, OPERATION) else {
        reading.fault(Cause::Missing, OPERATION);
        return;
    };
    if !operation.has_right_octets() || operation.content.is_empty() {
        return;
    }
    if operation.content[0] > LAST_OPERATION {
        reading.fault(Cause::OperationAboveTen, OPERATION);
        return;
    }
    let own_fields = own_fields(operation.content[0]);
    for field in LEVEL..DURATION {
        match (own_fields.contains(&field), find(tags, field)) {
            (true, None) => reading.fault(Cause::Missing, field),
            (false, Some(_)) => reading.fault(Cause::Foreign, field),
            _ => {}
        }
    }
}

fn find(tags: &[Tag], number: u8) -> Option<&Tag> {
    tags.iter().find(|tag| tag.number() == number)
}

fn command_of(tags: &[Tag]) -> LastCommand {
    let value = |number| {
        find(tags, number)
            .filter(|tag| tag.has_right_octets())
            .map(Tag::value)
    };
    LastCommand {
        operation: value(OPERATION).unwrap_or(0) as u8,
        level: value(LEVEL),
        rate: value(RATE),
        step: value(STEP),
        fade_time: value(FADE_TIME),
        duration: value(DURATION),
    }
}
