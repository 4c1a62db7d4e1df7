//! Tagged commands (§1): any command in tags, and bodies for each sentence of
//! refusals 14 and 15.

use events::edges::EDGES_OF_OCTETS;
use events::words::COMMANDS;
use plain::frame::*;
use plain::last_command::LastCommand;
use plain::settings::{LAST_DURATION, LAST_OPERATION};
use plain::tag_writer::fewest_octets;
use plain::tags::{Tag, DURATION, FADE_TIME};

use crate::body::Body;
use crate::list::Generator;
use crate::timing::When;
use crate::values::{self, EDGE_TIMES, LONGEST, SHORTEST};

use super::draft::{some_octets, Draft};

/// How many of a hundred commands in tags are spoilt, whatever the output does.
const SPOILT: u64 = 4;

/// The same command in its other form, under the same station and number.
pub fn in_other_form(bytes: &[u8]) -> Option<Vec<u8>> {
    let command = LastCommand::of_frame(bytes)?;
    let body = match bytes[0] {
        TAGGED_COMMAND => Body::plain_command(&command),
        _ => Draft::of(command.tags()).body(),
    };
    Some(body.with_head(&bytes[1..13]))
}

impl Generator {
    /// A plain command now and then in tags.
    pub(crate) fn perhaps_tagged(&mut self, body: &Body) -> Body {
        let Some(command) = body.command() else {
            return body.clone();
        };
        if !self.random.chance(self.suite.tables.tagged) {
            return body.clone();
        }
        let mut draft = Draft::of(command.tags());
        if self.random.chance(SPOILT) {
            match self.random.chance(50) {
                true => draft.spoil_tagging(&mut self.random),
                false => draft.spoil_field(&mut self.random),
            }
        }
        draft.body()
    }

    pub(crate) fn plan_tags(&mut self, output: u8) {
        for _ in 0..self.random.between(2, 6) {
            let body = self.body_for_a_sentence();
            // A frame that is refused brings the panel to its time too.
            let later = When::After(self.random.between(1, 300));
            let when = self.random.pick(&[When::Now, later]);
            self.plan(output, body, when);
        }
        // Else the output may be under way for a day.
        let level = values::good_level(&mut self.random);
        self.plan_command(output, GOTO, &[level, 0]);
        // Its operation is that of the plain kind in either form.
        let property = self
            .random
            .between(LAST_OPERATION.into(), LAST_DURATION.into()) as u8;
        for property in [LAST_OPERATION, property] {
            self.plan(output, Body::Read { property }, When::Now);
        }
    }

    /// It ends neither a warning nor a movement.
    pub(crate) fn plan_refused_tags(&mut self, output: u8) {
        let when = self.sometime();
        let body = match self.random.chance(50) {
            true => self.wrong_tagging(),
            false => self.wrong_field(),
        };
        self.plan(output, body, when);
    }

    /// Mostly one that is refused.
    pub(crate) fn body_for_a_sentence(&mut self) -> Body {
        match self.random.below(100) {
            0..=26 => self.wrong_tagging(),
            27..=38 => self.wrong_field(),
            39..=59 => self.wrong_twice(),
            60..=65 => self.wrong_and_out_of_range(),
            66..=67 => self.out_of_range(),
            68..=69 => self.edge_of_reals(),
            70 => self.edge_of_times(),
            71..=79 => self.edge_of_octets(),
            80..=94 => self.one_bit_wrong(),
            95..=97 => self.any_tags(),
            _ => self.any_tagged_bytes(),
        }
    }

    fn good_fields(&mut self, kind: u8) -> LastCommand {
        let body = self.good_command(kind);
        body.command().expect("its kind is a command's")
    }

    /// Right tags of a command that is not carried out in the end, so that its
    /// times may be of any length; one in four is as long as can be.
    fn some_draft(&mut self) -> Draft {
        let longest = self.random.one_in(4);
        let kind = match longest {
            true => self.random.pick(&[FADE_TO_OVER, RAMP_TO_AT_RATE]),
            false => self.random.pick(&COMMANDS),
        };
        let least = if longest { 4 } else { 1 };
        let mut tags = self.good_fields(kind).tags();
        if longest && tags.iter().all(|tag| tag.number() != DURATION) {
            tags.push(Tag::context(DURATION, &[1]));
        }
        for tag in tags.iter_mut().filter(|tag| tag.number() >= FADE_TIME) {
            let content = some_octets(&mut self.random, least, 4);
            *tag = Tag::context(tag.number(), &content);
        }
        Draft::of(tags)
    }

    fn wrong_tagging(&mut self) -> Body {
        let mut draft = self.some_draft();
        draft.spoil_tagging(&mut self.random);
        draft.body()
    }

    fn wrong_field(&mut self) -> Body {
        let mut draft = self.some_draft();
        draft.spoil_field(&mut self.random);
        draft.body()
    }

    /// 14 is judged over the whole body before any 15.
    fn wrong_twice(&mut self) -> Body {
        let mut draft = self.some_draft();
        draft.spoil_field(&mut self.random);
        draft.spoil_tagging(&mut self.random);
        draft.body()
    }

    /// A command of which each field may be out of its range.
    fn command_out_of_range(&mut self) -> Vec<Tag> {
        let kind = self.random.pick(&COMMANDS);
        let bad_real = self.random.pick(&[0xBF80_0000, 0x42C8_0001, 0x7FC0_0000]);
        let bad_time = self
            .random
            .pick(&[1, SHORTEST - 1, LONGEST + 1, 0xFFFF_FFFF]);
        let mut command = self.good_fields(kind);
        for real in [&mut command.level, &mut command.rate, &mut command.step] {
            if real.is_some() && self.random.chance(50) {
                *real = Some(bad_real);
            }
        }
        if command.fade_time.is_some() && self.random.chance(50) {
            command.fade_time = Some(bad_time);
        }
        if self.random.chance(60) {
            command.duration = Some(bad_time);
        }
        command.tags()
    }

    fn wrong_and_out_of_range(&mut self) -> Body {
        let mut draft = Draft::of(self.command_out_of_range());
        match self.random.chance(50) {
            true => draft.spoil_tagging(&mut self.random),
            false => draft.spoil_field(&mut self.random),
        }
        draft.body()
    }

    fn out_of_range(&mut self) -> Body {
        Draft::of(self.command_out_of_range()).body()
    }

    fn edge_of_reals(&mut self) -> Body {
        let kind = self
            .random
            .pick(&[RAMP_TO_AT_RATE, STEP_UP_BY, STEP_DOWN_BY]);
        let edge = self.random.pick(&values::edge_reals());
        let mut command = self.good_fields(kind);
        for real in [&mut command.rate, &mut command.step] {
            *real = real.map(|_| edge);
        }
        Draft::of(command.tags()).body()
    }

    /// A fade time or a duration at the edges of its range and of 32 bits.
    fn edge_of_times(&mut self) -> Body {
        let edge = self.random.pick(&EDGE_TIMES);
        let mut command = self.good_fields(FADE_TO_OVER);
        match self.random.chance(70) {
            true => command.fade_time = Some(edge),
            false => command.duration = Some(edge),
        }
        Draft::of(command.tags()).body()
    }

    /// A whole number in the fewest octets, or in one more.
    fn edge_of_octets(&mut self) -> Body {
        let value = self.random.pick(&EDGES_OF_OCTETS);
        let mut octets = fewest_octets(value);
        if octets.len() < 4 && self.random.chance(50) {
            octets.insert(0, 0);
        }
        let (kind, number) = match self.random.chance(50) {
            true => (FADE_TO_OVER, FADE_TIME),
            false => (self.random.pick(&COMMANDS), DURATION),
        };
        let mut tags = self.good_fields(kind).tags();
        let edge = Tag::context(number, &octets);
        match tags.iter_mut().find(|tag| tag.number() == number) {
            Some(tag) => *tag = edge,
            None => tags.push(edge),
        }
        Draft::of(tags).body()
    }

    /// A right body but for one bit of L or of the 17 bytes after it.
    fn one_bit_wrong(&mut self) -> Body {
        // In a short one most bits are of the padding.
        let short = [STOP, STEP_UP, STEP_DOWN, RELINQUISH];
        let kind = match self.random.chance(50) {
            true => self.random.pick(&short),
            false => self.random.pick(&COMMANDS),
        };
        let mut body = Draft::of(self.good_fields(kind).tags()).body();
        if let Body::Tagged { length, bytes } = &mut body {
            let bit = 1 << self.random.below(8);
            match self.random.below(1 + bytes.len() as u64) as usize {
                0 => *length ^= bit,
                place => bytes[place - 1] ^= bit,
            }
        }
        body
    }

    /// Any tags, mostly of a good form, in any order.
    fn any_tags(&mut self) -> Body {
        let mut tags = Vec::new();
        for number in 0..=6 {
            if self.random.chance(40) {
                let octets = match number {
                    0 => vec![self.random.below(13) as u8],
                    1..=3 => vec![0x42, 0x48, 0, 0],
                    _ => some_octets(&mut self.random, 1, 4),
                };
                tags.push(Tag::context(number, &octets));
            }
        }
        let mut draft = Draft::of(tags);
        while self.random.chance(40) {
            draft.spoil_tagging(&mut self.random);
        }
        draft.body()
    }

    fn any_tagged_bytes(&mut self) -> Body {
        let length = match self.random.chance(80) {
            true => self.random.between(2, 17) as u8,
            false => self.random.bits() as u8,
        };
        let used = self.random.below(18);
        let mut bytes: Vec<u8> = (0..used).map(|_| self.random.bits() as u8).collect();
        bytes.resize(17, 0);
        if self.random.chance(50) {
            bytes[0] = 0x09;
            bytes[1] = self.random.below(12) as u8;
        }
        Body::Tagged { length, bytes }
    }
}
