//! A spoilt panel over a list, until it is told from the plain panel.

use std::fmt;
use std::panic::catch_unwind;

use generator::{Pair, Which};
use panels::plain_panel::found_of_plain;
use panels::{Answer, Found, Panel, Parameters};
use spoilt::{switch, SpoiltPanel};

/// A list with what the plain panel answers and what is found after it: all
/// that a replay program shows.
pub struct Expected<'a> {
    which: Which,
    with_copies: bool,
    parameters: Parameters,
    frames: &'a [Vec<u8>],
    answers: Vec<Answer>,
    /// What the start is answered if it is refused (§6).
    found: Result<Vec<Found>, Answer>,
}

/// What told a panel apart.
enum Sign {
    Start { expected: Answer, got: Answer },
    Answer { expected: Answer, got: Answer },
    Found { output: usize },
    Panic,
}

pub struct Difference {
    which: Which,
    with_copies: bool,
    /// From 0; the number of frames for what is found after the last.
    frame: usize,
    sign: Sign,
}

impl<'a> Expected<'a> {
    /// The list without and with copies.
    pub fn of_pair(which: Which, pair: &'a Pair) -> [Expected<'a>; 2] {
        let (answers, panel) = pair.live_with_copies();
        let list = &pair.list;
        let found = |panel: &Result<plain::Panel, plain::Answer>| match panel {
            Ok(panel) => Ok(panel.outputs().iter().map(found_of_plain).collect()),
            Err(answer) => Err((*answer).into()),
        };
        let expected = |with_copies, frames, answers: &[plain::Answer], panel| Expected {
            which,
            with_copies,
            parameters: list.heading.parameters(),
            frames,
            answers: answers.iter().map(|answer| (*answer).into()).collect(),
            found: found(panel),
        };
        [
            expected(false, &list.frames, &list.answers, &list.panel),
            expected(true, &pair.with_copies.frames, &answers, &panel),
        ]
    }

    pub fn first_difference(&self, number: usize) -> Option<Difference> {
        switch::turn_on(number);
        let difference = |frame, sign| {
            Some(Difference {
                which: self.which,
                with_copies: self.with_copies,
                frame,
                sign,
            })
        };
        let started = catch_unwind(|| SpoiltPanel::start(self.parameters));
        let (mut panel, expected) = match (started, &self.found) {
            (Ok(Ok(panel)), Ok(found)) => (panel, found),
            (Ok(Err(got)), Err(expected)) if got == *expected => return None,
            (Ok(started), expected) => {
                let answer = |refused: Option<&Answer>| refused.copied().unwrap_or(Answer::Done);
                let sign = Sign::Start {
                    expected: answer(expected.as_ref().err()),
                    got: answer(started.as_ref().err()),
                };
                return difference(0, sign);
            }
            (Err(_), _) => return difference(0, Sign::Panic),
        };
        for (index, (bytes, expected)) in self.frames.iter().zip(&self.answers).enumerate() {
            let mut next = panel;
            let Ok((answer, next)) = catch_unwind(move || (next.frame(bytes), next)) else {
                return difference(index, Sign::Panic);
            };
            panel = next;
            if answer != *expected {
                let expected = *expected;
                let sign = Sign::Answer {
                    expected,
                    got: answer,
                };
                return difference(index, sign);
            }
        }
        let Ok(found) = catch_unwind(move || panel.found()) else {
            return difference(self.frames.len(), Sign::Panic);
        };
        let output = (0..expected.len()).find(|output| found[*output] != expected[*output])?;
        difference(self.frames.len(), Sign::Found { output })
    }
}

impl fmt::Display for Difference {
    fn fmt(&self, formatter: &mut fmt::Formatter) -> fmt::Result {
        let Difference { which, frame, .. } = self;
        let copies = if self.with_copies { " with copies" } else { "" };
        let (suite, list) = (which.suite.name, which.number);
        write!(formatter, "{suite}, list {list}{copies}, ")?;
        match &self.sign {
            Sign::Start { expected, got } => write!(formatter, "the start: {got}, not {expected}"),
            Sign::Answer { expected, got } => {
                write!(formatter, "frame {frame}: {got}, not {expected}")
            }
            Sign::Found { output } => {
                write!(formatter, "found of output {output} after {frame} frames")
            }
            Sign::Panic => write!(formatter, "frame {frame}: the panel stops"),
        }
    }
}
