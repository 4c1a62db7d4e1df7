//! A command with its fields as they were written, in whichever form it came.

use crate::frame::*;
use crate::settings::ABSENT_DURATION;
use crate::tags;

/// "The last command is kept with its REALs as they were written", and "Absent
/// where it had none".
#[derive(Clone, Copy, Debug, PartialEq, Eq)]
pub struct LastCommand {
    /// "Kind minus 10", of the plain kind: 0 to 10.
    pub operation: u8,
    pub level: Option<u32>,
    pub rate: Option<u32>,
    pub step: Option<u32>,
    pub fade_time: Option<u32>,
    pub duration: Option<u32>,
}

/// The fields that an operation has besides its duration, by their tags: what
/// the paper's table of kinds adds.
pub fn own_fields(operation: u8) -> &'static [u8] {
    match STOP + operation {
        FADE_TO | RAMP_TO | GOTO => &[tags::LEVEL],
        FADE_TO_OVER => &[tags::LEVEL, tags::FADE_TIME],
        RAMP_TO_AT_RATE => &[tags::LEVEL, tags::RATE],
        STEP_UP_BY | STEP_DOWN_BY => &[tags::STEP],
        _ => &[],
    }
}

impl LastCommand {
    /// "Last operation STOP without duration."
    pub fn fresh() -> LastCommand {
        LastCommand {
            operation: 0,
            level: None,
            rate: None,
            step: None,
            fade_time: None,
            duration: None,
        }
    }

    /// Kinds 10 to 1A: the operation's own fields from left to right, then the
    /// duration.
    pub fn of_plain_kind(bytes: &[u8]) -> LastCommand {
        let operation = bytes[0] - STOP;
        let own_fields = own_fields(operation);
        let mut next_field = 0;
        let mut take = || {
            next_field += 1;
            command_field(bytes, next_field - 1)
        };
        LastCommand {
            operation,
            level: own_fields.contains(&tags::LEVEL).then(&mut take),
            rate: own_fields.contains(&tags::RATE).then(&mut take),
            step: own_fields.contains(&tags::STEP).then(&mut take),
            fade_time: own_fields.contains(&tags::FADE_TIME).then(&mut take),
            // "FFFFFFFF means absent."
            duration: Some(take()).filter(|duration| *duration != ABSENT_DURATION),
        }
    }

    /// The command in a frame of either form; nothing where there is none.
    pub fn of_frame(bytes: &[u8]) -> Option<LastCommand> {
        match bytes[0] {
            STOP..=RELINQUISH => Some(LastCommand::of_plain_kind(bytes)),
            TAGGED_COMMAND => {
                let reading = tags::read(tagged_body(bytes));
                reading.refusal().is_none().then_some(reading.command)
            }
            _ => None,
        }
    }
}
