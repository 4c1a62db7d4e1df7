//! Frames in the making.

use plain::frame::{
    length_of_kind, CLOCK, EMPTY_A_SLOT, READ_PROPERTY, STOP, TAGGED_COMMAND, WRITE_PRESENT_VALUE,
    WRITE_PROPERTY,
};
use plain::last_command::LastCommand;
use plain::settings::ABSENT_DURATION;

#[derive(Clone, Debug)]
pub enum Body {
    Write {
        priority: u8,
        bits: u32,
    },
    Empty {
        priority: u8,
    },
    WriteProperty {
        property: u8,
        value: u32,
    },
    Read {
        property: u8,
    },
    /// All fields of a command have four bytes; the duration stands last.
    Command {
        kind: u8,
        fields: Vec<u32>,
    },
    /// A command in tags (§1): L and the 17 bytes after it.
    Tagged {
        length: u8,
        bytes: Vec<u8>,
    },
}

#[derive(Clone, Copy, Debug)]
pub struct Head {
    pub station: u8,
    pub number: u32,
    pub time: u64,
    pub output: u8,
}

pub fn clock(time: u64) -> Vec<u8> {
    let mut bytes = vec![CLOCK];
    bytes.extend(six_bytes(time));
    bytes
}

fn six_bytes(time: u64) -> [u8; 6] {
    let bytes = time.to_be_bytes();
    std::array::from_fn(|index| bytes[index + 2])
}

impl Body {
    pub fn bytes(&self, head: Head) -> Vec<u8> {
        let mut bytes = vec![head.station];
        bytes.extend(head.number.to_be_bytes());
        bytes.extend(six_bytes(head.time));
        bytes.push(head.output);
        self.with_head(&bytes)
    }

    /// The kind, the twelve bytes of a head, and the rest.
    pub fn with_head(&self, head: &[u8]) -> Vec<u8> {
        let kind = match self {
            Body::Write { .. } => WRITE_PRESENT_VALUE,
            Body::Empty { .. } => EMPTY_A_SLOT,
            Body::WriteProperty { .. } => WRITE_PROPERTY,
            Body::Read { .. } => READ_PROPERTY,
            Body::Command { kind, .. } => *kind,
            Body::Tagged { .. } => TAGGED_COMMAND,
        };
        let mut bytes = vec![kind];
        bytes.extend(head);
        match self {
            Body::Write { priority, bits } => {
                bytes.push(*priority);
                bytes.extend(bits.to_be_bytes());
            }
            Body::Empty { priority } => bytes.push(*priority),
            Body::WriteProperty { property, value } => {
                bytes.push(*property);
                bytes.extend(value.to_be_bytes());
            }
            Body::Read { property } => bytes.push(*property),
            Body::Command { fields, .. } => {
                for field in fields {
                    bytes.extend(field.to_be_bytes());
                }
            }
            Body::Tagged {
                length,
                bytes: tags,
            } => {
                bytes.push(*length);
                bytes.extend(tags);
            }
        }
        debug_assert_eq!(length_of_kind(kind), Some(bytes.len()));
        bytes
    }

    /// The plain kind of a command.
    pub fn plain_command(command: &LastCommand) -> Body {
        let own_fields = [command.level, command.rate, command.step, command.fade_time];
        let mut fields: Vec<u32> = own_fields.into_iter().flatten().collect();
        fields.push(command.duration.unwrap_or(ABSENT_DURATION));
        Body::Command {
            kind: STOP + command.operation,
            fields,
        }
    }

    /// What the plain kind of a command says.
    pub fn command(&self) -> Option<LastCommand> {
        matches!(self, Body::Command { .. })
            .then(|| LastCommand::of_plain_kind(&self.with_head(&[0; 12])))
    }
}
