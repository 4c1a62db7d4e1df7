//! What is needed by panels that mix up the two forms of a command (§1).

use std::cell::Cell;

use crate::frame::{length_of_kind, HEAD_LENGTH, LONGEST_FRAME};
use crate::tags::{Tagged, TAGGED_COMMAND};

const STOP: u8 = 0x10;

thread_local! {
    /// The kind of each output's last command, as its frame had it.
    static LAST_KINDS: Cell<[u8; 64]> = const { Cell::new([STOP; 64]) };
}

pub fn start() {
    LAST_KINDS.set([STOP; 64]);
}

pub fn keep_kind(output: usize, kind: u8) {
    let mut kinds = LAST_KINDS.get();
    kinds[output] = kind;
    LAST_KINDS.set(kinds);
}

/// "Kind minus 10" of the frame, not of the operation.
pub fn kind_minus_ten(output: usize) -> u32 {
    u32::from(LAST_KINDS.get()[output] - STOP)
}

/// Whether two frames are the same once both commands are in their plain form.
pub fn same_command(kept: &[u8; LONGEST_FRAME], bytes: &[u8]) -> bool {
    let length = length_of_kind(kept[0]).unwrap_or(0);
    plain_form(&kept[..length]) == plain_form(bytes)
}

fn plain_form(bytes: &[u8]) -> Vec<u8> {
    let tagged = match bytes.first() {
        Some(&TAGGED_COMMAND) => Tagged::read(bytes).ok(),
        _ => None,
    };
    let Some(tagged) = tagged else {
        return bytes.to_vec();
    };
    let mut plain = vec![tagged.kind];
    plain.extend(&bytes[1..HEAD_LENGTH]);
    let mut fields = tagged.fields();
    let length = length_of_kind(tagged.kind).unwrap_or(0);
    while plain.len() + 4 < length {
        plain.extend(fields.whole().to_be_bytes());
    }
    plain.extend(tagged.duration.unwrap_or(u32::MAX).to_be_bytes());
    plain
}
