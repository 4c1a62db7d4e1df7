//! What is needed by a panel that keeps Binary_Active_Value as it was written
//! (§3).

use std::cell::Cell;

use crate::answer::{Answer, Refusal};
use crate::frame::{u32_at, HEAD_LENGTH};

const FIFTY_PERCENT: u32 = 0x4248_0000;

thread_local! {
    /// Each output's REAL.
    static KEPT: Cell<[u32; 64]> = const { Cell::new([FIFTY_PERCENT; 64]) };
}

pub fn start() {
    KEPT.set([FIFTY_PERCENT; 64]);
}

/// Keeps what was written to property 17, and answers it when that is read.
pub fn written_or_read(
    output: usize,
    bytes: &[u8],
    answer: Result<Answer, Refusal>,
) -> Result<Answer, Refusal> {
    let mut kept = KEPT.get();
    match (bytes[0], bytes[HEAD_LENGTH], answer) {
        (0x04, 0x17, Ok(_)) => {
            kept[output] = u32_at(bytes, HEAD_LENGTH + 1);
            KEPT.set(kept);
        }
        (0x05, 0x17, Ok(_)) => return Ok(Answer::Value(kept[output])),
        _ => {}
    }
    answer
}
