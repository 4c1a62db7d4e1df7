//! The fast panel beside the plain one, frame by frame.
//!
//! A program shows its outputs only at the end of a list. The fast panel is at
//! hand after every frame, so it is looked at after every frame.

use generator::Heading;
use panels::plain_panel::found_of_plain;
use panels::{Answer, FastPanel, Panel};

/// The first difference in words.
pub fn check_in_lockstep(heading: &Heading, frames: &[Vec<u8>]) -> Result<(), String> {
    let parameters = heading.parameters();
    let (mut plain, mut fast) = match (
        plain::Panel::start(parameters),
        FastPanel::start(parameters),
    ) {
        (Ok(plain), Ok(fast)) => (plain, fast),
        (Err(expected), Err(answer)) if answer == expected.into() => return Ok(()),
        _ => return Err("the starts differ".to_string()),
    };
    for (index, bytes) in frames.iter().enumerate() {
        let expected: Answer = plain.frame(bytes).into();
        let answer = fast.frame(bytes);
        if answer != expected {
            return Err(format!(
                "frame {index}: expected `{expected}`, got `{answer}`"
            ));
        }
        if fast.kept.time != plain.time() {
            return Err(format!("frame {index}: the times differ"));
        }
        for (output, plain_output) in plain.outputs().iter().enumerate() {
            let expected = found_of_plain(plain_output);
            let found = fast.found_of(output);
            if found != expected {
                return Err(format!(
                    "frame {index}, output {output}: expected\n{expected}got\n{found}"
                ));
            }
        }
    }
    Ok(())
}
