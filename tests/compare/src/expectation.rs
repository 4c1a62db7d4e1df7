//! What the plain panel says should be written, and the first difference.

use generator::Heading;
use panels::list_text::refused_start;
use panels::plain_panel::found_of_plain;
use panels::replay::write_found;
use panels::Answer;

pub struct Expectation {
    pub answers: Vec<Answer>,
    /// The lines from `--` to the end, or the one line of a panel that is not
    /// started (§6).
    pub found: String,
}

impl Expectation {
    pub fn new(
        heading: &Heading,
        answers: &[plain::Answer],
        panel: &Result<plain::Panel, plain::Answer>,
    ) -> Expectation {
        let found = match panel {
            Ok(panel) => text_of_found(panel),
            Err(answer) => {
                let wrong = refused_start(&heading.parameters(), (*answer).into());
                format!("line 1: {wrong}\n")
            }
        };
        Expectation {
            answers: answers.iter().map(|answer| (*answer).into()).collect(),
            found,
        }
    }

    /// Compares all that a subject wrote; the first difference in words.
    pub fn compare(&self, written: &str, frames: &[Vec<u8>]) -> Result<(), String> {
        let mut lines = written.lines();
        for (index, (answer, frame)) in self.answers.iter().zip(frames).enumerate() {
            let line = lines.next().unwrap_or("nothing");
            if line != answer.to_string() {
                return Err(format!(
                    "frame {index} (from 0), {}: expected `{answer}`, got `{line}`",
                    hexadecimal(frame)
                ));
            }
        }
        let mut output = "before the first output";
        for expected in self.found.lines() {
            let line = lines.next().unwrap_or("nothing");
            if line != expected {
                return Err(format!(
                    "found, {output}: expected `{expected}`, got `{line}`"
                ));
            }
            if expected.starts_with("output ") {
                output = expected;
            }
        }
        match lines.next() {
            Some(line) => Err(format!("after the end: got `{line}`")),
            None => Ok(()),
        }
    }
}

fn text_of_found(panel: &plain::Panel) -> String {
    let found: Vec<_> = panel.outputs().iter().map(found_of_plain).collect();
    let mut text = Vec::new();
    write_found(&mut text, &found).expect("a Vec takes everything");
    String::from_utf8(text).expect("only ASCII was written")
}

fn hexadecimal(bytes: &[u8]) -> String {
    let mut text = String::new();
    panels::list_text::write_string(&mut text, bytes);
    text.trim_end().to_string()
}
