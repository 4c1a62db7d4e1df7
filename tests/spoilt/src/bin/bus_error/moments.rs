//! The messages of a list that have a row: those after a comment with one #.

use panels::list_text::{read_string, Line};
use plain::frame::{clock_time, time, CLOCK};

pub struct Moment<'a> {
    /// The message's own time; one that is sent again has that of the first.
    pub time: u64,
    pub message: &'a str,
    /// The list up to the message, with it.
    pub so_far: &'a str,
}

pub fn of_list(text: &str) -> Result<Vec<Moment<'_>>, String> {
    let mut moments = Vec::new();
    let mut message = None;
    let mut end = 0;
    for line in text.split_inclusive('\n') {
        end += line.len();
        if let Some(comment) = line.strip_prefix("# ") {
            message = Some(comment.trim());
        } else if let Some(message) = message.take() {
            let Line::Content(bytes) = read_string(line)? else {
                return Err(format!("no message after `{message}`"));
            };
            moments.push(Moment {
                time: match bytes[..] {
                    [CLOCK, ..] => clock_time(&bytes),
                    _ => time(&bytes),
                },
                message,
                so_far: &text[..end],
            });
        }
    }
    Ok(moments)
}
