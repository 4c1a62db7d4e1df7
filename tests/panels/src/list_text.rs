//! Lists as text.
//!
//! The first line that is no comment is the heading: `outputs C`, then any of
//! `stations S`, `fade F`, `duration D` (§6) and `tenants HEX` (§8), each at most
//! once and in any order. Those that are left out are the old panel's, which has
//! no tenants. Every further line is a string of bytes in hexadecimal, either
//! case, with blanks allowed between bytes; `-` is the empty string. Blank lines
//! and lines that begin with `#` are comments.

use std::fmt::Write;

use plain::parameters::TENANTS;

use crate::{Answer, Parameter, Parameters};

/// What a line after the first holds.
pub enum Line {
    Comment,
    Content(Vec<u8>),
}

fn is_comment(line: &str) -> bool {
    line.is_empty() || line.starts_with('#')
}

const BLANKS: [char; 3] = [' ', '\t', '\r'];

const NO_OUTPUTS: &str = "the first line is to be `outputs N`";
const NO_COUNT: &str = "N is to be 1 to 64";
const BAD_WORD: &str =
    "after `outputs N` may come `stations S`, `fade F`, `duration D` and `tenants HEX`, each once";
const NO_MARKS: &str = "HEX is to be 1 to 8 hexadecimal digits";

/// Reads a heading, whatever its numbers are; nothing for a comment.
pub fn read_heading(line: &str) -> Result<Option<Parameters>, String> {
    let line = line.trim_start_matches(BLANKS);
    if is_comment(line) {
        return Ok(None);
    }
    // There must be a blank or more after the word.
    let further = line
        .strip_prefix(Parameter::Outputs.name())
        .filter(|further| further.starts_with(BLANKS))
        .ok_or(NO_OUTPUTS)?;
    let mut words = further.split(BLANKS).filter(|word| !word.is_empty());
    let outputs = words.next().and_then(read_number).ok_or(NO_COUNT)?;
    let mut parameters = Parameters::of_old_panel(outputs);
    let further = [Parameter::Stations, Parameter::Fade, Parameter::Duration];
    // Nothing stands for the word `tenants`, which is no number of the set.
    let mut left: Vec<Option<Parameter>> = further.into_iter().map(Some).chain([None]).collect();
    while let Some(word) = words.next() {
        let name = |parameter: &Option<Parameter>| parameter.map_or(TENANTS, Parameter::name);
        let place = left.iter().position(|parameter| name(parameter) == word);
        match left.remove(place.ok_or(BAD_WORD)?) {
            Some(parameter) => {
                let number = words.next().and_then(read_number).ok_or(BAD_WORD)?;
                parameters.set(parameter, number);
            }
            None => {
                let digits = words.next();
                // Without a blank after it a word is not whole, as with `outputs`.
                let is_whole = digits.is_some() || line.ends_with(BLANKS);
                let missing = if is_whole { NO_MARKS } else { BAD_WORD };
                parameters.tenants = digits.and_then(read_marks).ok_or(missing)?;
            }
        }
    }
    Ok(Some(parameters))
}

/// Digits alone. What 32 bits do not hold is out of every range, as their
/// greatest number is.
fn read_number(digits: &str) -> Option<u32> {
    digits.bytes().try_fold(0_u32, |number, digit| {
        let value = digit.is_ascii_digit().then(|| digit - b'0')?;
        Some(number.saturating_mul(10).saturating_add(value.into()))
    })
}

/// The word that marks tenants: 1 to 8 digits of either case, as they are.
fn read_marks(digits: &str) -> Option<u32> {
    let is_digit = |digit: u8| hexadecimal_digit(digit).is_ok();
    let is_good = (1..=8).contains(&digits.len()) && digits.bytes().all(is_digit);
    is_good.then(|| u32::from_str_radix(digits, 16).ok())?
}

/// What is wrong with a set that a panel did not start with.
pub fn refused_start(parameters: &Parameters, answer: Answer) -> String {
    match parameters.out_of_range() {
        Some(parameter) => {
            let (name, range) = (parameter.name(), parameter.range());
            format!(
                "`{name}` is to be {} to {}: {answer}",
                range.start(),
                range.end()
            )
        }
        None => answer.to_string(),
    }
}

pub fn read_string(line: &str) -> Result<Line, String> {
    let line = line.trim();
    if is_comment(line) {
        return Ok(Line::Comment);
    }
    let mut bytes = Vec::new();
    if line != "-" {
        for word in line.split_ascii_whitespace() {
            read_word(word, &mut bytes)?;
        }
    }
    Ok(Line::Content(bytes))
}

/// Blanks stand between bytes, never inside one.
fn read_word(word: &str, bytes: &mut Vec<u8>) -> Result<(), String> {
    for pair in word.as_bytes().chunks(2) {
        let [high, low] = pair else {
            return Err(format!("half a byte at the end of `{word}`"));
        };
        bytes.push(hexadecimal_digit(*high)? << 4 | hexadecimal_digit(*low)?);
    }
    Ok(())
}

fn hexadecimal_digit(character: u8) -> Result<u8, String> {
    match character {
        b'0'..=b'9' => Ok(character - b'0'),
        b'a'..=b'f' => Ok(character - b'a' + 10),
        b'A'..=b'F' => Ok(character - b'A' + 10),
        _ => Err(format!(
            "`{}` is no hexadecimal digit",
            char::from(character).escape_default()
        )),
    }
}

/// Writes one string of bytes as its line.
pub fn write_string(text: &mut String, bytes: &[u8]) {
    if bytes.is_empty() {
        text.push('-');
    }
    for byte in bytes {
        write!(text, "{byte:02X}").expect("a String takes everything");
    }
    text.push('\n');
}

/// Writes a whole list under its heading.
pub fn write_list(heading: &str, frames: &[Vec<u8>]) -> String {
    let mut text = format!("{heading}\n");
    for bytes in frames {
        write_string(&mut text, bytes);
    }
    text
}
