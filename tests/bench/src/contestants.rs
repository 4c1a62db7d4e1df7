//! The panels that are timed inside this process.

use generator::stream::Stream;
use panels::{FastPanel, Panel};

pub trait Contestant {
    fn name(&self) -> &str;

    /// Starts a panel and takes all frames of the stream. The digest is made
    /// of all answers: equal answers have equal digests.
    fn run(&mut self, stream: &Stream) -> Result<u64, String>;
}

/// The panels that run in this process. The proved one does not: its replay
/// program is timed with `--program`.
pub fn all_in_process() -> Vec<Box<dyn Contestant>> {
    vec![Box::new(Fast::<true>), Box::new(Fast::<false>)]
}

pub const EMPTY_DIGEST: u64 = 0xCBF2_9CE4_8422_2325;

/// One answer more, as 40 bits: the case, and what it carries.
pub fn digest(digest: u64, answer: panels::Answer) -> u64 {
    let (case, carried) = match answer {
        panels::Answer::Done => (0, 0),
        panels::Answer::Value(value) => (1, value),
        panels::Answer::Absent => (2, 0),
        panels::Answer::Refused(number) => (3, u32::from(number)),
    };
    (digest ^ (case << 32 | u64::from(carried))).wrapping_mul(0x0000_0100_0000_01B3)
}

/// The fast panel, with or without the check of all record rules.
struct Fast<const CHECK: bool>;

impl<const CHECK: bool> Contestant for Fast<CHECK> {
    fn name(&self) -> &str {
        if CHECK {
            "fast, rules checked"
        } else {
            "fast, not checked"
        }
    }

    fn run(&mut self, stream: &Stream) -> Result<u64, String> {
        let started = FastPanel::start(stream.heading().parameters());
        let mut panel = started.map_err(|answer| answer.to_string())?;
        let FastPanel {
            outputs,
            stations,
            kept,
        } = &mut panel;
        let mut all = EMPTY_DIGEST;
        for bytes in &stream.frames {
            let answer = fast::frame::<CHECK>(outputs, stations, kept, bytes);
            all = digest(all, answer.into());
        }
        Ok(all)
    }
}
