//! A list, and the same with copies put in.

use plain::{Answer, Panel};

use crate::copies::{with_copies, WithCopies};
use crate::list::{generate, List, Onlooker, Which};
use crate::random::Random;

pub struct Pair {
    pub list: List,
    pub with_copies: WithCopies,
}

/// Without a length every list has its own.
pub fn pair(which: Which, length: Option<usize>) -> Pair {
    pair_seen_by(which, length, &mut |_, _, _| {})
}

/// The same; the onlooker sees the list without copies.
pub fn pair_seen_by(which: Which, length: Option<usize>, onlooker: Onlooker) -> Pair {
    let mut random = Random::from_seed(!which.seed());
    let own_length = own_length(&mut random, which);
    let list = generate(which, length.unwrap_or(own_length), onlooker);
    let with_copies = with_copies(&mut random, &list.frames);
    Pair { list, with_copies }
}

/// Many short lists show what is found in the middle of things; long ones
/// build up more, and whole days want one.
fn own_length(random: &mut Random, which: Which) -> usize {
    let length = if let Some((least, most)) = which.suite.tables.length {
        random.between(least, most)
    } else if !which.is_great() && random.chance(40) {
        random.between(1, 120)
    } else {
        random.between(500, 3_000)
    };
    length as usize
}

impl Pair {
    /// The plain panel over the list with copies.
    pub fn live_with_copies(&self) -> (Vec<Answer>, Result<Panel, Answer>) {
        let mut panel = match Panel::start(self.list.heading.parameters()) {
            Ok(panel) => panel,
            Err(answer) => return (Vec::new(), Err(answer)),
        };
        let frames = self.with_copies.frames.iter();
        let answers = frames.map(|bytes| panel.frame(bytes)).collect();
        (answers, Ok(panel))
    }
}
