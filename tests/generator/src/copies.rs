//! The same list with copies of earlier frames put in at later places.

use crate::random::Random;

pub struct WithCopies {
    pub frames: Vec<Vec<u8>>,
    /// For each frame, whether it is one of the list without copies.
    pub is_original: Vec<bool>,
}

/// Any frame may be copied any number of times, the refused ones and the
/// clocks too; copies of fresh frames and of the latest are more frequent.
pub fn with_copies(random: &mut Random, frames: &[Vec<u8>]) -> WithCopies {
    let mut with_copies = WithCopies {
        frames: Vec::new(),
        is_original: Vec::new(),
    };
    // From hardly any copies to many more copies than originals.
    let copies_in_a_hundred = random.pick(&[2, 10, 30, 60, 75]);
    for (index, frame) in frames.iter().enumerate() {
        with_copies.frames.push(frame.clone());
        with_copies.is_original.push(true);
        while random.chance(copies_in_a_hundred) {
            let back = match random.below(3) {
                0 => 0,
                1 => random.below(index as u64 + 1).min(12),
                _ => random.below(index as u64 + 1),
            };
            with_copies
                .frames
                .push(frames[index - back as usize].clone());
            with_copies.is_original.push(false);
        }
    }
    with_copies
}
