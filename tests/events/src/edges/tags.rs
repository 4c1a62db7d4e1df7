//! Which edges of a tagged body (§1) a list has tried.

use plain::tag_writer::fewest_octets;
use plain::tags::*;

/// Whole numbers at the edges of one, two, three and four octets, and of their
/// range.
pub const EDGES_OF_OCTETS: [u32; 10] = [
    0,
    255,
    256,
    65_535,
    65_536,
    16_777_215,
    16_777_216,
    86_400_000,
    86_400_001,
    0xFFFF_FFFF,
];

#[derive(Clone, Copy, Debug, PartialEq, Eq, PartialOrd, Ord)]
pub enum TagEdge {
    /// A whole number in the fewest octets, or in one more.
    Octets { tag: u8, value: u32, octets: usize },
    /// The body is refused for this bit alone: with it turned it would be
    /// read. Byte 0 is L.
    OneBit { byte: usize, bit: u8 },
}

const BYTES: usize = 1 + LONGEST_BODY as usize;

pub fn expected() -> Vec<TagEdge> {
    let mut edges = Vec::new();
    for tag in [FADE_TIME, DURATION] {
        for value in EDGES_OF_OCTETS {
            let fewest = fewest_octets(value).len();
            for octets in fewest..=4.min(fewest + 1) {
                edges.push(TagEdge::Octets { tag, value, octets });
            }
        }
    }
    edges.extend(all_bits());
    edges
}

fn all_bits() -> impl Iterator<Item = TagEdge> {
    (0..BYTES).flat_map(|byte| (0..8).map(move |bit| TagEdge::OneBit { byte, bit }))
}

/// The edges that a body of L and 17 bytes stands on.
pub fn edges(body: &[u8]) -> Vec<TagEdge> {
    let reading = read(body);
    let mut edges = Vec::new();
    let only_octets = |fault: &Fault| fault.cause == Cause::NotInFewestOctets;
    if reading.faults.iter().all(only_octets) {
        let (used, _) = used_and_padding(body);
        for tag in tags_of(used) {
            let (value, octets) = (tag.value(), tag.content.len());
            let at_most = fewest_octets(value).len() + 1;
            if tag.number() >= FADE_TIME && octets <= at_most && EDGES_OF_OCTETS.contains(&value) {
                let tag = tag.number();
                edges.push(TagEdge::Octets { tag, value, octets });
            }
        }
    }
    if !reading.faults.is_empty() {
        edges.extend(all_bits().filter(|edge| {
            let TagEdge::OneBit { byte, bit } = edge else {
                return false;
            };
            let mut turned = body.to_vec();
            turned[*byte] ^= 1 << bit;
            read(&turned).faults.is_empty()
        }));
    }
    edges
}
