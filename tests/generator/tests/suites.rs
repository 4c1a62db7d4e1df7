//! What holds of the suites together.

use generator::{pair, suites, Which};

/// FNV-1a over the first lists of each suite, with and without copies, and over
/// their headings where the suite has headings of its own. A change
/// that adds a suite adds a line here and moves none. Where the panel that the
/// lists are aimed by moves otherwise, lines may move; its note says which.
const LISTS: [(&str, u64); 9] = [
    ("base", 0x4F04_307F_5916_9911),
    ("§1", 0xAAB6_FE9D_AE7B_3C81),
    ("§2", 0x0051_1F2F_91B8_8E34),
    ("§3", 0x3E19_8C29_1C3F_123D),
    ("§4", 0x328C_5F36_1DEE_9994),
    ("§5", 0x914E_007A_0692_CF75),
    ("§6", 0xBDAD_A3E4_8883_577F),
    ("§7", 0x6278_BA03_7A9B_327B),
    ("§8", 0x3BD3_AFBC_1E0D_8CDD),
];

fn digest(bytes: impl Iterator<Item = u8>) -> u64 {
    bytes.fold(0xCBF2_9CE4_8422_2325, |digest, byte| {
        (digest ^ u64::from(byte)).wrapping_mul(0x0000_0100_0000_01B3)
    })
}

#[test]
fn lists_stay_as_they_are() {
    let digests = suites::ALL.map(|suite| {
        let lists = (0..6).map(|number| {
            pair(
                Which {
                    suite,
                    run: 1,
                    number,
                },
                Some(400),
            )
        });
        let frames = lists.flat_map(|pair| {
            let heading = match suite.tables.headings {
                Some(_) => vec![pair.list.heading.text().into_bytes()],
                None => Vec::new(),
            };
            [heading, pair.list.frames, pair.with_copies.frames].concat()
        });
        let with_lengths = frames.flat_map(|frame| [vec![frame.len() as u8], frame].concat());
        (suite.name, digest(with_lengths))
    });
    assert_eq!(digests, LISTS);
}

#[test]
fn the_page_of_events_is_fresh() {
    assert_eq!(suites::names(), include_str!("../../EVENTS.txt"));
}

#[test]
fn shares_and_names() {
    let old = suites::ALL.iter().take(6).map(|suite| suite.share);
    assert_eq!(old.sum::<u64>(), 100);
    for suite in suites::ALL {
        assert!(std::ptr::eq(suites::named(suite.name).unwrap(), suite));
    }
}
