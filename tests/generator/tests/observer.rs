//! The observer goes from due moment to due moment; the plain panel lives every
//! millisecond. Both come to the same, burning time apart.

use events::passing::Passed;
use generator::{pair, suites, Which};
use plain::{frame, Panel};

#[test]
fn it_comes_to_what_the_panel_lives() {
    let mut compared = 0;
    for (suite, number) in suites::ALL
        .into_iter()
        .flat_map(|suite| [0, 1, 2].map(|i| (suite, i)))
    {
        let list = pair(
            Which {
                suite,
                run: 1,
                number,
            },
            Some(200),
        )
        .list;
        let Ok(mut panel) = Panel::start(list.heading.parameters()) else {
            continue;
        };
        for bytes in &list.frames {
            let (before, time) = (panel.outputs().to_vec(), panel.time());
            let arrivals = panel.first_arrivals().len();
            panel.frame(bytes);
            let acted_on = (panel.first_arrivals().len() > arrivals)
                .then(|| usize::from(frame::output(bytes)));
            for (index, output) in before.iter().enumerate() {
                if acted_on == Some(index) {
                    continue;
                }
                let mut arrived = Passed::of(output, panel.time() - time).arrived;
                let lived = &panel.outputs()[index];
                arrived.burning = lived.burning;
                assert_eq!(&arrived, lived);
                compared += 1;
            }
        }
    }
    assert!(compared > 1_000);
}
