//! With nothing switched on, the panel with all edits in it is the fast panel.

use generator::{pair, suites, Which};
use panels::{FastPanel, Panel};
use spoilt::{switch, SpoiltPanel};

#[test]
fn it_is_the_fast_panel() {
    switch::turn_on(0);
    for suite in suites::ALL {
        for number in 0..3 {
            let run = 1;
            let list = pair(Which { suite, run, number }, Some(300)).list;
            let parameters = list.heading.parameters();
            let started = (FastPanel::start(parameters), SpoiltPanel::start(parameters));
            let (mut fast, mut unspoilt) = match started {
                (Ok(fast), Ok(unspoilt)) => (fast, unspoilt),
                (fast, unspoilt) => {
                    assert_eq!(fast.err(), unspoilt.err());
                    continue;
                }
            };
            for bytes in &list.frames {
                assert_eq!(unspoilt.frame(bytes), fast.frame(bytes));
                assert_eq!(unspoilt.found(), fast.found());
            }
        }
    }
}
