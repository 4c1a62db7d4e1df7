//! What a jump of time brings to an output: its due moments, one by one.
//!
//! Between two of them nothing of the output changes but how long its movement,
//! its warning and its duration have run, and its burning time, which no event
//! on the way hangs on. So the observer goes there in one step, and lets the
//! plain panel live the due millisecond itself.

use plain::Output;

/// A millisecond in which something falls due.
pub struct Due {
    /// One millisecond before, and then.
    pub before: Output,
    pub after: Output,
    /// Milliseconds from the frame before.
    pub at: u64,
}

impl Due {
    pub fn duration_fires(&self) -> bool {
        self.before
            .duration
            .is_some_and(|running| running.left == 1)
    }

    /// The slot that the duration empties in this millisecond.
    pub fn emptied_slot(&self) -> Option<u8> {
        self.before
            .duration
            .filter(|running| running.left == 1)
            .map(|running| running.slot)
    }
}

/// An output over the milliseconds of one frame.
pub struct Passed {
    pub before: Output,
    pub milliseconds: u64,
    pub due: Vec<Due>,
    /// At the end, with another burning time.
    pub arrived: Output,
}

impl Passed {
    pub fn of(before: &Output, milliseconds: u64) -> Passed {
        let mut arrived = *before;
        let mut gone = 0;
        let mut due = Vec::new();
        while let Some(next) = until_due(&arrived).filter(|next| gone + next <= milliseconds) {
            run_on(&mut arrived, next - 1);
            let just_before = arrived;
            arrived.pass(1);
            gone += next;
            due.push(Due {
                before: just_before,
                after: arrived,
                at: gone,
            });
        }
        run_on(&mut arrived, milliseconds - gone);
        Passed {
            before: *before,
            milliseconds,
            due,
            arrived,
        }
    }
}

/// Milliseconds until the next due moment.
fn until_due(output: &Output) -> Option<u64> {
    let duration = output.duration.map(|running| running.left);
    let movement = output.movement.map(|moving| moving.length - moving.gone);
    let warning = output.warning.map(|warning| {
        let turn = warning.dark_time;
        match warning.gone < turn {
            true => turn - warning.gone,
            false => turn + warning.lit_time - warning.gone,
        }
    });
    [duration, movement, warning].into_iter().flatten().min()
}

/// So many milliseconds in which nothing falls due.
fn run_on(output: &mut Output, milliseconds: u64) {
    if let Some(running) = &mut output.duration {
        running.left -= milliseconds;
    }
    if let Some(warning) = &mut output.warning {
        warning.gone += milliseconds;
    }
    if let Some(movement) = &mut output.movement {
        movement.gone += milliseconds;
        movement.reached = movement.level_after(movement.gone);
    }
}
