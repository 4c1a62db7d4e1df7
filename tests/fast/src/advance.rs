//! Bringing an output from one moment to a later one, due moment by due
//! moment: the duration's end, the warning's turn and end, the movement's end.

use crate::output::{Output, WARNING_PRIORITY};

impl Output {
    pub fn advance(&mut self, from: u64, to: u64) {
        let mut now = from;
        while let Some(due) = self.next_due(now).filter(|due| *due <= to) {
            self.burn(now, due);
            now = due;
            self.pass_duration(now);
            self.pass_warning(now);
            self.pass_movement(now);
            self.judge();
        }
        self.burn(now, to);
    }

    /// The next moment after `now` at which something happens by itself.
    fn next_due(&self, now: u64) -> Option<u64> {
        let duration = self.duration.map(|duration| duration.end);
        let movement = self.movement.map(|movement| movement.end());
        let warning = self.warning.map(|warning| {
            if now < warning.turn {
                warning.turn
            } else {
                warning.end
            }
        });
        [duration, movement, warning].into_iter().flatten().min()
    }

    fn pass_duration(&mut self, now: u64) {
        let Some(duration) = self.duration.filter(|duration| duration.end == now) else {
            return;
        };
        self.duration = None;
        self.empty(duration.slot);
        if self.owns_movement(duration.slot) {
            self.movement = None;
        }
    }

    fn pass_warning(&mut self, now: u64) {
        let Some(warning) = self.warning else {
            return;
        };
        if now == warning.end {
            self.end_warning();
            if warning.has_delay() {
                self.empty(warning.slot);
            }
        } else if now == warning.turn {
            self.store(WARNING_PRIORITY, warning.level);
        }
    }

    fn pass_movement(&mut self, now: u64) {
        if self.movement.is_some_and(|movement| movement.end() == now) {
            self.movement = None;
        }
    }

    /// Empties slot 6 and nothing else.
    pub fn end_warning(&mut self) {
        if self.warning.take().is_some() {
            self.empty(WARNING_PRIORITY);
        }
    }
}
