//! "Passing from t to t + 1."

use crate::output::Output;

impl Output {
    /// Lives `milliseconds` one after the other.
    ///
    /// Where no due moment of any kind is pending (no movement, no warning, no
    /// duration) the record is the same in every millisecond but for the
    /// burning time, and the rest is added in one go: a jump of 2^47 ms cannot
    /// be lived. Nothing else is cut short.
    pub fn pass(&mut self, milliseconds: u64) {
        for lived in 0..milliseconds {
            if self.nothing_pending() {
                if self.progress_value() > 0 {
                    self.burning += milliseconds - lived;
                }
                break;
            }
            self.pass_one_millisecond();
        }
    }

    pub fn nothing_pending(&self) -> bool {
        self.movement.is_none() && self.warning.is_none() && self.duration.is_none()
    }

    /// §2: "burning time gains a millisecond when Progress_Value is above
    /// zero"; "then time is t + 1; then a due duration empties its slot, then
    /// the warning's slots are set, then Progress_Value by the movement's
    /// formula." §3: the relay "is judged after each millisecond's due moments",
    /// once for all of them.
    fn pass_one_millisecond(&mut self) {
        if self.progress_value() > 0 {
            self.burning += 1;
        }
        // The time itself is the panel's; what is counted here is how much of
        // it has gone by in the duration, the warning and the movement.
        self.pass_duration();
        self.pass_warning();
        self.pass_movement();
        self.judge_relay();
    }

    /// "A due duration empties its slot (ending a movement that slot owned)."
    fn pass_duration(&mut self) {
        let Some(duration) = &mut self.duration else {
            return;
        };
        duration.left -= 1;
        if duration.left > 0 {
            return;
        }
        let slot = duration.slot;
        self.duration = None;
        self.empty(slot);
        if self.owns_movement(slot) {
            self.movement = None;
        }
    }
}
