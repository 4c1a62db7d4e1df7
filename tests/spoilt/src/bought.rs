//! What the bought code keeps besides its records: a clock of its own, to which
//! it adds, message by message, the time since the message before.
//!
//! It does not tell a message that comes again from a new one, so it adds that
//! time again and acts again; from then on its clock is ahead of the bus.

use std::cell::Cell;

thread_local! {
    /// How far its clock is ahead of the bus, in milliseconds.
    static AHEAD: Cell<u64> = const { Cell::new(0) };
    /// The time from the message before the last one to the last one.
    static ELAPSED: Cell<u64> = const { Cell::new(0) };
}

pub fn start() {
    AHEAD.set(0);
    ELAPSED.set(0);
}

/// The panel's clock when the bus shows `time`.
pub fn clock_at(time: u64) -> u64 {
    time + AHEAD.get()
}

/// A new message has taken the panel's clock from one moment to another.
pub fn passed(from: u64, to: u64) {
    ELAPSED.set(to.saturating_sub(from));
}

/// A message has come again: where the clock goes to.
pub fn clock_again(clock: u64) -> u64 {
    AHEAD.set(AHEAD.get() + ELAPSED.get());
    clock + ELAPSED.get()
}
