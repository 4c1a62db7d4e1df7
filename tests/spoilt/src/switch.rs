//! Which edit is on.

use std::cell::Cell;

thread_local! {
    /// 0 is none of them.
    static ON: Cell<usize> = const { Cell::new(0) };
}

#[inline]
pub fn is_on(number: usize) -> bool {
    ON.get() == number
}

/// The panels of this thread are spoilt so from now on.
pub fn turn_on(number: usize) {
    ON.set(number);
}
