//! Panics that are expected, without their messages: rpds refuses a bad range by a panic.
use std::cell::Cell;
use std::panic::{self, AssertUnwindSafe};

thread_local! {
    static QUIET: Cell<bool> = const { Cell::new(false) };
}

/// From here on a panic inside `panics` prints nothing; any other prints what it always did.
pub fn install() {
    let loud = panic::take_hook();
    panic::set_hook(Box::new(move |info| {
        if !QUIET.get() {
            loud(info);
        }
    }));
}

/// Whether the work panics.
pub fn panics(work: impl FnOnce()) -> bool {
    QUIET.set(true);
    let result = panic::catch_unwind(AssertUnwindSafe(work));
    QUIET.set(false);
    result.is_err()
}
