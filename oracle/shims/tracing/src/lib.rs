//! Shim of `tracing`: the event macros drop their arguments and count one step.
//! The count bounds a walk that never ends (the text calls an event macro in
//! every turn of its loop), without a change in the text. Two events of the text are noted, from which
//! the range that was read last is known: a range is tried, with its seqno, and a range's read begins.
use std::cell::Cell;

pub use tracing_attr_shim::instrument;

/// Panic payload of a walk that went past the bound.
pub struct StepBound;

thread_local! {
    static LEFT: Cell<u64> = const { Cell::new(u64::MAX) };
    static TRIED: Cell<Option<u32>> = const { Cell::new(None) };
    static READ: Cell<Option<u32>> = const { Cell::new(None) };
}

/// Forgets what was noted in this thread.
pub fn forget() {
    TRIED.set(None);
    READ.set(None);
}

/// The last range that was tried and whose read began, since `forget`.
pub fn last_range_read() -> Option<u32> {
    READ.get()
}

#[doc(hidden)]
pub fn tried(seqno: u32) {
    TRIED.set(Some(seqno));
}

#[doc(hidden)]
pub fn began() {
    READ.set(TRIED.get());
}

/// Allows `n` more steps in this thread.
pub fn set_bound(n: u64) {
    LEFT.with(|l| l.set(n));
}

#[doc(hidden)]
pub fn step() {
    LEFT.with(|l| {
        let n = l.get();
        if n == 0 {
            std::panic::panic_any(StepBound);
        }
        if n != u64::MAX {
            l.set(n - 1);
        }
    });
}

#[macro_export]
macro_rules! trace {
    (target: $t:expr, $seqno:ident, fully_read = $($rest:tt)*) => {{
        $crate::tried($seqno);
        $crate::step()
    }};
    ($($t:tt)*) => {
        $crate::step()
    };
}
#[macro_export]
macro_rules! debug {
    ($($t:tt)*) => {
        $crate::step()
    };
}
#[macro_export]
macro_rules! info {
    (target: $t:expr, next_chain_time, ?read_mode, $($rest:tt)*) => {{
        $crate::began();
        $crate::step()
    }};
    ($($t:tt)*) => {
        $crate::step()
    };
}
