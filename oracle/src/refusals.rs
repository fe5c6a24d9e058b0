//! The numbers 10 to 14: what stops the original inside a read.

use std::cell::Cell as StdCell;
use std::panic::{AssertUnwindSafe, catch_unwind};

use tycho_types::cell::{start_clone_log, take_clone_log};

use crate::collator::anchors_cache::AnchorsCacheTransaction;
use crate::collator::messages_reader::externals_reader::hook::Kept;
use crate::questions::Number;

/// More than any walk that ends can take.
const STEPS: u64 = 2_000_000;

const READER_TEXT: &str = include_str!(concat!(env!("OUT_DIR"), "/seed/externals_reader.rs"));
const READER_FILE: &str = "externals_reader.rs";
/// The line of the original that panics where question 12 is answered "no".
const LINE_12: &str = "processed_to_by_partitions.get(&target_partition).unwrap()";

thread_local! {
    static PANIC_LINE: StdCell<Option<u32>> = const { StdCell::new(None) };
}

/// Keeps the line of a panic in the reader's text, and says nothing of it there.
pub fn note_panics() {
    static ONCE: std::sync::Once = std::sync::Once::new();
    ONCE.call_once(|| {
        let default = std::panic::take_hook();
        std::panic::set_hook(Box::new(move |info| {
            let place = info.location();
            if place.is_some_and(|l| l.file().ends_with(READER_FILE)) {
                PANIC_LINE.set(place.map(|l| l.line()));
            } else if !info.payload().is::<tracing::StepBound>() {
                default(info);
            }
        }));
    });
}

/// Makes the call on a copy of the reader (`before` as it was) and of the transaction, and
/// gives the number.
pub fn try_read(
    copy: &mut Kept,
    tx: &mut AnchorsCacheTransaction<'_>,
    before: &Kept,
    places: usize,
    call: impl FnOnce(&mut Kept, &mut AnchorsCacheTransaction<'_>) -> anyhow::Result<()>,
) -> Number {
    PANIC_LINE.set(None);
    tracing::set_bound(STEPS);
    start_clone_log();
    let res = catch_unwind(AssertUnwindSafe(|| call(copy, tx)));
    let log = take_clone_log();
    tracing::set_bound(u64::MAX);

    // a message beyond the lent output was met before whatever stopped the original later
    if log.len() > places {
        return 14;
    }
    match res {
        Ok(Ok(())) => {
            // a message's cell is cloned where the message is put in a buffer, so the order
            // of the entries must be the order of those clones
            let names: Vec<_> = copy.buffered_since(before).iter().map(|e| e.name).collect();
            assert_eq!(names, log);
            0
        }
        Ok(Err(e)) => number_of_error(&e.to_string()),
        Err(payload) if payload.is::<tracing::StepBound>() => 11,
        Err(_) => number_of_panic(),
    }
}

fn number_of_error(text: &str) -> Number {
    if text.starts_with("externals range reader does not contain buffer limits for") {
        10
    } else if text.starts_with("target partition ") {
        13
    } else {
        panic!("the original's error has no number: {text}")
    }
}

fn number_of_panic() -> Number {
    let line = PANIC_LINE.get();
    match line.and_then(|l| READER_TEXT.lines().nth(l as usize - 1)) {
        Some(text) if text.contains(LINE_12) => 12,
        _ => panic!("the original's panic has no number (line {line:?})"),
    }
}
