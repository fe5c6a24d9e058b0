//! For tests: the numbers in places that hold nothing. No question looks at them and no call sets them.
use crate::types::*;

/// Odd numbers in a range's absent partitions.
pub fn fill_range(range: &mut Range, n: u32) {
    for p in range.by_partitions.iter_mut().filter(|p| !p.present) {
        *p = RangePartition { count: n | 5001, skip_offset: n | 3, processed_offset: n | 5, present: false };
    }
}

/// In the ranges behind the count, the absent partitions and a saved time that is not marked.
pub fn fill_reader(reader: &mut Reader, n: u32) {
    let key = ExternalKey { anchor_id: n | 77, msgs_offset: u64::from(n) | 78 };
    let state = &mut reader.reader_state;
    let len = state.len.min(RANGES);
    if !state.last_read_to_anchor_chain_time.present {
        state.last_read_to_anchor_chain_time.time = ChainTime(u64::from(n) | 7);
    }
    for p in state.by_partitions.iter_mut().filter(|p| !p.present) {
        *p = Partition { processed_to: key, curr_processed_offset: n | 79, present: false };
    }
    for range in &mut state.ranges[len..] {
        let chain_time = ChainTime(u64::from(n) | 92);
        *range = Range { seqno: n | 91, from: key, to: key, current_position: key, chain_time, fully_read: true, ..Range::default() };
    }
    for range in &mut state.ranges {
        fill_range(range, n);
    }
}

/// In what a rollback would restore, where no transaction is open.
pub fn fill_transaction(t: &mut Transaction, n: u32) {
    if !t.active {
        let n = n as usize;
        t.undo = AnchorsCache { first: n | 71, len: n | 72, history_first: n | 73, history_len: n | 74, base: n | 75, pending: n % 2 == 0 };
        t.committed = n % 4 < 2;
    }
}

/// Whether what holds nothing before and after a call is as it was.
pub fn is_kept(was: &State, now: &State) -> bool {
    let (old, new) = (&was.reader.reader_state, &now.reader.reader_state);
    let time = new.last_read_to_anchor_chain_time;
    let mut partitions = old.by_partitions.iter().zip(&new.by_partitions);
    let (t, u) = (&was.transaction, &now.transaction);
    (time.present || time.time == old.last_read_to_anchor_chain_time.time)
        && partitions.all(|(p, q)| p == q || p.present || q.present)
        && (t.active || u.active || (t.undo, t.committed) == (u.undo, u.committed))
}
