//! States that are put as they stand, without a call: ranges, and rows of the history and of the cached anchors.
use externals::*;

use crate::records::{Bad, Fields};

const HISTORY: usize = 256;
const HISTORY_ROW: usize = 52;
const CACHED: usize = 32;
const CACHED_ROW: usize = 50;
/// Where the rows of the cached anchors begin in the tables.
const CACHED_FROM: usize = HISTORY * HISTORY_ROW;
const MESSAGES: usize = 1024;

pub fn key(f: &mut Fields<'_>) -> ExternalKey {
    ExternalKey { anchor_id: f.u32(), msgs_offset: f.u64() }
}

pub fn limits(f: &mut Fields<'_>) -> [u16; PARTITIONS] {
    std::array::from_fn(|_| f.u16())
}

fn range_of(f: &mut Fields<'_>) -> Range {
    Range {
        seqno: f.u32(),
        from: key(f),
        to: key(f),
        current_position: key(f),
        chain_time: ChainTime(f.u64()),
        fully_read: f.flag(),
        by_partitions: std::array::from_fn(|_| RangePartition { present: f.flag(), count: f.u32(), skip_offset: f.u32(), processed_offset: f.u32() }),
    }
}

/// In place of the range with its seqno, or where its seqno belongs. Whether the reader is then one that the calls take is asked of a call.
pub fn range(e: &mut Externals, f: &mut Fields<'_>) -> Result<(), Bad> {
    let range = range_of(f);
    let old = e.reader().reader_state;
    let mut ranges = e.ranges().to_vec();
    match ranges.binary_search_by_key(&range.seqno, |r| r.seqno) {
        Ok(i) => ranges[i] = range,
        Err(_) if ranges.len() == RANGES => return Err(Bad(5)),
        Err(i) => ranges.insert(i, range),
    }
    let state = &mut e.reader_mut().reader_state;
    state.len = ranges.len();
    state.ranges[..ranges.len()].copy_from_slice(&ranges);
    e.get_partition_ids().map(drop).map_err(|Refused(n)| {
        e.reader_mut().reader_state = old;
        Bad(n)
    })
}

pub fn partition(e: &mut Externals, f: &mut Fields<'_>) {
    let i = f.u8() as usize;
    let partition = Partition { present: f.flag(), processed_to: key(f), curr_processed_offset: f.u32() };
    e.reader_mut().reader_state.by_partitions[i] = partition;
}

pub fn marks(e: &mut Externals, f: &mut Fields<'_>) {
    let reader = e.reader_mut();
    reader.all_ranges_fully_read = f.flag();
    reader.reader_state.last_read_to_anchor_chain_time = SavedTime { present: f.flag(), time: ChainTime(f.u64()) };
}

/// Puts bytes behind the `len` that begin at `first`; where the table has no room behind them all go to its front. Answers where they begin.
fn append(table: &mut [u8], first: usize, len: usize, bytes: &[u8]) -> usize {
    let moved = table.len() < first + len + bytes.len();
    let from = if moved { 0 } else { first };
    table.copy_within(first..first + len, from);
    table[from + len..][..bytes.len()].copy_from_slice(bytes);
    from
}

/// A history entry: the payload is its row.
pub fn history(e: &mut Externals, row: &[u8]) -> Result<(), Bad> {
    let (state, tables, _) = e.parts_mut().map_err(|Refused(n)| Bad(n))?;
    let cache = &mut state.transaction.cache;
    if cache.history_len == HISTORY {
        return Err(Bad(5));
    }
    let from = append(&mut tables[..CACHED_FROM], HISTORY_ROW * cache.history_first, HISTORY_ROW * cache.history_len, row);
    cache.history_first = from / HISTORY_ROW;
    cache.history_len += 1;
    Ok(())
}

/// The cached anchors, front first.
pub fn anchors(e: &Externals) -> Vec<(CachedAnchor, [u8; 32])> {
    (0..e.transaction().cache.len).map(|i| e.get(i).expect("a cache that the calls take").expect("an anchor below the length")).collect()
}

/// A cached anchor, without history: the payload is its row, then its messages.
pub fn cached(e: &mut Externals, p: &[u8]) -> Result<(), Bad> {
    let there = anchors(e);
    let used: usize = there.iter().map(|(a, _)| a.count).sum();
    let (id, ours, count) = (Fields(p).u32(), Fields(&p[44..]).u32() as usize, Fields(&p[48..]).u16() as usize);
    let sound = 0 < ours && ours <= count && count <= 512;
    let above = there.last().is_none_or(|(a, _)| a.id < id);
    let (state, tables, area) = e.parts_mut().map_err(|Refused(n)| Bad(n))?;
    if !sound || !above || there.len() == CACHED || MESSAGES < used + count {
        return Err(Bad(5));
    }
    let cache = &mut state.transaction.cache;
    let end = CACHED_FROM + CACHED * CACHED_ROW;
    cache.first = append(&mut tables[CACHED_FROM..end], CACHED_ROW * cache.first, CACHED_ROW * cache.len, &p[..CACHED_ROW]) / CACHED_ROW;
    cache.base = append(area, MESSAGE_BYTES * cache.base, MESSAGE_BYTES * used, &p[CACHED_ROW..]) / MESSAGE_BYTES;
    cache.len += 1;
    cache.pending = true;
    Ok(())
}

/// Odd numbers in every place that holds nothing.
pub fn odd(e: &mut Externals, n: u32) {
    free::fill_reader(e.reader_mut(), n);
    if let Ok((state, _, _)) = e.parts_mut() {
        free::fill_transaction(&mut state.transaction, n);
    }
}
