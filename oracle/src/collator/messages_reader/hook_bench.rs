//! The original's calls on states made ready before, so that it can be measured beside another
//! implementation on the same input (`../bench`). Only the calls themselves are timed.

use std::hint::black_box;
use std::sync::Arc;
use std::time::{Duration, Instant};

use tycho_block_util::queue::{RouterAddr, RouterPartitions};

use super::*;
use crate::collator::anchors_cache::hook as cache_hook;
use crate::mempool::MempoolAnchor;
use crate::questions::mempool_anchor;
pub use crate::records::{Anchor, Message};

pub struct Input {
    /// Workchain and prefix.
    pub shard: (i32, u64),
    pub settings: Settings,
    pub ranges: Vec<(u32, RangeRecord)>,
    /// Workchain, account, partition.
    pub routes: Vec<(i8, [u8; 32], u8)>,
    pub anchors: Vec<Anchor>,
    /// What `Call::Add` adds.
    pub added: Option<Anchor>,
}

#[derive(Clone, Copy)]
pub enum Call {
    /// One range's read, in the mode `ToTheEnd`.
    ReadOne(u32),
    /// The read of all ranges, in the mode `Continue`.
    ReadAll,
    /// `pop_front`, of the cache or of an open transaction.
    Pop {
        open: bool,
    },
    Add,
    /// Open, so many pops, rollback, close.
    Open {
        pops: usize,
    },
    /// No call of the reader: its messages made and put into a buffer, as the read does.
    Fill,
}

/// What two implementations must agree on: the counts of all calls, and the last state.
#[derive(Debug, Default, Clone, Copy, PartialEq, Eq)]
pub struct Outcome {
    pub read: u64,
    pub expired: u64,
    pub buffered: u64,
    pub position: (u32, u64),
    pub fully_read: usize,
    pub cached: usize,
    pub history: usize,
    pub pending: bool,
}

/// Is handed the time of the calls and what came of them, before anything is freed. Not a type parameter, so that all
/// of this is compiled together with the original.
pub type Done<'a> = &'a mut dyn FnMut(Duration, Outcome);

impl Outcome {
    fn add(&mut self, metrics: &MessagesReaderMetricsByPartitions) {
        for c in counts_of(metrics).values() {
            self.read += c.read;
            self.expired += c.expired;
            self.buffered += c.buffered;
        }
    }
    fn see_reader(&mut self, state: &ExternalsReaderState) {
        if let Some((_, r)) = state.ranges.last_key_value() {
            self.position =
                (r.range.current_position.anchor_id, r.range.current_position.msgs_offset);
        }
        self.fully_read = state.ranges.values().filter(|r| r.fully_read).count();
    }
    fn see_cache(&mut self, cache: &AnchorsCache) {
        self.cached = cache_hook::cached_len(cache);
        self.history = cache_hook::history(cache).len();
        self.pending = cache.has_pending_externals();
    }
}

type Anchors = Vec<(Arc<MempoolAnchor>, usize)>;

fn made(a: &Anchor) -> (Arc<MempoolAnchor>, usize) {
    (mempool_anchor(a.id.into(), a), a.ours as usize)
}

fn filled(anchors: &Anchors) -> AnchorsCache {
    let mut cache = AnchorsCache::default();
    anchors.iter().for_each(|(a, ours)| cache.add(a.clone(), *ours));
    cache
}

fn kept(input: &Input) -> Kept {
    let shard = ShardIdent::new(input.shard.0, input.shard.1).expect("question 2");
    let mut kept = Kept::new(shard, &input.settings);
    input.ranges.iter().for_each(|(seqno, r)| kept.put_range(*seqno, r));
    kept
}

fn router(input: &Input) -> PartitionRouter {
    let mut dst = RouterPartitions::new();
    for (workchain, account, partition) in &input.routes {
        let addr = RouterAddr { workchain: *workchain, account: HashBytes(*account) };
        dst.entry(QueuePartitionIdx((*partition).into())).or_default().insert(addr);
    }
    PartitionRouter::with_partitions(&RouterPartitions::new(), &dst)
}

type Processed = BTreeMap<QueuePartitionIdx, ExternalKey>;

fn read_one(
    r: &mut ExternalsReader<'_, '_>,
    seqno: u32,
    processed: &Processed,
    timeout: u64,
    router: &PartitionRouter,
) -> MessagesReaderMetricsByPartitions {
    let read = read_externals_into_buffers(
        &r.for_shard_id,
        &seqno,
        r.anchors_cache,
        r.reader_state.ranges.get_mut(&seqno).expect("in the input"),
        &r.buffer_limits_by_partitions,
        ReadNextExternalsMode::ToTheEnd,
        router,
        processed,
        timeout,
    );
    read.expect("not refused").metrics_by_partitions
}

/// Times `call` on each; answers are kept, so that nothing is freed in that time.
fn timed<T, R>(on: &mut [T], mut call: impl FnMut(&mut T) -> R) -> (Duration, Vec<R>) {
    let mut answers = Vec::with_capacity(on.len());
    let start = Instant::now();
    on.iter_mut().for_each(|x| answers.push(black_box(call(black_box(x)))));
    (start.elapsed(), answers)
}

fn reads(
    input: &Input,
    call: Call,
    anchors: &Anchors,
    (states, n): (usize, usize),
    done: Done<'_>,
) {
    let router = router(input);
    let mut caches: Vec<_> = (0..states).map(|_| filled(anchors)).collect();
    let mut kept: Vec<_> = (0..states).map(|_| kept(input)).collect();
    let mut txs: Vec<_> = caches.iter_mut().map(AnchorsCacheTransaction::new).collect();
    let processed: Processed =
        kept[0].state.by_partitions.iter().map(|(id, p)| (*id, p.processed_to)).collect();
    let timeout = input.settings.timeout.into();
    let mut readers: Vec<_> = kept.iter_mut().zip(&mut txs).map(|(k, tx)| k.reader(tx)).collect();
    let (time, answers) = match call {
        Call::ReadOne(seqno) => {
            timed(&mut readers[..n], |r| read_one(r, seqno, &processed, timeout, &router))
        }
        _ => timed(&mut readers[..n], |r| {
            r.read_into_buffers(GetNextMessageGroupMode::Continue, &router).expect("not refused")
        }),
    };
    let mut outcome = Outcome::default();
    answers.iter().for_each(|m| outcome.add(m));
    if n > 0 {
        outcome.see_reader(readers[n - 1].reader_state);
        outcome.see_cache(cache_hook::cache_of(readers[n - 1].anchors_cache));
    }
    done(time, outcome);
}

/// Open, the pops, rollback, and the drop that closes.
fn transaction(cache: &mut AnchorsCache, pops: usize) {
    let mut tx = AnchorsCacheTransaction::new(cache);
    (0..pops).for_each(|_| drop(black_box(tx.pop_front())));
    black_box(&mut tx).rollback();
}

fn cache_calls(
    call: Call,
    anchors: &Anchors,
    mut added: Vec<(Arc<MempoolAnchor>, usize)>,
    (states, n): (usize, usize),
    done: Done<'_>,
) {
    let mut caches: Vec<_> = (0..states).map(|_| filled(anchors)).collect();
    let mut outcome = Outcome::default();
    let time = match call {
        Call::Pop { open: true } => {
            let mut txs: Vec<_> = caches.iter_mut().map(AnchorsCacheTransaction::new).collect();
            let (time, _popped) = timed(&mut txs[..n], |tx| tx.pop_front());
            txs[..n].last().iter().for_each(|tx| outcome.see_cache(cache_hook::cache_of(tx)));
            return done(time, outcome);
        }
        Call::Pop { open: false } => {
            let (time, popped) = timed(&mut caches[..n], |c| c.pop_front());
            std::mem::forget(popped);
            time
        }
        Call::Add => {
            timed(&mut caches[..n], |c| {
                let (anchor, ours) = added.pop().expect("as many as states");
                c.add(anchor, ours);
            })
            .0
        }
        Call::Open { pops } => timed(&mut caches[..n], |c| transaction(c, pops)).0,
        _ => unreachable!("a read"),
    };
    caches[..n].last().iter().for_each(|c| outcome.see_cache(c));
    done(time, outcome);
}

fn fill(anchors: &Anchors, (states, n): (usize, usize), done: Done<'_>) {
    let mut buffers: Vec<_> = (0..states).map(|_| MessagesBuffer::default()).collect();
    let (time, _) = timed(&mut buffers[..n], |buffer| {
        for (anchor, _) in anchors {
            for m in &anchor.externals {
                let (info, cell) = (m.info.clone(), m.cell.clone());
                buffer.add_message(ParsedMessage::from_ext(info, cell, true, anchor.chain_time));
            }
        }
    });
    let buffered = buffers.iter().map(|b| b.msgs_count() as u64).sum();
    done(time, Outcome { buffered, ..Default::default() });
}

/// Makes `states` equal states and makes the call on the first `n` of them.
pub fn run(input: &Input, call: Call, states: usize, n: usize, done: Done<'_>) {
    // the anchors outlive the caches, as the mempool's do: a pop frees no message
    let anchors: Anchors = input.anchors.iter().map(made).collect();
    match call {
        Call::ReadOne(_) | Call::ReadAll => reads(input, call, &anchors, (states, n), done),
        Call::Fill => fill(&anchors, (states, n), done),
        _ => {
            let added = input.added.as_ref().map(made);
            let added = added.map_or_else(Vec::new, |a| vec![a; states]);
            cache_calls(call, &anchors, added, (states, n), done)
        }
    }
}
