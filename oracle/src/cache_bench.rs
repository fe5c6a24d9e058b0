//! Calls of the original cache, for counting instructions: `--bench CALL N` makes the same
//! caches whatever N is and then one call on each of the first N, so the difference of two
//! runs is the cost of the calls alone (README.md, "Cost of the cache's calls").

use std::hint::black_box;
use std::sync::Arc;

use crate::collator::anchors_cache::{AnchorsCache, AnchorsCacheTransaction};
use crate::mempool::MempoolAnchor;
use crate::questions::mempool_anchor;
use crate::records::Anchor;

const CACHES: usize = 1000;

/// All messages are ours; chain times rise with the ids.
fn anchor(id: u32, count: u64) -> Arc<MempoolAnchor> {
    let byte = |n: u64| (n % 256) as u8;
    let message = |m: u64| (0, std::array::from_fn(|j| byte(m + j as u64)));
    mempool_anchor(
        id.into(),
        &Anchor {
            id,
            chain_time: 1000 + u64::from(id),
            author: [byte(id.into()); 32],
            ours: count as u32,
            messages: (0..count).map(message).collect(),
        },
    )
}

/// Caches of `len` anchors of 32 messages. They share the anchors, and the anchors outlive
/// them, as the mempool's do: a pop frees no message.
fn caches(len: u32) -> Vec<AnchorsCache> {
    let anchors: Vec<_> = (1..=len).map(|id| anchor(id, 32)).collect();
    let filled = || {
        let mut cache = AnchorsCache::default();
        anchors.iter().for_each(|a| cache.add(a.clone(), a.externals.len()));
        cache
    };
    let caches = (0..CACHES).map(|_| filled()).collect();
    std::mem::forget(anchors);
    caches
}

fn each(caches: &mut [AnchorsCache], n: usize, mut call: impl FnMut(&mut AnchorsCache)) {
    caches[..n].iter_mut().for_each(|cache| call(black_box(cache)));
}

fn pop(cache: &mut AnchorsCache) {
    black_box(cache.pop_front());
}

/// Open, the given calls, rollback, and the drop that closes.
fn tx(cache: &mut AnchorsCache, pops: usize) {
    let mut tx = AnchorsCacheTransaction::new(cache);
    (0..pops).for_each(|_| drop(black_box(tx.pop_front())));
    black_box(&mut tx).rollback();
}

pub fn main(args: &[String]) {
    let (call, n) = match args {
        [call, n] => (call.as_str(), n.parse().expect("a number")),
        _ => panic!("--bench pop|next|add|tx|undo N, N at most {CACHES}"),
    };
    let mut caches = caches(if call == "add" { 31 } else { 32 });
    let mut added = vec![anchor(32, 4); CACHES];
    match call {
        "pop" => each(&mut caches, n, pop),
        // the second pop takes the first anchor's history entry along
        "next" => {
            each(&mut caches, CACHES, pop);
            each(&mut caches, n, pop);
        }
        "add" => each(&mut caches, n, |cache| cache.add(added.pop().unwrap(), 4)),
        "tx" => each(&mut caches, n, |cache| tx(cache, 0)),
        "undo" => each(&mut caches, n, |cache| tx(cache, 1)),
        _ => panic!("no such call"),
    }
    // ends before anything is freed, since that would depend on n
    std::process::exit(0);
}
