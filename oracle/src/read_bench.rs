//! One range's read by the original, for counting instructions: `--bench-read INPUT N` makes the
//! same states whatever N is and reads the first N of them, so the difference of two runs is the
//! cost of the reads alone (README.md, "Cost of one range's read").

use std::hint::black_box;

use tycho_block_util::queue::{QueuePartitionIdx, RouterAddr, RouterPartitions};
use tycho_types::cell::HashBytes;
use tycho_types::models::ShardIdent;

use crate::collator::anchors_cache::{AnchorsCache, AnchorsCacheTransaction};
use crate::collator::messages_reader::externals_reader::hook::{Kept, RangeRecord, Settings};
use crate::internal_queue::types::router::PartitionRouter;
use crate::questions::mempool_anchor;
use crate::records::{Anchor, Message};

const STATES: usize = 20;
const ANCHORS: u32 = 32;
const MESSAGES: u32 = 32;
const SEQNO: u32 = 5;

/// Byte j of message m's account is (m + 3 * j) % 256; in `half` every second message has workchain -1.
fn message(m: u32, half: bool) -> Message {
    let workchain = if half && m % 2 == 1 { -1 } else { 0 };
    (workchain, std::array::from_fn(|j| ((m + 3 * j as u32) % 256) as u8))
}

fn cache(messages: u32, half: bool) -> AnchorsCache {
    let mut cache = AnchorsCache::default();
    for id in 1..=ANCHORS {
        let first = (id - 1) * messages;
        let anchor = Anchor {
            id,
            chain_time: 1000 + u64::from(id),
            author: [0; 32],
            ours: if half { messages / 2 } else { messages },
            messages: (first..first + messages).map(|m| message(m, half)).collect(),
        };
        cache.add(mempool_anchor(id.into(), &anchor), anchor.ours as usize);
    }
    cache
}

fn reader() -> Kept {
    let mut limits = [None; 8];
    limits[0] = Some(1024);
    let settings = Settings {
        next_chain_time: 2000,
        timeout: 60,
        block_seqno: SEQNO,
        open_ranges_limit: 4,
        new_waiting: false,
        limits,
    };
    let mut reader = Kept::new(ShardIdent::new(0, 1 << 63).expect("the whole workchain"), &settings);
    let range = RangeRecord {
        from: (0, 0),
        to: (0, 0),
        position: (0, 0),
        chain_time: 2000,
        fully_read: false,
        partitions: vec![(0, 0, 0, 0)],
    };
    reader.put_range(SEQNO, &range);
    reader
}

/// Routes that list none of the messages: accounts of one byte value, partition 0.
fn router(routes: u8) -> PartitionRouter {
    let mut dst = RouterPartitions::new();
    for i in 0..routes {
        let addr = RouterAddr { workchain: 0, account: HashBytes([i; 32]) };
        dst.entry(QueuePartitionIdx(0)).or_default().insert(addr);
    }
    PartitionRouter::with_partitions(&RouterPartitions::new(), &dst)
}

pub fn main(args: &[String]) {
    let (input, n) = match args {
        [input, n] => (input.as_str(), n.parse::<usize>().expect("a number")),
        _ => panic!("--bench-read ours|half|routes|small N, N at most {STATES}"),
    };
    let router = router(if input == "routes" { 64 } else { 0 });
    let messages = if input == "small" { MESSAGES / 4 } else { MESSAGES };
    let mut caches: Vec<_> = (0..STATES).map(|_| cache(messages, input == "half")).collect();
    let mut readers: Vec<_> = (0..STATES).map(|_| reader()).collect();
    let mut txs: Vec<_> = caches.iter_mut().map(AnchorsCacheTransaction::new).collect();
    for (tx, reader) in txs.iter_mut().zip(&mut readers).take(n) {
        let read = reader.read_one(black_box(tx), SEQNO, false, &router);
        black_box(read.expect("not refused"));
    }
    // ends before anything is freed, since that would depend on n
    std::process::exit(0);
}
