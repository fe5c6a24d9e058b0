//! The rows of the table: what is called, on which input.

use oracle::bench::{Anchor, Call, Input, Message, RangeRecord, Settings};

pub struct Row {
    pub name: &'static str,
    pub text: &'static str,
    pub call: Call,
    /// States that a run makes ready, and so the most calls in a run.
    pub states: usize,
    /// Messages that one call goes over; 0 where a call is not counted by messages.
    pub messages: u32,
    pub input: Input,
}

const ANCHORS: u32 = 32;
const SEQNO: u32 = 16;
const READS: usize = 24;
const CALLS: usize = 240;

#[derive(Clone, Copy)]
enum Ours {
    All,
    Half,
    None,
}

/// Byte j of account a is (a + 3 * j) % 256, the last one a / 256. A message that is not ours has workchain -1.
fn message(m: u32, accounts: u32, ours: Ours) -> Message {
    let is_ours = match ours {
        Ours::All => true,
        Ours::Half => m % 2 == 0,
        Ours::None => false,
    };
    let a = m % accounts;
    let mut account = std::array::from_fn(|j| ((a + 3 * j as u32) % 256) as u8);
    account[31] = (a / 256) as u8;
    (if is_ours { 0 } else { -1 }, account)
}

/// An anchor is cached only where the host counts some message as ours; so it says 1 where none is.
/// `each`: messages of 32 anchors that go to one account.
fn anchor(id: u32, count: u32, ours: Ours, each: u32) -> Anchor {
    let first = (id - 1) * count;
    Anchor {
        id,
        chain_time: 1000 + u64::from(id),
        author: [id as u8; 32],
        ours: match ours {
            Ours::All => count,
            Ours::Half => count / 2,
            Ours::None => 1,
        },
        messages: (first..first + count)
            .map(|m| message(m, ANCHORS * count / each, ours))
            .collect(),
    }
}

/// Unread ranges that share the anchors evenly: each begins at the end of the one before; the last is the block's
/// own, which is read to the end of the cache.
fn ranges(len: u32, count: u32, chain_time: u64) -> Vec<(u32, RangeRecord)> {
    let end = |i: u32| if i == 0 { (0, 0) } else { (i * (ANCHORS / len), u64::from(count)) };
    (0..len)
        .map(|i| {
            let record = RangeRecord {
                from: end(i),
                to: if i + 1 == len { end(i) } else { end(i + 1) },
                position: end(i),
                chain_time,
                fully_read: false,
                partitions: vec![(0, 0, 0, 0)],
            };
            (SEQNO + 1 - len + i, record)
        })
        .collect()
}

/// One partition with the limit 1,024, nothing processed; the shard is the whole workchain 0.
fn input(
    anchors: u32,
    count: u32,
    ours: Ours,
    routes: u32,
    range_count: u32,
    expired: bool,
) -> Input {
    let chain_time = if expired { 100_000 } else { 2_000 };
    let mut limits = [None; 8];
    limits[0] = Some(1024);
    Input {
        shard: (0, 1 << 63),
        settings: Settings {
            next_chain_time: chain_time,
            timeout: 60,
            block_seqno: SEQNO,
            open_ranges_limit: 16,
            new_waiting: false,
            limits,
        },
        ranges: ranges(range_count, count, chain_time),
        // one byte value each, so no message is listed
        routes: (0..routes).map(|i| (0, [i as u8; 32], 0)).collect(),
        anchors: (1..=anchors).map(|id| anchor(id, count, ours, 4)).collect(),
        added: None,
    }
}

fn read(name: &'static str, text: &'static str, count: u32, ours: Ours, routes: u32) -> Row {
    Row {
        name,
        text,
        call: Call::ReadOne(SEQNO),
        states: READS,
        messages: ANCHORS * count,
        input: input(ANCHORS, count, ours, routes, 1, false),
    }
}

fn all(name: &'static str, text: &'static str, anchors: u32, range_count: u32) -> Row {
    Row {
        name,
        text,
        call: Call::ReadAll,
        states: READS,
        messages: anchors * 32,
        input: input(anchors, 32, Ours::All, 0, range_count, false),
    }
}

fn call(name: &'static str, text: &'static str, call: Call, anchors: u32, added: u32) -> Row {
    let mut input = input(anchors, 32, Ours::All, 0, 1, false);
    if added > 0 {
        input.added = Some(anchor(anchors + 1, added, Ours::All, 4));
    }
    Row { name, text, call, states: CALLS, messages: 0, input }
}

pub fn rows() -> Vec<Row> {
    let expired = Row {
        input: input(ANCHORS, 32, Ours::All, 0, 1, true),
        ..read("expired", "1,024 messages, all ours, every anchor expired", 32, Ours::All, 0)
    };
    let mut apart =
        read("apart", "1,024 messages, all ours, each to an account of its own", 32, Ours::All, 0);
    apart.input.anchors = (1..=ANCHORS).map(|id| anchor(id, 32, Ours::All, 1)).collect();
    vec![
        read("ours", "1,024 messages, all ours", 32, Ours::All, 0),
        read("half", "1,024 messages, half ours", 32, Ours::Half, 0),
        read("none", "1,024 messages, none ours", 32, Ours::None, 0),
        expired,
        apart,
        read("routes8", "1,024 messages, all ours, 8 routes", 32, Ours::All, 8),
        read("routes64", "1,024 messages, all ours, 64 routes", 32, Ours::All, 64),
        read("routes256", "1,024 messages, all ours, 256 routes", 32, Ours::All, 256),
        read("size256", "256 messages, all ours", 8, Ours::All, 0),
        read("size512", "512 messages, all ours", 16, Ours::All, 0),
        all("ranges1", "read of all, 1 range, 1,024 messages", ANCHORS, 1),
        all("ranges16", "read of all, 16 ranges, 1,024 messages", ANCHORS, 16),
        all("idle1", "read of all, 1 range, empty cache", 0, 1),
        call("pop", "`pop_front`, no transaction", Call::Pop { open: false }, 32, 0),
        call("poptx", "`pop_front` in a transaction", Call::Pop { open: true }, 32, 0),
        call("add4", "`add` of 4 messages after 31 anchors", Call::Add, 31, 4),
        call("add32", "`add` of 32 messages after 31 anchors", Call::Add, 31, 32),
        call("open", "open, rollback, close", Call::Open { pops: 0 }, 32, 0),
        call("undo", "open, pop, rollback, close", Call::Open { pops: 1 }, 32, 0),
        Row {
            call: Call::Fill,
            ..read("fill", "the Rust's buffers alone, 1,024 messages", 32, Ours::All, 0)
        },
    ]
}
