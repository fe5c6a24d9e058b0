//! The library's calls on states made ready before: the same as `oracle::bench` does with the original.
//! The structs are those of host/externals.h, as far as they are used here.

use std::hint::black_box;
use std::time::{Duration, Instant};

use oracle::bench::{Anchor, Call, Done, Input, Outcome, RangeRecord};

const NO_LIMIT: u16 = 65_535;
const OUT_BYTES: usize = 26_624;

#[repr(C)]
#[derive(Clone, Copy, Default)]
struct Key {
    anchor_id: u32,
    msgs_offset: u64,
}

#[repr(C)]
#[derive(Clone, Copy, Default)]
struct Shard {
    workchain: i32,
    prefix: u64,
}

#[repr(C)]
#[derive(Clone, Copy)]
struct Cache {
    first: usize,
    len: usize,
    history_first: usize,
    history_len: usize,
    base: usize,
    pending: bool,
}

#[repr(C)]
#[derive(Clone, Copy)]
struct Transaction {
    cache: Cache,
    undo: Cache,
    active: bool,
    committed: bool,
}

#[repr(C)]
struct MempoolAnchor {
    id: u32,
    chain_time: u64,
    author: [u8; 32],
}

#[repr(C)]
struct AnchorShown {
    number: u8,
    found: bool,
    /// id, chain time, ours, count, place
    anchor: [u64; 5],
    author: [u8; 32],
}

#[repr(C)]
#[derive(Clone, Copy, Default)]
struct RangePartition {
    count: u32,
    skip_offset: u32,
    processed_offset: u32,
    present: bool,
}

#[repr(C)]
#[derive(Clone, Copy, Default)]
struct Range {
    seqno: u32,
    from: Key,
    to: Key,
    current_position: Key,
    chain_time: u64,
    fully_read: bool,
    by_partitions: [RangePartition; 8],
}

#[repr(C)]
#[derive(Clone, Copy, Default)]
struct Partition {
    processed_to: Key,
    curr_processed_offset: u32,
    present: bool,
}

#[repr(C)]
#[derive(Clone, Copy, Default)]
struct SavedTime {
    present: bool,
    time: u64,
}

#[repr(C)]
#[derive(Clone, Copy)]
struct Params {
    timeout: u32,
    open_ranges_limit: u8,
    new_is_some: bool,
}

/// The reader and its state; the state's fields stand where the header has a struct of its own.
#[repr(C)]
#[derive(Clone, Copy)]
struct Reader {
    for_shard_id: Shard,
    block_seqno: u32,
    next_chain_time: u64,
    params: Params,
    limits: [u16; 8],
    ranges: [Range; 16],
    len: usize,
    by_partitions: [Partition; 8],
    last_chain_time: SavedTime,
    all_ranges_fully_read: bool,
}

#[repr(C)]
#[derive(Clone, Copy)]
struct Externals {
    transaction: Transaction,
    reader: Reader,
}

#[repr(C)]
#[derive(Clone, Copy)]
struct RangeAndCache {
    transaction: Transaction,
    range: Range,
}

#[repr(C)]
#[derive(Clone, Copy, Default)]
struct ProcessedTo {
    key: Key,
    present: bool,
}

#[repr(C)]
#[derive(Clone, Copy)]
struct RangeSettings {
    shard: Shard,
    limits: [u16; 8],
    processed: [ProcessedTo; 8],
    timeout: u32,
    to_previous: bool,
}

#[repr(C)]
struct Counts {
    read: [u32; 8],
    expired: [u32; 8],
    buffered: [u32; 8],
}

#[repr(C)]
struct Free {
    present: bool,
    places: u16,
}

#[repr(C)]
struct AllAnswer {
    number: u8,
    free: Free,
    used: usize,
    counts: Counts,
}

#[repr(C)]
struct RangeAnswer {
    number: u8,
    free: u16,
    last_chain_time: SavedTime,
    pops: usize,
    used: usize,
    counts: Counts,
}

// The layout that the library was compiled for.
const _: () = assert!(size_of::<Transaction>() == 104 && size_of::<AnchorShown>() == 80);
const _: () = assert!(size_of::<Externals>() == 3584 && size_of::<RangeAndCache>() == 304);
const _: () = assert!(std::mem::offset_of!(Reader, limits) == 40 && size_of::<Range>() == 200);
const _: () = assert!(size_of::<RangeSettings>() == 232 && size_of::<MempoolAnchor>() == 48);
const _: () = assert!(size_of::<AllAnswer>() == 112 && size_of::<RangeAnswer>() == 136);

// A slice is a pointer and a length.
#[rustfmt::skip]
unsafe extern "C" {
    fn ext_new_transaction() -> Transaction;
    fn ext_open(t: *mut Transaction, tables: *const u8, tables_len: usize, area: *const u8, area_len: usize) -> u8;
    fn ext_rollback(t: *mut Transaction, tables: *const u8, tables_len: usize, area: *const u8, area_len: usize) -> u8;
    fn ext_close(t: *mut Transaction, tables: *const u8, tables_len: usize, area: *const u8, area_len: usize) -> u8;
    fn ext_pop_front(t: *mut Transaction, tables: *const u8, tables_len: usize, area: *const u8, area_len: usize) -> AnchorShown;
    fn ext_add(t: *mut Transaction, tables: *mut u8, tables_len: usize, area: *mut u8, area_len: usize, anchor: MempoolAnchor, our_exts_count: u32, messages: *const u8, messages_len: usize) -> u8;
    fn ext_new_reader(reader: *mut Reader) -> u8;
    fn ext_read_into_buffers(e: *mut Externals, out: *mut u8, out_len: usize, tables: *const u8, tables_len: usize, area: *const u8, area_len: usize, routes: *const u8, routes_len: usize, refill: bool) -> AllAnswer;
    fn ext_read_externals_into_buffers(e: *mut RangeAndCache, out: *mut u8, out_len: usize, tables: *const u8, tables_len: usize, area: *const u8, area_len: usize, routes: *const u8, routes_len: usize, settings: RangeSettings) -> RangeAnswer;
}

/// The bytes that the host lends.
struct Lent {
    tables: Vec<u8>,
    area: Vec<u8>,
    routes: Vec<u8>,
    out: Vec<u8>,
}

type OnTransaction =
    unsafe extern "C" fn(*mut Transaction, *const u8, usize, *const u8, usize) -> u8;

impl Lent {
    #[inline(always)]
    fn call(&self, f: OnTransaction, t: &mut Transaction) -> u8 {
        unsafe {
            f(t, self.tables.as_ptr(), self.tables.len(), self.area.as_ptr(), self.area.len())
        }
    }

    #[inline(always)]
    fn pop(&self, t: &mut Transaction) -> AnchorShown {
        unsafe {
            ext_pop_front(
                t,
                self.tables.as_ptr(),
                self.tables.len(),
                self.area.as_ptr(),
                self.area.len(),
            )
        }
    }

    #[inline(always)]
    fn add(&mut self, t: &mut Transaction, a: &Anchor, messages: &[u8]) -> u8 {
        let anchor = MempoolAnchor { id: a.id, chain_time: a.chain_time, author: a.author };
        let (tables, area) = (&mut self.tables, &mut self.area);
        unsafe {
            ext_add(
                t,
                tables.as_mut_ptr(),
                tables.len(),
                area.as_mut_ptr(),
                area.len(),
                anchor,
                a.ours,
                messages.as_ptr(),
                messages.len(),
            )
        }
    }

    #[inline(always)]
    fn read_one(&mut self, e: &mut RangeAndCache, settings: &RangeSettings) -> RangeAnswer {
        let (tables, area, routes, out) = (&self.tables, &self.area, &self.routes, &mut self.out);
        unsafe {
            ext_read_externals_into_buffers(
                e,
                out.as_mut_ptr(),
                out.len(),
                tables.as_ptr(),
                tables.len(),
                area.as_ptr(),
                area.len(),
                routes.as_ptr(),
                routes.len(),
                *settings,
            )
        }
    }

    #[inline(always)]
    fn read_all(&mut self, e: &mut Externals) -> AllAnswer {
        let (tables, area, routes, out) = (&self.tables, &self.area, &self.routes, &mut self.out);
        unsafe {
            ext_read_into_buffers(
                e,
                out.as_mut_ptr(),
                out.len(),
                tables.as_ptr(),
                tables.len(),
                area.as_ptr(),
                area.len(),
                routes.as_ptr(),
                routes.len(),
                false,
            )
        }
    }
}

fn message_bytes(a: &Anchor) -> Vec<u8> {
    let mut bytes = Vec::with_capacity(33 * a.messages.len());
    for (workchain, account) in &a.messages {
        bytes.push(*workchain as u8);
        bytes.extend_from_slice(account);
    }
    bytes
}

fn key((anchor_id, msgs_offset): (u32, u64)) -> Key {
    Key { anchor_id, msgs_offset }
}

fn range(seqno: u32, r: &RangeRecord) -> Range {
    let mut by_partitions = [RangePartition::default(); 8];
    for (id, count, skip_offset, processed_offset) in r.partitions.iter().copied() {
        by_partitions[usize::from(id)] =
            RangePartition { count, skip_offset, processed_offset, present: true };
    }
    Range {
        seqno,
        from: key(r.from),
        to: key(r.to),
        current_position: key(r.position),
        chain_time: r.chain_time,
        fully_read: r.fully_read,
        by_partitions,
    }
}

/// As the original is made: `new` without ranges, then the ranges put in place.
fn reader(input: &Input) -> Reader {
    let s = &input.settings;
    let mut reader = Reader {
        for_shard_id: Shard { workchain: input.shard.0, prefix: input.shard.1 },
        block_seqno: s.block_seqno,
        next_chain_time: s.next_chain_time,
        params: Params {
            timeout: s.timeout,
            open_ranges_limit: s.open_ranges_limit,
            new_is_some: s.new_waiting,
        },
        limits: s.limits.map(|l| l.unwrap_or(NO_LIMIT)),
        ranges: [Range::default(); 16],
        len: 0,
        by_partitions: [Partition::default(); 8],
        last_chain_time: SavedTime::default(),
        all_ranges_fully_read: false,
    };
    assert_eq!(unsafe { ext_new_reader(&mut reader) }, 0);
    for (seqno, r) in &input.ranges {
        reader.ranges[reader.len] = range(*seqno, r);
        reader.len += 1;
    }
    reader
}

fn settings(reader: &Reader) -> RangeSettings {
    RangeSettings {
        shard: reader.for_shard_id,
        limits: reader.limits,
        processed: reader
            .by_partitions
            .map(|p| ProcessedTo { key: p.processed_to, present: p.present }),
        timeout: reader.params.timeout,
        to_previous: false,
    }
}

/// Times `call` on each; answers are kept.
fn timed<T, R>(on: &mut [T], mut call: impl FnMut(&mut T) -> R) -> (Duration, Vec<R>) {
    let mut answers = Vec::with_capacity(on.len());
    let start = Instant::now();
    on.iter_mut().for_each(|x| answers.push(black_box(call(black_box(x)))));
    (start.elapsed(), answers)
}

fn see_counts<'a>(outcome: &mut Outcome, counts: impl Iterator<Item = &'a Counts>) {
    let sum = |c: &[u32; 8]| c.iter().map(|n| u64::from(*n)).sum::<u64>();
    for c in counts {
        outcome.read += sum(&c.read);
        outcome.expired += sum(&c.expired);
        outcome.buffered += sum(&c.buffered);
    }
}

fn see_ranges(outcome: &mut Outcome, ranges: &[Range]) {
    if let Some(r) = ranges.last() {
        outcome.position = (r.current_position.anchor_id, r.current_position.msgs_offset);
    }
    outcome.fully_read = ranges.iter().filter(|r| r.fully_read).count();
}

fn see_cache(outcome: &mut Outcome, t: &Transaction) {
    outcome.cached = t.cache.len;
    outcome.history = t.cache.history_len;
    outcome.pending = t.cache.pending;
}

/// As `oracle::bench::run`. A state is what a call changes; the lent bytes are the same for all.
pub fn run(input: &Input, call: Call, states: usize, n: usize, done: Done<'_>) {
    let routes = input.routes.iter().flat_map(|(workchain, account, partition)| {
        let mut bytes = [*workchain as u8; 34];
        bytes[1..33].copy_from_slice(account);
        bytes[33] = *partition;
        bytes
    });
    let mut lent = Lent {
        tables: vec![0; 14_912],
        area: vec![0; 33_792],
        routes: routes.collect(),
        out: vec![0; OUT_BYTES],
    };
    let mut t = unsafe { ext_new_transaction() };
    for a in &input.anchors {
        assert_eq!(lent.add(&mut t, a, &message_bytes(a)), 0);
    }
    let mut outcome = Outcome::default();
    let time = match call {
        Call::ReadOne(seqno) => {
            assert_eq!(lent.call(ext_open, &mut t), 0);
            let reader = reader(input);
            let settings = settings(&reader);
            let range = reader.ranges[..reader.len].iter().find(|r| r.seqno == seqno).unwrap();
            let mut on = vec![RangeAndCache { transaction: t, range: *range }; states];
            let (time, answers) = timed(&mut on[..n], |e| lent.read_one(e, &settings));
            assert!(answers.iter().all(|a| a.number == 0));
            see_counts(&mut outcome, answers.iter().map(|a| &a.counts));
            if let Some(e) = on[..n].last() {
                see_ranges(&mut outcome, &[e.range]);
                see_cache(&mut outcome, &e.transaction);
            }
            time
        }
        Call::ReadAll => {
            assert_eq!(lent.call(ext_open, &mut t), 0);
            let mut on = vec![Externals { transaction: t, reader: reader(input) }; states];
            let (time, answers) = timed(&mut on[..n], |e| lent.read_all(e));
            assert!(answers.iter().all(|a| a.number == 0));
            see_counts(&mut outcome, answers.iter().map(|a| &a.counts));
            if let Some(e) = on[..n].last() {
                see_ranges(&mut outcome, &e.reader.ranges[..e.reader.len]);
                see_cache(&mut outcome, &e.transaction);
            }
            time
        }
        Call::Pop { open } => {
            if open {
                assert_eq!(lent.call(ext_open, &mut t), 0);
            }
            let mut on = vec![t; states];
            let (time, answers) = timed(&mut on[..n], |t| lent.pop(t));
            assert!(answers.iter().all(|a| a.number == 0 && a.found));
            on[..n].last().iter().for_each(|t| see_cache(&mut outcome, t));
            time
        }
        Call::Add => {
            let added = input.added.as_ref().expect("in the input");
            let messages = message_bytes(added);
            let mut on = vec![t; states];
            let (time, answers) = timed(&mut on[..n], |t| lent.add(t, added, &messages));
            assert!(answers.iter().all(|a| *a == 0));
            on[..n].last().iter().for_each(|t| see_cache(&mut outcome, t));
            time
        }
        Call::Open { pops } => {
            let mut on = vec![t; states];
            let (time, answers) = timed(&mut on[..n], |t| {
                let opened = lent.call(ext_open, t);
                let popped = (0..pops).fold(0, |d, _| d | black_box(lent.pop(t)).number);
                opened | popped | lent.call(ext_rollback, t) | lent.call(ext_close, t)
            });
            assert!(answers.iter().all(|a| *a == 0));
            on[..n].last().iter().for_each(|t| see_cache(&mut outcome, t));
            time
        }
        Call::Fill => unreachable!("the original's buffers"),
    };
    done(time, outcome);
}
