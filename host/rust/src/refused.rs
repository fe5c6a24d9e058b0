//! Every call that can refuse, handed states and arguments that it refuses, with odd numbers wherever nothing is held:
//! a number other than 0 leaves all as it was, field by field and byte by byte, and a done call leaves what is free.
use std::collections::{BTreeMap, BTreeSet};

use crate::types::*;
use crate::{free, raw};

/// All that a call can be lent or handed.
#[derive(Clone, Debug, PartialEq)]
struct Lent {
    state: State,
    range: Range,
    tables: Vec<u8>,
    area: Vec<u8>,
    out: Vec<u8>,
    routes: Vec<u8>,
    settings: RangeSettings,
    anchor: MempoolAnchor,
    ours: u32,
    messages: Vec<u8>,
    limits: BufferLimits,
    par_id: u8,
    seqno: u32,
    taken: u32,
}

const ENTRY: HistoryEntry = HistoryEntry { info: AnchorInfo { id: 9, ct: ChainTime(9000), all_exts_count: 3, our_exts_count: 4 }, author: [9; 32] };
const KEY: ExternalKey = ExternalKey { anchor_id: 77, msgs_offset: 78 };

impl Lent {
    /// Two anchors with three messages of ours, of which a read has put two in the buffers of one range.
    fn new() -> Lent {
        let mut limits = [NO_LIMIT; PARTITIONS];
        limits[0] = 2;
        let reader = Reader {
            for_shard_id: ShardIdent { workchain: 0, prefix: 0x8000_0000_0000_0000 },
            block_seqno: 5,
            next_chain_time: ChainTime(61_000),
            msgs_exec_params: Params { externals_expire_timeout: Seconds(60), open_ranges_limit: 4, new_is_some: false },
            buffer_limits_by_partitions: limits,
            ..Reader::default()
        };
        let mut l = Lent {
            state: State { transaction: unsafe { raw::ext_new_transaction() }, reader },
            range: Range::default(),
            tables: vec![0xA5; TABLES_BYTES],
            area: vec![0xA6; AREA_BYTES],
            out: vec![0xA7; 100 * ENTRY_BYTES],
            routes: Vec::new(),
            settings: RangeSettings { shard: reader.for_shard_id, limits, timeout: Seconds(60), ..RangeSettings::default() },
            anchor: MempoolAnchor { id: 1, chain_time: ChainTime(1000), author: [7; 32] },
            ours: 1,
            messages: vec![0; MESSAGE_BYTES],
            limits: BufferLimits { by_partitions: limits },
            par_id: 0,
            seqno: 5,
            taken: 1,
        };
        l.settings.processed[0].present = true;
        assert_eq!((new_reader(&mut l), add(&mut l)), (0, 0));
        l.anchor = MempoolAnchor { id: 2, chain_time: ChainTime(2000), author: [8; 32] };
        (l.ours, l.messages) = (2, vec![0; 2 * MESSAGE_BYTES]);
        assert_eq!((add(&mut l), open(&mut l), read_all(&mut l)), (0, 0, 0));
        l.range = l.state.reader.reader_state.ranges[0];
        l.anchor.id = 3;
        l
    }

    fn fill(&mut self) {
        free::fill_reader(&mut self.state.reader, 0);
        free::fill_range(&mut self.range, 0);
        free::fill_transaction(&mut self.state.transaction, 0);
    }

    fn limit(&mut self, partition: usize, limit: u16) {
        for limits in [&mut self.state.reader.buffer_limits_by_partitions, &mut self.settings.limits, &mut self.limits.by_partitions] {
            limits[partition] = limit;
        }
    }

    /// Changes the reader's range and the one that the host holds.
    fn held(&mut self, change: fn(&mut Range)) {
        change(&mut self.state.reader.reader_state.ranges[0]);
        change(&mut self.range);
    }

    /// With a transaction or without, the mark or without, a saved chain time or without.
    fn all() -> Vec<Lent> {
        let mut found = Vec::new();
        for kind in 0..8 {
            let mut l = Lent::new();
            if kind & 1 == 0 {
                assert_eq!((commit(&mut l), close(&mut l)), (0, 0));
            }
            l.state.reader.all_ranges_fully_read = kind & 2 == 0;
            l.state.reader.reader_state.last_read_to_anchor_chain_time.present = kind & 4 == 0;
            l.fill();
            found.push(l);
        }
        found
    }
}

/// A slice as a call takes it.
type Bytes = (*mut u8, usize);

fn bytes(b: &mut [u8]) -> Bytes {
    (b.as_mut_ptr(), b.len())
}

// Each call with the numbers that it must be seen to give; l is what is lent, t the tables, a the area.
macro_rules! calls {
    ($($name:ident [$($seen:literal)*] |$l:ident, $t:ident, $a:ident| $call:expr;)*) => {
        $(
            #[allow(unused_variables)]
            fn $name($l: &mut Lent) -> u8 {
                let ($t, $a): (Bytes, Bytes) = (bytes(&mut $l.tables), bytes(&mut $l.area));
                unsafe { $call }
            }
        )*
        const CALLS: &[(&str, fn(&mut Lent) -> u8, &[u8])] = &[$((stringify!($name), $name, &[$($seen),*]),)*];
    };
}

calls! {
    open [0 1 5 9] |l, t, a| raw::ext_open(&mut l.state.transaction, t.0, t.1, a.0, a.1);
    commit [0 1 5 9] |l, t, a| raw::ext_commit(&mut l.state.transaction, t.0, t.1, a.0, a.1);
    rollback [0 1 5 9] |l, t, a| raw::ext_rollback(&mut l.state.transaction, t.0, t.1, a.0, a.1);
    close [0 1 5 9] |l, t, a| raw::ext_close(&mut l.state.transaction, t.0, t.1, a.0, a.1);
    clear [0 1 5 9] |l, t, a| raw::ext_clear(&mut l.state.transaction, t.0, t.1, a.0, a.1);
    pop_front [0 1 5] |l, t, a| raw::ext_pop_front(&mut l.state.transaction, t.0, t.1, a.0, a.1).number;
    trim [0 1 5] |l, t, a| raw::ext_remove_last_imported_above(&mut l.state.transaction, t.0, t.1, a.0, a.1, ChainTime(1500)).number;
    add [0 1 5 6 7 8 9] |l, t, a| raw::ext_add(&mut l.state.transaction, t.0, t.1, a.0, a.1, l.anchor, l.ours, l.messages.as_ptr(), l.messages.len());
    add_info [0 1 5 8 9] |l, t, a| raw::ext_add_imported_anchor_info(&mut l.state.transaction, t.0, t.1, a.0, a.1, ENTRY);
    last_info [0 5] |l, t, a| raw::ext_last_imported_anchor_info(t.0, t.1, l.state.transaction).number;
    info_at_ct [0 5] |l, t, a| raw::ext_last_imported_anchor_info_at_ct(t.0, t.1, l.state.transaction, ChainTime(1500)).number;
    get [0 5] |l, t, a| raw::ext_get(t.0, t.1, l.state.transaction, 0).number;
    cache_has_pending [0 5] |l, t, a| raw::ext_cache_has_pending_externals(t.0, t.1, l.state.transaction).number;
    pending_in_range [0 5] |l, t, a| raw::ext_check_has_pending_externals_in_range(t.0, t.1, l.state.transaction, KEY).number;
    contains_message [0 2] |l, t, a| raw::ext_contains_message(l.state.reader.for_shard_id, l.messages.as_ptr(), l.messages.len()).number;
    check_routes [0 3] |l, t, a| raw::ext_check_routes(l.routes.as_ptr(), l.routes.len());
    get_partition [0 3] |l, t, a| raw::ext_get_partition(l.routes.as_ptr(), l.routes.len(), l.messages.as_ptr(), l.messages.len()).number;
    new_reader [0 2 4 5] |l, t, a| raw::ext_new_reader(&mut l.state.reader);
    set_limits [0 4 5] |l, t, a| raw::ext_set_buffer_limits_by_partition(&mut l.state.reader, l.limits);
    reset [0 5] |l, t, a| raw::ext_reset_read_state(&mut l.state.reader);
    drop_last [0 5] |l, t, a| raw::ext_drop_last_read_to_anchor_chain_time(&mut l.state.reader);
    finalize [0 5 15] |l, t, a| raw::ext_finalize(&mut l.state.reader);
    retain [0 5 15] |l, t, a| raw::ext_retain_only_last_range_state(&mut l.state.reader);
    set_from [0 5 15] |l, t, a| raw::ext_set_from_to_current_position_in_last_range_state(&mut l.state.reader);
    increment [0 5 15 16] |l, t, a| raw::ext_increment_curr_processed_offset(&mut l.state.reader, l.par_id);
    drop_offset [0 5 15] |l, t, a| raw::ext_drop_processing_offset(&mut l.state.reader, l.par_id, true);
    set_skip [0 5 15] |l, t, a| raw::ext_set_skip_processed_offset_to_current(&mut l.state.reader, l.par_id);
    set_processed [0 5 15] |l, t, a| raw::ext_set_processed_to_current_position(&mut l.state.reader, l.par_id);
    messages_taken [0 5 15 16] |l, t, a| raw::ext_messages_taken(&mut l.state.reader, l.seqno, l.par_id, l.taken);
    partition_ids [0 5] |l, t, a| raw::ext_get_partition_ids(l.state.reader).number;
    next_range [0 5] |l, t, a| raw::ext_create_next_externals_range_state(l.state.reader).number;
    limit_reached [0 4 5] |l, t, a| raw::ext_open_ranges_limit_reached(l.state.reader).number;
    non_zero_offset [0 5] |l, t, a| raw::ext_has_non_zero_processed_offset(l.state.reader).number;
    offset_reached [0 5] |l, t, a| raw::ext_last_range_offset_reached(l.state.reader, l.par_id).number;
    offsets_reached [0 5 15] |l, t, a| raw::ext_last_range_offsets_reached_in_all_partitions(l.state.reader).number;
    count_messages [0 5] |l, t, a| raw::ext_count_messages_in_buffers_by_partitions(l.state.reader).number;
    has_messages [0 5] |l, t, a| raw::ext_has_messages_in_buffers(l.state.reader).number;
    not_fully_read [0 5] |l, t, a| raw::ext_has_not_fully_read_ranges(l.state.reader).number;
    read_and_collected [0 5] |l, t, a| raw::ext_all_ranges_read_and_collected(l.state.reader).number;
    check_collected [0 5] |l, t, a| raw::ext_check_all_ranges_read_and_collected(l.state.reader).number;
    all_collected [0 5] |l, t, a| raw::ext_all_read_externals_collected(l.state.reader).number;
    last_offsets [0 5] |l, t, a| raw::ext_get_last_range_state_offsets_by_partitions(l.state.reader).number;
    has_pending [0 5] |l, t, a| raw::ext_has_pending_externals(t.0, t.1, l.state.transaction, l.state.reader).number;
    fill_state [0 4 5 10] |l, t, a| raw::ext_get_max_buffers_fill_state(l.limits, l.range).number;
    read_all [0 1 2 3 4 5 9 10 11 12 13 14] |l, t, a| {
        let o = bytes(&mut l.out);
        raw::ext_read_into_buffers(&mut l.state, o.0, o.1, t.0, t.1, a.0, a.1, l.routes.as_ptr(), l.routes.len(), false).number
    };
    read_range [0 1 2 3 4 5 9 10 11 12 13 14] |l, t, a| {
        let o = bytes(&mut l.out);
        let mut e = RangeAndCache { transaction: l.state.transaction, range: l.range };
        let n = raw::ext_read_externals_into_buffers(&mut e, o.0, o.1, t.0, t.1, a.0, a.1, l.routes.as_ptr(), l.routes.len(), l.settings).number;
        (l.state.transaction, l.range) = (e.transaction, e.range);
        n
    };
}

const HALF_OF_THE_MASTERCHAIN: ShardIdent = ShardIdent { workchain: -1, prefix: 0x4000_0000_0000_0000 };

/// What makes a call refuse, alone or two together.
const CHANGES: &[fn(&mut Lent)] = &[
    |l| l.area.truncate(AREA_BYTES - 1),
    |l| l.tables.truncate(100),
    |l| l.state.transaction.cache.first = usize::MAX,
    |l| l.state.transaction.cache.len = 33,
    |l| (l.state.transaction.cache.history_first, l.state.transaction.cache.history_len) = (0, 256),
    |l| l.state.transaction.undo.history_first = usize::MAX,
    |l| l.state.transaction.active = !l.state.transaction.active,
    |l| (l.state.reader.for_shard_id.prefix, l.settings.shard.prefix) = (0, 0),
    |l| (l.state.reader.for_shard_id, l.settings.shard) = (HALF_OF_THE_MASTERCHAIN, HALF_OF_THE_MASTERCHAIN),
    |l| l.routes = vec![0; ROUTE_BYTES - 1],
    |l| l.routes = route(3),
    |l| l.routes = route(200),
    |l| l.state.reader.msgs_exec_params.open_ranges_limit = 17,
    |l| l.limit(1, 1025),
    |l| l.limit(0, 1024),
    |l| l.limit(0, NO_LIMIT),
    |l| l.state.reader.reader_state.len = 0,
    |l| l.state.reader.reader_state.len = 2,
    |l| l.state.reader.reader_state.len = usize::MAX,
    |l| l.held(|r| r.seqno = 95),
    |l| l.held(|r| r.current_position = ExternalKey { anchor_id: 2, msgs_offset: 100 }),
    |l| l.held(|r| r.by_partitions[0].count = 5000),
    |l| l.held(|r| r.by_partitions[0].present = false),
    |l| l.settings.processed[0].present = false,
    |l| l.settings.processed[3].present = true,
    |l| l.state.reader.reader_state.by_partitions[0].present = false,
    |l| l.state.reader.reader_state.by_partitions[3].present = true,
    |l| l.state.reader.reader_state.by_partitions[0].curr_processed_offset = u32::MAX,
    |l| l.state.reader.all_ranges_fully_read = !l.state.reader.all_ranges_fully_read,
    |l| l.out.truncate(ENTRY_BYTES - 1),
    |l| l.messages.truncate(MESSAGE_BYTES - 1),
    |l| l.ours = 9,
    |l| l.anchor.id = 2,
    |l| {
        l.messages = vec![0; 512 * MESSAGE_BYTES];
        if add(l) == 0 {
            l.anchor.id += 1;
        }
    },
    |l| l.par_id = 5,
    |l| l.par_id = 200,
    |l| l.taken = 3,
    |l| l.seqno = 6,
];

fn route(partition: u8) -> Vec<u8> {
    let mut row = vec![0; ROUTE_BYTES];
    row[ROUTE_BYTES - 1] = partition;
    row
}

/// Two by two; a change with itself is one alone.
fn changed(base: &Lent) -> Vec<Lent> {
    let mut all = vec![base.clone()];
    for (i, first) in CHANGES.iter().enumerate() {
        for second in &CHANGES[i..] {
            let mut l = base.clone();
            first(&mut l);
            if first as *const _ != second as *const _ {
                second(&mut l);
            }
            all.push(l);
        }
    }
    all
}

#[test]
fn a_refused_call_leaves_all_that_it_was_lent() {
    let mut seen: BTreeMap<&str, BTreeSet<u8>> = BTreeMap::new();
    let (mut done, mut refused) = (0, 0);
    for l in Lent::all().iter().flat_map(changed) {
        for &(name, call, _) in CALLS {
            let mut now = l.clone();
            let number = call(&mut now);
            seen.entry(name).or_default().insert(number);
            if number == 0 {
                assert!(free::is_kept(&l.state, &now.state), "{name}");
                done += 1;
            } else {
                assert!(now == l, "{name} {number}");
                refused += 1;
            }
        }
    }
    for &(name, _, numbers) in CALLS {
        assert!(seen[name].iter().eq(numbers), "{name}: {:?}", seen[name]);
    }
    println!("{} calls, {refused} times refused, {done} times done", CALLS.len());
}
