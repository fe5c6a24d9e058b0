//! Document 01's sample session, and some calls beyond it.
use externals::*;

fn message(workchain: i8) -> [u8; MESSAGE_BYTES] {
    let mut m = [0; MESSAGE_BYTES];
    m[0] = workchain as u8;
    m
}

fn sample() -> Externals {
    let mut limits = [NO_LIMIT; PARTITIONS];
    limits[0] = 2;
    let mut e = Externals::new(Reader {
        for_shard_id: ShardIdent { workchain: 0, prefix: 0x8000_0000_0000_0000 },
        block_seqno: 5,
        next_chain_time: ChainTime(61_000),
        msgs_exec_params: Params { externals_expire_timeout: Seconds(60), open_ranges_limit: 4, new_is_some: false },
        buffer_limits_by_partitions: limits,
        ..Reader::default()
    })
    .unwrap();
    e.add(MempoolAnchor { id: 1, chain_time: ChainTime(1000), author: [7; 32] }, 1, &message(0)).unwrap();
    e.add(MempoolAnchor { id: 2, chain_time: ChainTime(2000), author: [8; 32] }, 2, &[message(0), message(-1), message(0)].concat()).unwrap();
    e
}

#[test]
fn the_sample_session() {
    let mut e = sample();
    let mut out = vec![0; 1024 * ENTRY_BYTES];
    assert_eq!(e.open(), Ok(()));
    let (counts, free, used) = e.read_into_buffers(Mode::Continue, &[], &mut out).unwrap();
    assert_eq!(free, Some(0));
    let shown: Vec<_> = entries(used).map(|x| (x.seqno, x.partition, x.anchor_id, x.offset, x.chain_time.0)).collect();
    assert_eq!(shown, [(5, 0, 1, 1, 1000), (5, 0, 2, 1, 2000)]);
    assert_eq!(counts.buffered[0], 2);
    let ranges: Vec<_> = e.ranges().iter().map(|r| (r.seqno, r.to.anchor_id, r.to.msgs_offset, r.current_position.anchor_id, r.current_position.msgs_offset, r.fully_read)).collect();
    assert_eq!(ranges, [(5, 2, 1, 2, 1, false)]);
    assert_eq!(e.close(), Ok(()));
    let c = e.transaction().cache;
    assert_eq!((c.len, c.history_len, c.pending), (2, 2, true));
}

#[test]
fn a_refused_call_leaves_everything() {
    let mut e = sample();
    let (t, r) = (*e.transaction(), *e.reader());
    let mut out = vec![9; 1024 * ENTRY_BYTES];
    assert_eq!(e.read_into_buffers(Mode::Continue, &[], &mut out).unwrap_err(), Refused(9));
    assert_eq!(e.commit(), Err(Refused(9)));
    assert_eq!(e.add(MempoolAnchor { id: 2, ..Default::default() }, 1, &message(0)), Err(Refused(7)));
    assert_eq!(e.increment_curr_processed_offset(1), Err(Refused(15)));
    assert_eq!((*e.transaction(), *e.reader()), (t, r));
    assert!(out.iter().all(|&b| b == 9));
}

#[test]
fn messages_are_taken() {
    let mut e = sample();
    let mut out = vec![0; 1024 * ENTRY_BYTES];
    e.open().unwrap();
    e.read_into_buffers(Mode::Continue, &[], &mut out).unwrap();
    e.commit().unwrap();
    e.close().unwrap();
    assert_eq!(e.count_messages_in_buffers_by_partitions().unwrap()[0], Some(2));
    assert_eq!(e.messages_taken(5, 0, 3), Err(Refused(16)));
    assert_eq!(e.messages_taken(5, 0, 2), Ok(()));
    assert_eq!(e.has_messages_in_buffers(), Ok(false));
    assert_eq!(e.finalize(), Ok(()));
    assert_eq!(e.pop_front().unwrap().map(|(a, author)| (a.id, author)), Some((2, [8; 32])));
    assert_eq!(e.has_pending_externals(), Ok(false));
}

#[test]
fn one_range() {
    let mut e = sample();
    e.open().unwrap();
    let mut range = e.create_next_externals_range_state().unwrap();
    let key = ProcessedTo { key: ExternalKey::default(), present: true };
    let settings = RangeSettings {
        shard: e.reader().for_shard_id,
        limits: e.reader().buffer_limits_by_partitions,
        processed: [key, Default::default(), Default::default(), Default::default(), Default::default(), Default::default(), Default::default(), Default::default()],
        timeout: Seconds(60),
        to_previous: false,
    };
    let mut out = vec![0; 1024 * ENTRY_BYTES];
    let a = e.read_externals_into_buffers(&mut range, settings, &[], &mut out).unwrap();
    assert_eq!((a.used, a.free, a.pops, a.last_chain_time.time), (2 * ENTRY_BYTES, 0, 1, ChainTime(2000)));
    assert_eq!(range.current_position, ExternalKey { anchor_id: 2, msgs_offset: 1 });
    assert_eq!(e.transaction().cache.len, 1);
}

/// Limits 4 and 9, no message in a buffer yet; the range that the reader will make.
fn free_places() -> (Externals, BufferLimits, Range) {
    let mut e = sample();
    let mut limits = BufferLimits { by_partitions: e.reader().buffer_limits_by_partitions };
    (limits.by_partitions[0], limits.by_partitions[1]) = (4, 9);
    e.reader_mut().buffer_limits_by_partitions = limits.by_partitions;
    e.renew(*e.reader()).unwrap();
    let range = e.create_next_externals_range_state().unwrap();
    (e, limits, range)
}

#[test]
fn free_places_of_a_range() {
    let (_, limits, mut range) = free_places();
    assert_eq!(get_max_buffers_fill_state(limits, range), Ok(4));
    (range.by_partitions[0].count, range.by_partitions[1].count) = (1, 7);
    assert_eq!(get_max_buffers_fill_state(limits, range), Ok(2));
    for full in [9, 10, 1024] {
        range.by_partitions[1].count = full;
        assert_eq!(get_max_buffers_fill_state(limits, range), Ok(0));
    }
    range.by_partitions[1].count = 1025;
    assert_eq!(get_max_buffers_fill_state(limits, range), Err(Refused(5)));
    range.by_partitions[1].present = false;
    assert_eq!(get_max_buffers_fill_state(limits, range), Ok(3));
    let mut other = limits;
    other.by_partitions[0] = NO_LIMIT;
    assert_eq!(get_max_buffers_fill_state(other, range), Err(Refused(10)));
    other.by_partitions[0] = 1025;
    assert_eq!(get_max_buffers_fill_state(other, range), Err(Refused(4)));
    other.by_partitions = [0; PARTITIONS];
    assert_eq!(get_max_buffers_fill_state(other, range), Ok(0));
    range.by_partitions[0].present = false;
    assert_eq!(get_max_buffers_fill_state(other, range), Ok(1024));
}

#[test]
fn free_places_of_a_read() {
    let (mut e, limits, _) = free_places();
    let mut out = vec![0; 1024 * ENTRY_BYTES];
    e.open().unwrap();
    // no range yet: a refill reads none; nor does a read once the mark is set
    assert_eq!(e.read_into_buffers(Mode::Refill, &[], &mut out).unwrap().1, None);
    assert_eq!(e.read_into_buffers(Mode::Continue, &[], &mut out).unwrap().1, None);
    e.reset_read_state().unwrap();
    assert_eq!(e.read_into_buffers(Mode::Continue, &[], &mut out).unwrap().1, Some(1));
    assert_eq!(get_max_buffers_fill_state(limits, e.ranges()[0]), Ok(1));
    e.messages_taken(5, 0, 2).unwrap();
    assert_eq!(get_max_buffers_fill_state(limits, e.ranges()[0]), Ok(3));
}

#[test]
fn whose_and_where() {
    let shard = ShardIdent { workchain: 0, prefix: 0x4000_0000_0000_0000 };
    let mut m = message(0);
    m[1] = 0x7f;
    assert_eq!(contains_message(shard, &m), Ok(true));
    m[1] = 0x80;
    assert_eq!(contains_message(shard, &m), Ok(false));
    let mut masterchain = ShardIdent { workchain: -1, prefix: 0x8000_0000_0000_0000 };
    assert_eq!(contains_message(masterchain, &message(-1)), Ok(true));
    masterchain.prefix >>= 1;
    assert_eq!(contains_message(masterchain, &message(-1)), Err(Refused(2)));
    let mut route = m.to_vec();
    route.push(3);
    assert_eq!(get_partition(&route, &m), Ok(3));
    assert_eq!(check_routes(&[route.clone(), route].concat()), Err(Refused(3)));
}

#[test]
fn parts_that_do_not_fit() {
    let mut out = vec![9; 1024 * ENTRY_BYTES];
    let mut e = sample();
    *e.parts_mut().unwrap().2 = Box::default();
    assert_eq!(e.open(), Err(Refused(1)));
    let mut e = sample();
    *e.parts_mut().unwrap().1 = Box::default();
    assert_eq!((e.open(), e.get(0), e.pop_front()), (Err(Refused(5)), Err(Refused(5)), Err(Refused(5))));
    let mut e = sample();
    let t = &mut e.parts_mut().unwrap().0.transaction;
    (t.active, t.cache.first) = (true, usize::MAX);
    assert_eq!(e.read_into_buffers(Mode::Continue, &[], &mut out).unwrap_err(), Refused(5));
    assert_eq!(e.close(), Err(Refused(5)));
    let mut e = sample();
    e.open().unwrap();
    e.reader_mut().reader_state.len = usize::MAX;
    assert_eq!(e.read_into_buffers(Mode::Continue, &[], &mut out).unwrap_err(), Refused(5));
    assert_eq!((e.finalize(), e.has_messages_in_buffers()), (Err(Refused(5)), Err(Refused(5))));
    assert!(out.iter().all(|&b| b == 9));
}

#[test]
fn parts_are_handed_out_only_without_a_transaction() {
    let mut e = sample();
    assert!(e.parts_mut().is_ok());
    e.open().unwrap();
    assert_eq!(e.parts_mut().unwrap_err(), Refused(9));
    e.commit().unwrap();
    assert_eq!(e.parts_mut().unwrap_err(), Refused(9));
    e.close().unwrap();
    assert!(e.parts_mut().is_ok());
}
