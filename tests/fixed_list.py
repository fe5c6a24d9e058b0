#!/usr/bin/env python3
"""The replayed list of sessions, crates/extprobe: writes its stdin, and its stdout from the oracle's answers.

    tests/fixed_list.py [--oracle FILE]     writes crates/extprobe/stdin and stdout
    tests/fixed_list.py --list              numbers and names of the sessions

First extread's sessions (extread_list.py), then extprobe's: the hand-made ones below and random ones of gen_sessions.py.
The expected output is what the Rust original prints (`oracle`, `oracle -x`), never what extprobe prints.
"""
import argparse
import os
import sys

sys.dont_write_bytecode = True
from differ import TOP, by_oracle, framed, gen_sessions as g  # noqa: E402
import extread_list  # noqa: E402
from gen_sessions import A, CLOSE, COMMIT, FULL, HALF, NONE, OPEN, POP, READ, REFILL, ROLLBACK  # noqa: E402
from gen_sessions import acc, anchor, do, one, places, put_partition, put_range, rec, route, settings, shard  # noqa: E402

RANDOM = {'range': 60, 'beyond': 60, 'reader': 102, 'mixed': 20, 'infos': 20}    # how many of each kind
TOP64 = 2**64 - 1
OURS, OTHER = (0, A), (-1, A)
B = acc(0, 1)
OURS_B = (0, B)
HEAD = [shard(0, FULL), settings(1000, 60, 5, 4, 0, [9])]
END, PREVIOUS = 0, 1
THREE, LATE = anchor(2, 1000, 3, [OURS] * 3), anchor(3, 1001, 2, [OURS] * 2)
# offsets that 16 or 32 bits cut to one within THREE, and the greatest of so many bits
FAR = {'2_%d%s' % (bits, name): 2**bits + k for bits in (16, 32)
       for k, name in enumerate(('_minus_1', '', '_plus_1', '_plus_2', '_plus_3'), -1)}


def cached(*a):
    return rec(0x107, anchor(*a)[6:])


def history(aid, ct, count=1, ours=1):
    return rec(0x106, g.struct.pack('<IQII', aid, ct, count, ours) + bytes(32))


def info(aid, ct, count=1, ours=1):
    return rec(0x117, history(aid, ct, count, ours)[6:])


def trim(ct):
    return rec(0x110, g.struct.pack('<Q', ct))


def info_at(ct):
    return rec(0x114, g.struct.pack('<Q', ct))


def in_range(aid, offset):
    return rec(0x115, g.struct.pack('<IQ', aid, offset))


def area(n):
    return rec(0x108, g.struct.pack('<I', n))


def limits(*some):
    return rec(0x105, g.struct.pack('<8H', *some, *[NONE] * (8 - len(some))))


def at(pos=(0, 0), to=None, ct=1000, fully=0, parts=None, seqno=5):
    """A range that begins at its position; "to" is the position unless it is given."""
    return put_range(seqno, pos, pos if to is None else to, pos, ct, fully, {0: (0, 0, 0)} if parts is None else parts)


def reads(*recs, head=HEAD, mode=END):
    """The records, then open, one read of range 5, close."""
    return head + list(recs) + [do(OPEN), one(5, mode), do(CLOSE)]


def numbered(n, *recs):
    """The records, then open; the read of range 5 is record n."""
    return HEAD + list(recs) + [do(OPEN)] + [info_at(0)] * (n - 4 - len(recs)) + [one(5, END)]


def both(name, *recs, head=HEAD):
    return {name: reads(*recs, head=head), name + '_to_previous': reads(*recs, head=head, mode=PREVIOUS)}


def with_limits(*some, ct=1000, timeout=60):
    return [shard(0, FULL), settings(ct, timeout, 5, 4, 0, list(some))]


def function(which, partition=0, flag=0):
    return rec(0x113, bytes([which, partition, flag]))


def took(seqno, partition, n):
    return rec(0x112, g.struct.pack('<IBI', seqno, partition, n))


def marks(all_read, last=None):
    return rec(0x103, g.struct.pack('<BBQ', all_read, last is not None, last or 0))


def settled(seqno=5, most=4, waiting=0, limits=(9,), ct=1000, timeout=60):
    """Shard and settings."""
    return [shard(0, FULL), settings(ct, timeout, seqno, most, waiting, list(limits))]


NEW = rec(0x116, b'')


def refusals():
    two = [anchor(1, 1000, 2, [OURS, OURS])]
    full16 = [at(seqno=i) for i in range(1, 17)]
    return {
        '1_area_short': HEAD + two + [at(), do(OPEN), area(33791), one(5, 0), do(POP), do(COMMIT), do(ROLLBACK), trim(0), do(CLOSE),
                                      area(33792), one(5, 0), do(CLOSE), area(0), do(OPEN)],
        '1_add': HEAD + [area(33791)] + two,
        '2_prefix_0': [shard(0, 0)],
        '2_depth_61': [shard(0, 4)],
        '2_depth_60_is_well': [shard(0, 8), HEAD[1]],
        '2_masterchain_half': reads(anchor(2, 1000, 1, [OTHER, OURS]), at(), head=[shard(-1, HALF), HEAD[1]]),
        '3_route_twice': HEAD + [route(0, A, 1), route(0, A, 2)],
        '3_partition_8': HEAD + [route(0, A, 8)],
        '3_257_routes': HEAD + [route(0, acc(i), i % 8) for i in range(257)],
        '4_limit_1025': with_limits(1025),
        '4_open_17': [shard(0, FULL), settings(1000, 60, 5, 17, 0, [1])],
        '4_later_limit': HEAD + [limits(1025)],
        '5_count_1025': HEAD + [at(parts={0: (1025, 0, 0)})],
        '5_count_1024_is_well': reads(*two, at(parts={0: (1024, 0, 0)})),
        '5_17_ranges': HEAD + full16 + [at(seqno=16, fully=1), at(seqno=17)],
        '5_cached_id_not_rising': HEAD + [cached(2, 1000, 1, [OURS]), cached(2, 1000, 1, [OURS])],
        '5_cached_ours_0': HEAD + [cached(2, 1000, 0, [OURS])],
        '5_cached_513_messages': HEAD + [cached(2, 1000, 1, [OURS] * 513)],
        '9_put_cached_513_messages_open': HEAD + [do(OPEN), cached(2, 1000, 1, [OURS] * 513)],
        '6_ours_above_count': HEAD + [anchor(1, 1000, 2, [OURS])],
        '6_513_messages': HEAD + [anchor(1, 1000, 1, [OURS] * 513)],
        '7_id_not_rising': HEAD + [anchor(3, 1000, 1, [OURS]), anchor(3, 1000, 1, [OURS])],
        '8_33_anchors': HEAD + [anchor(i, 1000, 1, [OURS]) for i in range(1, 34)],
        '8_1025_messages': HEAD + [anchor(1, 1000, 1, [OURS] * 512), anchor(2, 1000, 1, [OURS] * 512), anchor(3, 1000, 1, [OURS])],
        '8_not_without_ours': HEAD + [anchor(1, 1000, 1, [OURS] * 512), anchor(2, 1000, 1, [OURS] * 512), anchor(3, 1000, 0, [OURS])],
        '9_none_open': HEAD + two + [at(), one(5, 0), do(COMMIT), do(ROLLBACK), do(CLOSE), do(POP), trim(0)],
        '9_open_twice': HEAD + [do(OPEN), do(OPEN)],
        '9_add_open': HEAD + [do(OPEN)] + two,
        '9_put_cached_open': HEAD + [do(OPEN), cached(1, 1000, 1, [OURS])],
        '9_put_history_open': HEAD + [do(OPEN), history(1, 1)],
        '10_no_limit': reads(*two, at(parts={0: (0, 0, 0), 3: (0, 0, 0)})),
        '10_no_limit_empty_cache': reads(at(parts={7: (0, 0, 0)})),
        '10_limit_of_an_absent_partition': reads(*two, at(), head=with_limits(9, NONE, 3)),
        '10_taken_away': HEAD + two + [at(), do(OPEN), limits(NONE, 5), one(5, 0), limits(1), one(5, 0)],
        **both('11_position_past_count', at((2, 4)), anchor(2, 1000, 3, [OURS] * 3)),
        '11_saved_end_elsewhere': reads(at((2, 4), (2, 5)), anchor(2, 1000, 3, [OURS] * 3), mode=PREVIOUS),
        '11_not_where_full': reads(at((2, 4)), anchor(2, 1000, 3, [OURS] * 3), head=with_limits(0)),
        '11_not_where_expired': reads(at((2, 4), ct=61001), anchor(2, 1000, 3, [OURS] * 3)),
        '11_offset_2_32': reads(at((2, 2**32)), anchor(2, 1000, 3, [OURS] * 3)),
        '11_offset_2_63': reads(at((2, 2**63)), anchor(2, 1000, 3, [OURS] * 3)),
        '11_offset_top': reads(at((2, TOP64)), anchor(2, 1000, 3, [OURS] * 3)),
        '11_offset_2_32_plus_1': reads(at((2, 2**32 + 1)), anchor(2, 1000, 3, [OURS] * 3)),
        '12_no_processed_position': reads(route(0, A, 3), *two, at(parts={0: (0, 0, 0)})),
        '12_taken_away': reads(*two, at(), put_partition(0, (0, 0), present=0)),
        '12_not_of_the_expired': reads(*two, at(ct=61001), put_partition(0, (0, 0), present=0)),
        '12_not_of_others': reads(anchor(1, 1000, 1, [OTHER]), at(), put_partition(0, (0, 0), present=0)),
        '13_range_lacks_partition': reads(route(0, A, 1), *two, at(), head=with_limits(9, 9)),
        '13_not_where_processed': reads(route(0, A, 1), *two, at(), put_partition(1, (1, 2)), head=with_limits(9, 9)),
        '13_before_14': reads(route(0, A, 1), *two, at(), places(0), head=with_limits(9, 9)),
        '14_no_place': reads(*two, at(), places(0)),
        '14_one_place': reads(*two, at(), places(1)),
        '14_two_places': reads(*two, at(), places(2)),
        '14_after_pops': reads(anchor(1, 1000, 1, [OTHER]), anchor(2, 1000, 1, [OURS]), anchor(3, 1000, 2, [OURS, OURS]), at(), places(2)),
        '14_not_of_others': reads(anchor(1, 1000, 1, [OTHER, OTHER]), at(), places(0)),
        '14_not_where_processed': reads(*two, at(), put_partition(0, (1, 2)), places(0)),
        # the output's length is 26 times the places and the record's number modulo 26 (README.md of the crate)
        '14_output_of_25_bytes': numbered(25, *two, at(), places(0)),
        '14_output_of_26_bytes': numbered(26, anchor(1, 1000, 1, [OURS]), at(), places(1)),
        '14_output_of_51_bytes': numbered(25, *two, at(), places(1)),
        '14_output_of_52_bytes': numbered(26, *two, at(), places(2)),
        '14_output_of_0_bytes': numbered(26, *two, at(), places(0)),
        '15_no_range': HEAD + [do(OPEN), one(5, 0), at(seqno=6), one(5, 0), one(6, 0)],
        '17_nothing': [],
        '17_shard_alone': HEAD[:1],
        '17_unknown_kind': HEAD + [rec(0x109, b'')],
        '17_mode_2': HEAD + [one(5, 2)],
        '17_do_8': HEAD + [do(8)],
        '17_cut': HEAD + [at()[:-1]],
        '17_shard_again': HEAD + HEAD[:1],
    }


def walks():
    three = anchor(2, 1000, 3, [OURS] * 3)
    late = anchor(3, 1000, 2, [OURS, OURS])
    mixed = anchor(4, 1000, 2, [OTHER, OURS, OURS_B, OTHER])
    return {
        # step 1, and that the mark once set stays set
        **both('none_cached', at((2, 1), (9, 9))),
        'fully_read_stays_set': reads(three, at(fully=1), head=with_limits(1)),
        # step 2: the id below the entry position's, not below the moving position's; no chain time is told for it
        **both('popped_below_position', anchor(1, 900, 1, [OURS]), three, late, at((3, 0), (3, 1))),
        'popped_to_none': reads(anchor(1, 900, 1, [OURS]), three, at((3, 0))),
        'popped_though_full': reads(anchor(1, 900, 1, [OURS]), three, at((3, 0)), head=with_limits(0)),
        # step 3: the offset is the entry position's on equal id only
        **both('offset_of_position', three, late, at((2, 2), (3, 1))),
        **both('position_at_the_end_of_the_front', three, late, at((2, 3), (3, 1))),
        'position_in_a_gap': reads(anchor(1, 1000, 1, [OURS]), late, at((2, 2))),
        # the saved end: reached at once, inside, at an anchor's end, past the count, below the position, above every id
        'end_at_position': reads(three, at((2, 1)), mode=PREVIOUS),
        'end_inside': reads(three, late, at((2, 0), (2, 2)), mode=PREVIOUS),
        'end_at_anchors_end': reads(three, late, at((2, 0), (2, 3)), mode=PREVIOUS),
        'end_past_count': reads(three, late, at((2, 0), (2, 4)), mode=PREVIOUS),
        'end_below_position': reads(three, late, at((2, 2), (2, 1)), mode=PREVIOUS),
        'end_id_below_front': reads(three, late, at((0, 0), (1, 5)), mode=PREVIOUS),
        'end_above_all': reads(three, late, at((0, 0), (9, TOP64)), mode=PREVIOUS),
        'end_2_63': reads(three, late, at((2, 0), (2, 2**63)), mode=PREVIOUS),
        'end_offset_0_of_next': reads(three, late, at((2, 0), (3, 0)), mode=PREVIOUS),
        # the saved end is fixed at entry: "to" raised while reading does not bring it about
        'end_fixed_at_entry': reads(three, late, at((2, 1), (2, 0)), mode=PREVIOUS),
        # step 4: expired at "above" the limit, not "at least"; popped before fullness is looked at
        'expiry_at_limit': reads(three, at(ct=61000)),
        'expiry_above_limit': reads(three, at(ct=61001)),
        'expiry_ct_above_range': reads(anchor(2, TOP64, 1, [OURS]), at(ct=0)),
        'expiry_timeout_0': reads(three, late, at(ct=1001), head=with_limits(9, timeout=0)),
        'expiry_timeout_largest': reads(three, at(ct=TOP64), head=with_limits(9, timeout=2**32 - 1)),
        'expired_limit_0': reads(three, at(ct=61001), head=with_limits(0)),
        # the expired anchor's position is (id, offset), not its end, and "to" is raised to it; counts from the offset on
        **both('expired_position', three, anchor(3, 60000, 1, [OURS]), at((2, 1), (2, 0), ct=61001)),
        'expired_at_saved_end': reads(three, anchor(3, 60000, 1, [OURS]), at((2, 1), ct=61001), mode=PREVIOUS),
        'expired_above_saved_end': reads(three, anchor(3, 60000, 2, [OURS] * 2), at((0, 0), (1, 0), ct=61001), mode=PREVIOUS),
        'expired_offset_past_count': reads(three, at((2, TOP64), ct=61001)),
        'expired_to_above': reads(three, at((0, 0), (2, 9), ct=61001)),
        'expired_counts_by_partition': reads(route(0, B, 1), mixed, anchor(5, 900, 2, [OURS_B, OURS]), at(ct=70000), head=with_limits(9, 9)),
        # step 5: not ours moves the position and is not counted; what is processed is counted as read, not buffered
        'others_move_position': reads(anchor(2, 1000, 1, [OTHER, OTHER]), at()),
        'processed_2_1': reads(three, at(), put_partition(0, (2, 1))),
        'processed_of_a_later_id': reads(three, late, at(), put_partition(0, (3, 1))),
        'processed_top': reads(three, at(), put_partition(0, (2**32 - 1, TOP64))),
        'processed_2_63': reads(three, late, at(), put_partition(0, (2, 2**63))),
        'two_partitions': reads(route(0, B, 1), mixed, at(parts={0: (0, 1, 2), 1: (0, 3, 4)}), head=with_limits(9, 9)),
        'route_of_another_workchain': reads(route(-1, A, 1), three, at(parts={0: (0, 0, 0), 1: (0, 0, 0)}), head=with_limits(9, 9)),
        # fullness: of any partition, at entry and after a message; only ours fill
        'full_after_1': reads(three, at(), head=with_limits(1)),
        'full_at_anchors_end': reads(three, late, at(), head=with_limits(3)),
        'full_before_others': reads(anchor(2, 1000, 1, [OURS, OTHER]), late, at(), head=with_limits(1)),
        'full_of_another_partition': reads(three, at(parts={0: (0, 0, 0), 1: (2, 0, 0)}), head=with_limits(9, 2)),
        'full_at_entry': reads(three, at(parts={0: (4, 0, 0)}), head=with_limits(4)),
        'above_limit_at_entry': reads(three, at(parts={0: (4, 0, 0)}), head=with_limits(3)),
        'full_limit_0': reads(three, at(), head=with_limits(0)),
        'full_not_by_a_partition_without_buffer': reads(three, at(), head=with_limits(9, 0)),
        # step 6: the pop comes before both ends, also where nothing was read; the saved end before fullness
        'full_pops_whole': reads(three, late, at((2, 3)), head=with_limits(0)),
        'full_and_end_reached': reads(three, late, at((2, 0), (2, 1)), head=with_limits(1), mode=PREVIOUS),
        'full_and_end_not_reached': reads(three, late, at((2, 0), (2, 2)), head=with_limits(1), mode=PREVIOUS),
        'end_reached_pops_whole': reads(three, late, at((2, 3)), mode=PREVIOUS),
        'end_reached_past_count': reads(three, late, at((2, 4)), mode=PREVIOUS),
        # a range is read on where it was left, then anew after a rollback: the cache goes back, the range does not
        'read_on': HEAD + [three, late, at(), do(OPEN), limits(1), one(5, 0), limits(2), one(5, 0), limits(9), one(5, 0), one(5, 0), do(CLOSE)],
        'read_after_rollback': HEAD + [three, late, at(), do(OPEN), one(5, 0), do(ROLLBACK), one(5, 0), one(5, 1), do(COMMIT), do(CLOSE)],
        'second_range': HEAD + [three, late, at(seqno=4, to=(2, 2)), at(), do(OPEN), one(4, 1), one(5, 0), do(COMMIT), do(CLOSE)],
        'seqno_largest': HEAD + [three, at(seqno=2**32 - 1), do(OPEN), one(2**32 - 1, 0), do(CLOSE)],
        'shard_depth_60': reads(anchor(2, 1000, 2, [(0, acc(0x1230)), (0, acc(0x1240)), (0, acc(0x123F))]), at(),
                                head=[shard(0, 0x1238), HEAD[1]]),
        'shard_workchain_256': reads(three, at(), head=[shard(256, FULL), HEAD[1]]),
        'shard_workchain_least': reads(three, at(), head=[shard(-2**31, FULL), HEAD[1]]),
        'shard_workchain_minus_1': reads(anchor(2, 1000, 1, [OTHER, OURS]), at(), head=[shard(-1, FULL), HEAD[1]]),
        'id_largest': reads(anchor(2**32 - 1, 1000, 2, [OURS, OURS]), at((2**32 - 1, 1), (2**32 - 1, 2)), mode=PREVIOUS),
        'at_the_caps': reads(*[anchor(i, 1000, 32, [OURS] * 32) for i in range(1, 33)], at(), head=with_limits(1024)),
        'at_the_caps_expired': reads(*[anchor(i, 1000, 512, [OURS] * 512) for i in (1, 2)], at(ct=61001), head=with_limits(1024)),
    }


def caches():
    some = [anchor(1, 1000, 1, [OURS]), anchor(2, 1000, 0, [OURS]), anchor(3, 1000, 1, [OURS]), anchor(4, 1100, 2, [OURS] * 2)]
    return {
        'history_stays': HEAD + [history(1, 5), cached(2, 9, 1, [OURS]), do(POP)],
        'history_equal_times_stay': HEAD + some + [do(POP), do(POP), do(POP), do(POP)],
        'history_without_cached': HEAD + [history(1, 5), history(2, 6), trim(5), trim(0), do(POP), info_at(0)],
        'trim_both': HEAD + some + [do(OPEN), trim(1000), info_at(TOP64), info_at(0), trim(999), do(ROLLBACK), trim(TOP64), do(CLOSE)],
        'in_range_by_id': HEAD + some + [in_range(0, TOP64), in_range(1, 0), in_range(4, 0), do(POP), in_range(2, 0), in_range(3, 0)],
        'info_of_none': HEAD + [info_at(5), in_range(5, 5)],
        'commit_rollback_close': HEAD + some + [do(OPEN), do(POP), do(COMMIT), do(ROLLBACK), do(CLOSE)],
        'commit_pop_close': HEAD + some + [do(OPEN), do(COMMIT), do(POP), do(CLOSE), do(OPEN), do(POP), do(CLOSE)],
        # what is asked while a transaction is open is answered of the cache as it now is, after a rollback as it was opened
        'asked_while_open': HEAD + some + [do(OPEN), do(POP), in_range(2, 0), info_at(1000), trim(1000), in_range(3, 0), info_at(TOP64), do(ROLLBACK),
                                           in_range(2, 0), info_at(TOP64), do(COMMIT), do(POP), in_range(2, 0), do(CLOSE), in_range(2, 0), info_at(TOP64)],
        'all_gone_and_back': HEAD + some + [do(OPEN), trim(0), do(POP), in_range(9, 0), info_at(TOP64), do(READ), do(ROLLBACK), in_range(9, 0),
                                            do(POP), do(POP), do(POP), in_range(9, 0), do(READ), do(CLOSE), in_range(9, 0), info_at(TOP64)],
        'freed_places_serve_again': HEAD + [anchor(1, 1, 1, [OURS] * 500), anchor(2, 2, 1, [OURS] * 500), do(POP), anchor(3, 3, 1, [OURS_B] * 512),
                                            do(POP), anchor(4, 4, 1, [OURS] * 512), do(POP), do(POP), do(POP)],
        'marks': HEAD + [rec(0x103, bytes([1, 1]) + bytes([255]) * 8), rec(0x103, bytes(10))],
    }


def infos():
    """Entries to the history alone."""
    some = [anchor(5, 1000, 1, [OURS]), anchor(6, 1000, 0, [OURS])]
    return {
        'info_is_the_last_imported': HEAD + some + [info(3, 900, 7, 9), info_at(TOP64), info_at(950), in_range(9, 0), do(POP), trim(950), trim(0)],
        'info_of_any_numbers': HEAD + [info(2**32 - 1, TOP64, 2**32 - 1, 2**32 - 1), info(0, 0, 0, 0), info_at(0)],
        'info_leaves_pending': HEAD + [info(1, 1000), do(OPEN), do(READ), do(CLOSE)],
        'info_gives_the_position': HEAD + some + [info(9, 1100, 4, 0), do(OPEN), do(READ), do(COMMIT), do(CLOSE)],
        'info_1_area_short': HEAD + [area(33791), info(1, 1), area(33792), info(1, 1)],
        'info_9_open': HEAD + some + [do(OPEN), info(7, 7), do(POP), do(CLOSE), info(7, 7)],
        'info_17_too_short': HEAD + [rec(0x117, bytes(51))],
        'info_17_too_long': HEAD + [rec(0x117, bytes(53))],
    }


def whole_reads():
    """The read of all ranges."""
    two, three = anchor(1, 1000, 2, [OURS, OURS]), anchor(2, 1000, 3, [OURS] * 3)
    late, last = anchor(3, 1000, 2, [OURS, OURS]), anchor(4, 900, 1, [OURS])
    cache = [two, three, late, last]
    again = [do(OPEN), do(READ), do(READ), do(CLOSE)]
    older = [at((0, 0), (1, 2), seqno=3), at((1, 2), (2, 3), seqno=4)]
    fifth = {0: (0, 0, 0), 5: (0, 0, 0)}
    return {
        'sample': g.sample(),
        'every_do': HEAD + cache + [do(d) for d in (READ, REFILL, OPEN, READ, POP, COMMIT, ROLLBACK, READ, REFILL, CLOSE, READ)],
        'read_1_area_short': HEAD + cache + [do(OPEN), area(33791), do(READ), do(REFILL), area(33792), do(READ), do(CLOSE)],
        'read_9_none_open': HEAD + cache + older + [do(READ), do(REFILL), marks(1), do(READ)],
        # a range is made where there is none, where all are fully read, and where the block's own is there already it is not
        'made_first': HEAD + cache + again,
        'made_behind': HEAD + cache + older + again,
        'made_behind_fully_read': HEAD + cache + [at((1, 2), seqno=3, fully=1), at((2, 3), seqno=4, fully=1)] + again,
        'own_is_there': HEAD + cache + older + [at((2, 3), (3, 1), seqno=5)] + again,
        'own_is_there_fully_read': HEAD + cache + [at((2, 3), (3, 1), seqno=5, fully=1)] + again,
        'last_is_above': HEAD + cache + [at((2, 3), (3, 1), seqno=6)] + again,
        'made_from_last_to': HEAD + cache + [at((0, 0), (2, 1), seqno=4), put_partition(0, (1, 1), 7)] + again,
        'made_with_offsets': settled(limits=[9, NONE, 3]) + cache + [put_partition(0, (0, 0), 4), put_partition(2, (0, 0), 2**32 - 1),
                                                                     do(OPEN), do(READ)],
        'made_at_next_chain_time': settled(ct=61001) + cache + again,
        'block_seqno_0': settled(0) + cache + again,
        'block_seqno_0_own_there': settled(0) + cache + [at((0, 0), (2, 1), seqno=0)] + again,
        'block_seqno_largest': settled(2**32 - 1) + cache + [at((0, 0), (2, 1), seqno=2**32 - 2)] + again,
        # no limit at all: the reader has no partition, every range is skipped, one is made and not read
        'no_limits_at_all': settled(limits=[]) + cache + again,
        'no_limits_two_ranges': settled(limits=[]) + cache + older + again,
        # the open-ranges limit is at least 2, as the Rust takes it
        **{'open_limit_%d' % n: settled(most=n) + cache + older[:1] + again for n in (0, 1, 2, 3)},
        **{'open_limit_%d_two_ranges' % n: settled(most=n) + cache + older + again for n in (0, 1, 2, 3)},
        'open_limit_1_none': settled(most=1) + cache + again,
        'open_limit_16': settled(seqno=20, most=16) + [at(seqno=i, fully=1) for i in range(1, 16)] + cache + again,
        'open_limit_16_full': settled(seqno=20, most=16) + [at(seqno=i, fully=1) for i in range(1, 17)] + cache + again,
        'settings_wait': settled(waiting=1) + cache + again,
        'settings_wait_ranges': settled(waiting=1) + cache + older + again + [function(20), do(OPEN), do(READ)],
        'refill_first': HEAD + cache + [do(OPEN), do(REFILL), do(READ), function(20), do(READ), do(CLOSE)],
        'refill_to_previous': HEAD + cache + older + [do(OPEN), do(REFILL), do(REFILL), function(20), do(READ)],
        'refill_skips_own': HEAD + cache + older + [at((2, 3), (3, 1), seqno=5), do(OPEN), do(REFILL), do(READ), do(CLOSE)],
        'refill_own_alone': HEAD + cache + [at((0, 0), (3, 1), seqno=5), do(OPEN), do(REFILL), do(REFILL), do(READ)],
        'mark_is_set': HEAD + cache + older + [marks(1, 77), do(OPEN), do(READ), do(REFILL), function(20), do(READ)],
        # other ranges are read to where they were read before, the block's own to the end
        'to_previous_and_to_the_end': HEAD + cache + [at((0, 0), (2, 1), seqno=4), at((2, 1), (2, 2), seqno=5)] + again,
        'above_the_own_to_previous': HEAD + cache + [at((0, 0), (2, 1), seqno=5), at((2, 1), (2, 2), seqno=6)] + again,
        # skip offsets: read unless every partition of the reader is below
        'skip_not_reached': HEAD + cache + [at((0, 0), (2, 1), seqno=4, parts={0: (0, 1, 1)})] + again + [function(16), do(OPEN), do(READ)],
        'skip_reached': HEAD + cache + [put_partition(0, (0, 0), 3), at((0, 0), (2, 1), seqno=4, parts={0: (0, 3, 3)})] + again,
        'skip_reached_in_one': settled(limits=[9, 9]) + cache + [put_partition(1, (0, 0), 2), do(OPEN),
                                                                 at((0, 0), (2, 1), seqno=4, parts={0: (0, 1, 1), 1: (0, 2, 2)}), do(READ)],
        'skip_of_a_missing_partition_is_0': settled(limits=[9, 9]) + cache + [at((0, 0), (2, 1), seqno=4, parts={0: (0, 1, 1)})] + again,
        'skip_then_next_is_read': HEAD + cache + [at((0, 0), (1, 1), seqno=3, parts={0: (0, 1, 1)}), at((1, 1), (2, 1), seqno=4)] + again,
        # a full buffer ends the call in a range not fully read, and does not in a fully read one
        'full_ends_the_call': settled(limits=[1]) + cache + older + again + [took(3, 0, 1), do(OPEN), do(READ), took(3, 0, 1), do(READ)],
        'full_in_a_fully_read_range': settled(limits=[2]) + cache + older + again,
        'full_before_the_own_is_fully_read': settled(limits=[1]) + [anchor(1, 1000, 1, [OURS])] + again,
        'full_at_entry_fully_read_skipped': settled(limits=[2]) + cache + [at((1, 2), seqno=3, fully=1, parts={0: (2, 0, 0)}), older[1]] + again,
        'took_and_read_on': settled(limits=[2]) + cache + [do(OPEN), do(READ), took(5, 0, 1), do(READ), took(5, 0, 2), do(READ), took(5, 0, 2), do(READ)],
        # the place of the last imported anchor: only where a read leaves the block's own range fully read
        'position_from_history': HEAD + [anchor(1, 1000, 1, [OURS]), anchor(7, 1000, 0, [OURS] * 3)] + again,
        'position_without_history': HEAD + [cached(1, 1000, 1, [OURS]), cached(2, 1000, 1, [OURS])] + again,
        'position_from_history_alone': HEAD + [history(9, 5, 2**32 - 1)] + again,
        'position_not_of_a_range_fully_read_before': HEAD + [history(9, 5, 4), at((1, 1), seqno=5, fully=1)] + again,
        'position_not_where_not_fully_read': settled(limits=[1]) + [two, history(9, 1000, 4)] + again,
        'position_not_of_others': settled(6) + [history(9, 5, 4), at((1, 1), (2, 2), seqno=5), do(OPEN), do(REFILL)],
        'position_after_pops': HEAD + [history(9, 5, 4), cached(1, 1000, 1, [OURS]), history(8, 7, 3)] + again,
        # the last chain time is of the last range read, and stays where that one saw none
        'last_time_of_the_last_range': HEAD + [two, anchor(2, 1100, 1, [OURS]), at((0, 0), (1, 2), seqno=4)] + again,
        'last_time_none_in_the_last_range': HEAD + [two, marks(0, 77), at((0, 0), (1, 2), seqno=3), at((1, 2), (2, 2), seqno=4)] + again,
        'last_time_none_at_all': HEAD + [marks(0, 77)] + again,
        'last_time_not_of_skipped': HEAD + [two, marks(0, 77), at((0, 0), (1, 2), seqno=4, parts={0: (0, 1, 1)})] + again,
        # the entries of several ranges follow one another, and what is popped for one is gone for the next
        'entries_of_three_ranges': HEAD + cache + older + [do(OPEN), do(READ)],
        'output_of_three_places': HEAD + cache + older + [places(3), do(OPEN), do(READ), places(5), do(READ), places(8), do(READ)],
        'output_cut_between_ranges': HEAD + cache + older + [places(2), do(OPEN), do(READ), do(REFILL)],
        'popped_below_the_second_position': HEAD + cache + [at((0, 0), (1, 1), seqno=3), at((3, 0), (3, 1), seqno=4)] + again,
        'second_range_before_the_first': HEAD + cache + [at((3, 0), (3, 2), seqno=3), at((0, 0), (2, 1), seqno=4)] + again,
        'expired_in_the_second': HEAD + cache + [at((0, 0), (1, 2), seqno=3), at((1, 2), (3, 2), ct=61001, seqno=4)] + again,
        'partitions_summed': settled(limits=[9, 9]) + [route(0, B, 1), anchor(1, 1000, 4, [OURS, OURS_B, OTHER, OURS_B]), anchor(2, 1000, 2, [OURS_B, OURS]),
                                                       at((0, 0), (1, 2), seqno=4, parts={0: (0, 0, 0), 1: (0, 0, 0)})] + again,
        # a read that is refused in a later range leaves everything as it was before the first
        '10_in_the_third': HEAD + cache + older + [at((2, 3), (3, 1), seqno=5, parts=fifth), do(OPEN), do(READ), do(REFILL), do(READ)],
        '11_in_the_third': HEAD + cache + older + [at((3, 5), (9, 9), seqno=5), do(OPEN), do(READ), do(READ)],
        '12_in_the_third': settled(limits=[9, 9]) + cache[:2] + [anchor(3, 1000, 2, [OURS, OURS_B]), route(0, B, 3)] + older + [do(OPEN), do(READ), do(READ)],
        '12_then_10_in_the_made_range': settled(limits=[NONE, 2]) + cache + [do(OPEN), do(READ), put_partition(0, (0, 0)), do(READ)],
        '13_in_the_third': settled(limits=[9, 9]) + cache[:2] + [anchor(3, 1000, 2, [OURS, OURS_B]), route(0, B, 1)] + older + [
            at((2, 3), (3, 1), seqno=5), do(OPEN), do(READ), do(READ)],
        '14_in_the_third': HEAD + cache + older + [places(6), do(OPEN), do(READ), places(8), do(READ)],
        '10_in_the_made_range': settled(limits=[9, 9]) + cache + [put_partition(3, (0, 0)), do(OPEN), do(READ)],
        '10_not_of_a_fully_read_range': HEAD + cache + [at((1, 2), seqno=3, fully=1, parts=fifth)] + again,
        '10_not_of_a_skipped_range': HEAD + cache + [at((1, 2), (2, 1), seqno=3, parts={0: (0, 1, 1), 5: (0, 0, 0)})] + again,
        'rollback_brings_back_the_cache': HEAD + cache + older + [do(OPEN), do(READ), do(ROLLBACK), function(20), do(READ), do(COMMIT), do(CLOSE)],
    }


def functions():
    """The other functions of the reader, the host's report, and `new`."""
    parts = {0: (2, 1, 3), 1: (0, 4, 5)}
    two = [at((1, 0), (1, 2), seqno=3, parts={0: (1, 0, 9), 1: (1024, 0, 0)}), at((1, 2), (2, 3), seqno=5, parts=parts)]
    head = settled(limits=[9, 9])
    offsets = [put_partition(0, (0, 0), 10), put_partition(1, (0, 0), 5)]
    all22 = [function(i) for i in range(1, 23)]
    asked = [function(i, p) for i in (2, 3, 4, 5, 6, 7, 8, 9, 10, 11, 12, 13, 22) for p in ((0, 1, 2, 7) if i == 4 else (0,))]
    return {
        'every_function_without_ranges': head + all22,
        'every_function': head + two + offsets + all22,
        'every_function_reversed': head + two + offsets + all22[::-1],
        'every_function_of_a_partition_without_record': head + two + [function(i, 6, f) for i in range(1, 23) for f in (0, 1)],
        'asked_of_two_ranges': head + two + offsets + asked,
        'asked_after_a_read': settled(limits=[2, 2]) + [anchor(1, 1000, 2, [OURS, OURS]), do(OPEN), do(READ)] + asked + [took(5, 0, 2)] + asked + [do(READ)] + asked,
        'asked_with_the_mark_set': head + [marks(1)] + asked + two + asked,
        'asked_of_empty_buffers': head + [at((1, 2), seqno=5, fully=1), marks(1)] + asked,
        # finalize: the last range takes over a current offset above every processed one, in any range
        'finalize_above_all': head + two + offsets + [function(1), function(1)],
        'finalize_not_above_the_first': head + two + [put_partition(0, (0, 0), 9), put_partition(1, (0, 0), 6), function(1)],
        'finalize_absent_partition': head + two + [put_partition(1, (0, 0), 7, present=0), function(1)],
        '15_finalize_first_range_lacks': head + [at((1, 0), (1, 2), seqno=3), two[1]] + offsets + [function(1)],
        '15_finalize_last_range_lacks': head + [two[0], at((1, 2), (2, 3), seqno=5)] + offsets + [function(1)],
        'finalize_marks_ranges_at_their_end': head + [at((1, 2), seqno=3, parts=parts), two[1], at((2, 3), seqno=6, parts=parts), function(1)],
        'finalize_keeps_the_mark_of_a_range': head + [at((1, 2), (2, 2), seqno=3, fully=1, parts=parts), function(1)],
        'finalize_without_reader_partitions': settled(limits=[]) + two + [function(1)],
        **{'limit_%d_reached' % n: settled(most=n) + [x for i in range(1, 6) for x in (function(2), at(seqno=i))] + [function(2)] for n in (0, 1, 2, 3, 4)},
        'limit_16_reached': settled(most=16) + [at(seqno=i) for i in range(1, 16)] + [function(2), at(seqno=99), function(2)],
        'offset_reached_at_equal': head + two + [put_partition(0, (0, 0), 3), function(4), function(5), put_partition(0, (0, 0), 2), function(4), function(5),
                                                 put_partition(1, (0, 0), 5), function(4, 1), put_partition(0, (0, 0), 3), function(5)],
        '15_offsets_reached': head + [at(parts={0: (0, 0, 0), 4: (0, 0, 0)}), function(5), put_partition(4, (0, 0)), function(5)],
        '15_offsets_reached_after_a_no': head + [at(parts={0: (0, 0, 5), 4: (0, 0, 0)}), function(5)],
        '15_offsets_not_of_an_earlier_range': head + [at(parts={4: (0, 0, 0)}, seqno=3), at(), function(5)],
        'collected_by_skip_offset': head + [at(parts={0: (0, 2, 0)}), function(11), put_partition(0, (0, 0), 1), function(11), put_partition(0, (0, 0), 2),
                                            function(11), at(parts={0: (1, 2, 0)}), function(11), at(parts={6: (0, 1, 0)}), function(11), at(parts={6: (0, 0, 0)}), function(11)],
        'counts_summed_over_ranges': head + two + [at(parts={0: (1024, 0, 0), 7: (3, 0, 0)}, seqno=9), function(6), function(13), function(7)],
        'checked_is_not_the_mark': head + [at((1, 2), (2, 2), seqno=3, fully=1), marks(1), function(9), function(10), function(8),
                                           at((1, 2), (2, 2), seqno=3, fully=0), function(9), function(10), marks(0), function(9), function(10), function(8)],
        'pending_of_the_present_cache': head + [function(12), anchor(1, 1000, 1, [OURS]), function(12), do(OPEN), do(POP), function(12), do(ROLLBACK), function(12),
                                                do(POP), do(COMMIT), do(CLOSE), function(12)],
        'retain_clears_the_mark': settled(6, limits=[9, 9]) + two + [marks(1, 5), function(14), function(14)],
        'retain_leaves_the_mark_of_the_block': head + two + [marks(1, 5), function(14)],
        'retain_leaves_the_mark_of_a_later_one': settled(4, limits=[9, 9]) + two + [marks(1, 5), function(14)],
        'retain_then_read': settled(6, most=2, limits=[9, 9]) + two + [anchor(1, 1000, 2, [OURS, OURS]), marks(1), do(OPEN), do(READ), function(14), do(READ)],
        '15_retain': head + [marks(1), function(14)],
        'from_to_position': head + two + [function(15), function(15)],
        '15_from_to_position': head + [function(15)],
        'increment': head + [function(16), function(16), function(16, 1), put_partition(0, (3, 3), 2**32 - 2), function(16), function(16), function(16)],
        '15_increment': head + [function(16, 2), put_partition(1, (0, 0), 2**32 - 1, present=0), function(16, 1)],
        'drop_offset': head + two + offsets + [function(17, 0, 0), function(17, 1, 1)],
        '15_drop_offset': head + offsets + [function(17), at(parts={1: (0, 3, 4)}), function(17, 0), function(17, 2), put_partition(1, (0, 0), 3, present=0), function(17, 1, 1)],
        'skip_to_current': head + two + offsets + [function(18, 0), function(18, 1), function(18, 0)],
        '15_skip_to_current': head + offsets + [function(18), at(parts={1: (0, 3, 4)}), function(18, 0), function(18, 2), put_partition(1, (0, 0), 9, present=0), function(18, 1)],
        'processed_to_position': head + two + [function(19, 1), function(19, 0)],
        '15_processed_to_position': head + [function(19)] + two + [function(19, 2), put_partition(1, (0, 0), present=0), function(19, 1)],
        'reset_and_drop_last': head + [marks(1, 9), function(21), function(20), marks(1, 9), function(20), function(21)],
        'partition_ids': settled(limits=[]) + [function(22)] + [x for p in (7, 0, 3) for x in (put_partition(p, (0, 0)), function(22))] + [put_partition(7, (0, 0), present=0), function(22)],
        'took': head + two + [took(3, 1, 1024), took(5, 0, 1), took(5, 0, 1), took(5, 0, 0)],
        '16_took': head + two + [took(5, 0, 3), took(5, 1, 1), took(3, 1, 1025), took(3, 0, 2**32 - 1)],
        '15_took': head + two + [took(4, 0, 0), took(0, 0, 0), took(5, 2, 0), took(5, 7, 9)],
        '17_took_partition_8': head + two + [took(5, 8, 0)],
        '17_function_0': head + [function(0)],
        '17_function_23': head + [function(23)],
        '17_function_partition_8': head + [function(4, 8)],
        '17_function_flag_2': head + [function(17, 0, 2)],
        '17_do_0': HEAD + [do(0)],
        '17_new_with_a_byte': head + [rec(0x116, b'0')],
        # `new` again: fully read exactly where the position is "to"; partitions of the limits that are not there; the mark goes
        'new_at_to_and_not': head + [at((1, 2), seqno=3), at((1, 2), seqno=4, fully=1), at((1, 2), (2, 2), seqno=5), at((1, 2), (2, 2), seqno=6, fully=1),
                                     at((2, 2), (1, 2), seqno=7, fully=1), at((1, 2), (1, 3), seqno=8, fully=1), marks(1, 7), NEW],
        'new_with_other_limits': head + [put_partition(0, (3, 4), 5), put_partition(6, (1, 1), 2), limits(NONE, 1, 2), NEW, function(22), limits(), NEW],
        'new_after_a_read': settled(limits=[1]) + [anchor(1, 1000, 2, [OURS, OURS]), do(OPEN), do(READ), NEW, do(READ), took(5, 0, 1), do(READ), NEW, do(READ)],
        'new_with_an_area_short': head + [area(0), NEW, function(1), took(1, 1, 1), limits(3)],
    }


def free_places():
    """Ticket 7 of document 02: the free places that one range's read answers, and the line `free` of a read of all."""
    two, three, late = anchor(1, 1000, 2, [OURS, OURS]), anchor(2, 1000, 3, [OURS] * 3), anchor(3, 1000, 2, [OURS, OURS])
    cache = [two, three, late]
    again = [do(OPEN), do(READ), do(READ), do(CLOSE)]
    waiting, both_limits = settled(waiting=1), settled(waiting=1, limits=[9, 9])
    held = {0: (5, 0, 0)}
    to_2, to_5 = at((0, 0), (1, 2), seqno=3), at((1, 2), (2, 3), seqno=4)    # of the first two messages, of the next three
    absent = at()[:-13] + b'\x00' + g.struct.pack('<III', 1024, 3, 4)    # partition 7 is not there, its numbers are
    return {
        # one range: 1,024 without partitions, whatever the limits are, also where nothing is looked at
        **both('free_1024_without_partitions', at(parts={})),
        **both('free_1024_without_partitions_popped', anchor(1, 1000, 1, [OURS]), at((2, 0), parts={})),
        **both('free_1024_without_partitions_others', anchor(1, 1000, 1, [OTHER]), at((0, 0), (1, 1), parts={}), head=with_limits(0, 0)),
        'free_1024_without_partitions_expired': reads(two, at(ct=61001, parts={}), head=with_limits(0)),
        'free_1024_without_partitions_processed': reads(two, at(parts={}), put_partition(0, (1, 2)), head=with_limits(0)),
        **both('free_9_of_an_empty_cache', at()),
        **both('free_4_of_9_at_once', at((1, 2), parts=held), two),
        **both('free_after_two', two, late, at((0, 0), (1, 2)), head=with_limits(9)),
        # limit less count, and 0 at a count that is at or above the limit
        **{'free_of_1024_at_%d' % n: reads(at(parts={0: (n, 0, 0)}), head=with_limits(1024)) for n in (0, 1, 512, 1023, 1024)},
        **{'free_of_3_at_%d' % n: reads(at(parts={0: (n, 0, 0)}), head=with_limits(3)) for n in (0, 2, 3, 4, 1024)},
        'free_of_3_at_4_front_expired': reads(two, late, at(ct=61001, parts={0: (4, 0, 0)}), head=with_limits(3)),
        'free_0_by_a_lowered_limit': HEAD + cache + [at(), do(OPEN), limits(4), one(5, END), limits(1), one(5, END), limits(0), one(5, END), limits(6), one(5, END)],
        'free_by_a_taken_message': settled(limits=[3]) + cache + [at(), do(OPEN), one(5, END), took(5, 0, 1), one(5, END), took(5, 0, 3), one(5, PREVIOUS)],
        # the smallest of a range's partitions, of those that are present alone
        **{'free_2_in_partition_%d' % i: reads(at(parts={p: (7 if p == i else p % 3, 0, 0) for p in range(8)}), head=with_limits(*[9] * 8)) for i in range(8)},
        'free_by_the_smallest_limit': reads(at(parts={p: (0, 0, 0) for p in range(8)}), head=with_limits(1024, 8, 7, 6, 5, 6, 7, 8)),
        'free_not_by_an_absent_partition': reads(two, at(parts={2: (1, 0, 0)}), put_partition(0, (9, 9)), head=with_limits(0, 0, 5)),
        'free_not_by_an_absent_partitions_numbers': reads(two, absent, head=with_limits(9, *[NONE] * 6, 0)),
        'free_by_the_last_message_put': reads(route(0, B, 1), anchor(1, 1000, 3, [OURS, OURS_B, OURS_B]), at(parts={0: (0, 0, 0), 1: (0, 0, 0)}), head=with_limits(9, 9)),
        'free_by_the_first_message_put': reads(route(0, B, 1), anchor(1, 1000, 3, [OURS, OURS, OURS_B]), at(parts={0: (0, 0, 0), 1: (0, 0, 0)}), head=with_limits(9, 9)),
        'free_not_in_a_refusal': reads(two, at(parts={0: (0, 0, 0), 3: (0, 0, 0)})) + [do(OPEN), places(1), at(), one(5, END), places(2), one(5, END)],
        # a read of all tells the last range that it read, neither the smallest nor the last that it has
        'free_of_the_second_below_the_first': waiting + cache + [to_2, to_5] + again,
        'free_of_the_second_above_the_first': waiting + cache + [at((0, 0), (1, 2), seqno=3, parts=held), to_5] + again,
        'free_of_the_second_without_partitions': both_limits + [two, anchor(2, 1000, 1, [OTHER]), to_2, at((1, 2), (2, 1), seqno=4, parts={})] + again,
        'free_of_the_made_range': HEAD + cache + [at((0, 0), (1, 2), seqno=3, parts=held), to_5] + again,
        'free_of_a_range_above_the_own': HEAD + cache + [at((0, 0), (1, 2), seqno=5), at((1, 2), (1, 2), seqno=6, parts=held)] + again,
        'free_of_a_range_that_ends_the_call': settled(limits=[2]) + cache + [to_5, at((2, 3), (3, 1), seqno=5)] + again + [took(4, 0, 2)] + again,
        'free_0_of_a_fully_read_range': settled(waiting=1, limits=[2]) + cache + [to_2] + again,
        'free_before_a_skipped_range': HEAD + cache + [to_2, at((1, 2), (2, 3), seqno=4, parts={0: (5, 1, 1)})] + again,
        'free_behind_a_skipped_range': HEAD + cache + [at((0, 0), (1, 2), seqno=3, parts={0: (5, 1, 1)}), to_5] + again,
        'free_before_a_fully_read_range': HEAD + cache + [to_2, at((1, 2), seqno=5, fully=1, parts=held)] + again,
        'free_behind_a_fully_read_range': waiting + cache + [at((1, 2), seqno=3, fully=1, parts=held), to_5] + again,
        'free_of_a_refill_before_the_own': HEAD + cache + [to_2, at((1, 2), (2, 3), seqno=5, parts=held), do(OPEN), do(REFILL), do(READ), do(CLOSE)],
        # no range read: no line
        'free_not_of_the_own_in_a_refill': HEAD + cache + [at((0, 0), (1, 2), seqno=5), do(OPEN), do(REFILL), do(READ), do(CLOSE)],
        'free_not_of_skipped_ranges': HEAD + cache + [at((0, 0), (1, 2), seqno=3, parts={0: (0, 1, 1)}), at((1, 2), (2, 3), seqno=4, parts={0: (0, 2, 2)})] + again,
        'free_not_of_fully_read_ranges': waiting + cache + [at((1, 2), seqno=3, fully=1), at((2, 3), seqno=4, fully=1)] + again,
        'free_not_where_the_mark_is_set': HEAD + cache + [to_2, marks(1), do(OPEN), do(READ), do(REFILL), function(20), do(READ)],
        # refused in a later range: no line of the first, and none of an earlier read
        'free_not_where_refused_later_10': HEAD + cache + [to_2, at((1, 2), (2, 3), seqno=4, parts={0: (0, 0, 0), 5: (0, 0, 0)}), do(OPEN), do(READ), limits(9, NONE, NONE, NONE, NONE, 9), do(READ)],
        'free_not_where_refused_later_11': HEAD + cache + [to_2, at((2, 5), (9, 9), seqno=4), do(OPEN), do(READ), to_5, do(READ)],
        'free_not_where_refused_later_14': waiting + cache + [to_2, to_5, places(4), do(OPEN), do(READ), places(5), do(READ), do(READ)],
        'free_not_in_a_refusal_after_a_read': settled(limits=[2]) + cache + [do(OPEN), do(READ), limits(), do(READ), limits(3), do(READ)],
        'free_by_other_limits': settled(limits=[2]) + cache + [do(OPEN), do(READ), limits(5), do(READ), limits(1), do(READ), limits(1024), do(READ)],
    }


def far_ends():
    """Ticket 4 of document 02: saved ends whose low 16 or 32 bits are a place in the anchor. No offset of it reaches
    them."""
    mixed, many = anchor(2, 1000, 1, [OTHER, OURS, OTHER]), anchor(2, 1000, 512, [OTHER] * 511 + [OURS])
    res = {'far_end_top': reads(THREE, LATE, at((2, 0), (2, TOP64)), mode=PREVIOUS)}
    for name, offset in FAR.items():
        res['far_end_' + name] = reads(THREE, LATE, at((2, 0), (2, offset)), mode=PREVIOUS)
        if not name.endswith('plus_3'):    # "to" stays above the position; cut to the count it would too
            res['far_end_%s_to_the_end' % name] = reads(THREE, at((2, 0), (2, offset)))
    for bits in (16, 32):
        name, end, to = 'far_end_2_%d_plus_' % bits, (2, 2**bits + 1), (2, 2**bits + 2)
        part = [THREE, LATE, at((2, 0), end)]
        older, own = [[THREE, LATE, at((2, 0), to, seqno=s), do(OPEN)] for s in (4, 5)]
        twice = [limits(1), one(5, PREVIOUS), limits(9), one(5, PREVIOUS)]
        res.update({
            # the range made behind begins at this "to"
            name + '2_continue': HEAD + older + [do(READ), do(READ), do(CLOSE)],
            name + '2_refill': HEAD + older + [do(REFILL), do(REFILL), do(CLOSE)],
            name + '2_of_the_own': settled(limits=[3]) + own + [do(READ), do(REFILL), do(CLOSE)],
            name + '1_at_position_1': reads(THREE, LATE, at((2, 1), end), mode=PREVIOUS),
            name + '1_of_others': reads(mixed, LATE, at((2, 0), end), mode=PREVIOUS),
            name + '1_of_a_later_id': reads(THREE, LATE, at((2, 0), (3, end[1])), mode=PREVIOUS),
            name + '1_where_full': reads(*part, head=with_limits(1), mode=PREVIOUS),
            name + '1_read_on': HEAD + part + [do(OPEN)] + twice + [do(CLOSE)],
            name + '511_of_512': reads(many, LATE, at((2, 510), (2, 2**bits + 511)), mode=PREVIOUS),
        })
    return res


def far_positions():
    """The same of positions: past the count, so 11 unless a buffer is full or the saved end is just there. Of an
    expired anchor nothing is counted, and the position stays."""
    first, again = anchor(1, 1000, 1, [OURS]), [do(OPEN), do(READ), do(READ), do(CLOSE)]
    res = {}
    for name, offset in FAR.items():
        res['11_far_position_' + name] = reads(THREE, LATE, at((2, offset)))
        res['far_position_%s_expired' % name] = reads(THREE, at((2, offset), (2, 0), ct=61001))
    for name, offset in {**FAR, '2_63': 2**63, 'top': TOP64}.items():
        res['far_position_%s_at_the_saved_end' % name] = reads(THREE, LATE, at((2, offset)), mode=PREVIOUS)
    for bits in (16, 32):
        name = 'far_position_2_%d_' % bits
        below, least, pos, count = [(2, 2**bits + k) for k in (-1, 0, 1, 3)]
        second = [first, THREE, at((0, 0), (1, 1), seqno=3), at(pos, (2, 3), seqno=4)]
        res.update({
            name + 'plus_1_where_full': reads(THREE, LATE, at(pos), head=with_limits(0)),
            name + 'plus_3_where_full': reads(THREE, LATE, at(count), head=with_limits(0)),
            # the saved end is elsewhere: at the low bits, one below, one above
            '11_%splus_1_end_1' % name: reads(THREE, LATE, at(pos, (2, 1)), mode=PREVIOUS),
            '11_%send_below' % name: reads(THREE, LATE, at(least, below), mode=PREVIOUS),
            '11_%sminus_1_end_above' % name: reads(THREE, LATE, at(below, least), mode=PREVIOUS),
            '11_%splus_1_after_a_pop' % name: reads(first, THREE, at(pos)),
            '11_%splus_1_in_the_second' % name: HEAD + second + again,
            '11_%splus_1_in_the_made_range' % name: HEAD + [THREE, at(pos, seqno=4, fully=1)] + again,
        })
    return res


def other_positions():
    """Positions at and past the count of the longest anchor, of no anchor, and such a one from the history."""
    many = [anchor(2, 1000, 512, [OURS] * 512), LATE]
    first = [history(2, 5, 2**16 + 1), do(OPEN), do(READ), do(CLOSE)]
    return {
        **both('position_512_of_512', *many, at((2, 512)), head=with_limits(1024)),
        '11_position_513_of_512': reads(*many, at((2, 513)), head=with_limits(1024)),
        '11_far_position_2_16_plus_512_of_512': reads(*many, at((2, 2**16 + 512)), head=with_limits(1024)),
        '11_far_position_2_32_plus_512_of_512': reads(*many, at((2, 2**32 + 512)), head=with_limits(1024)),
        'far_position_of_no_anchor': reads(THREE, LATE, at((1, 2**16 + 1))),
        'far_position_from_history': HEAD + first + [THREE, do(OPEN), one(5, END), one(5, PREVIOUS)],
    }


def far_processed():
    """The same of processed positions: no message of the anchor is above them."""
    mixed, two = anchor(2, 1000, 4, [OURS, OURS_B, OURS, OURS_B]), {0: (0, 0, 0), 1: (0, 0, 0)}
    again = [do(OPEN), do(READ), do(READ), do(CLOSE)]
    res = {
        'processed_2_2': reads(THREE, LATE, at(), put_partition(0, (2, 2))),
        'processed_2_top': reads(THREE, LATE, at(), put_partition(0, (2, TOP64))),
    }
    for name, offset in FAR.items():
        if not name.endswith('plus_3'):    # cut to the count, no message would be above it either
            res['far_processed_' + name] = reads(THREE, LATE, at(), put_partition(0, (2, offset)))
    for bits in (16, 32):
        name, key = 'far_processed_2_%d_plus_1_' % bits, (2, 2**bits + 1)
        of_two = [put_partition(0, key), put_partition(1, (2, 2))]
        res.update({
            name + 'of_a_later_id': reads(THREE, LATE, at(), put_partition(0, (3, key[1]))),
            name + 'of_one_partition': reads(route(0, B, 1), mixed, at(parts=two), *of_two, head=with_limits(9, 9)),
            name + 'by_the_position': reads(THREE, LATE, at(key), function(19), at()),
            name + 'in_a_read_of_all': HEAD + [THREE, LATE, put_partition(0, key)] + again,
        })
    return res


def sessions():
    """Names and bytes, in the list's order."""
    named = {}
    far = (far_ends(), far_positions(), other_positions(), far_processed())
    for group in (refusals(), walks(), caches(), whole_reads(), functions(), infos(), free_places(), *far):
        assert not named.keys() & group.keys()
        named.update(group)
    some = [('%s %d' % (kind, i), g.session(i, kind, far_offsets=False))
            for kind, n in RANDOM.items() for i in range(1, n + 1)]
    return [(n, g.flat(recs)) for n, recs in named.items()] + some


def main():
    p = argparse.ArgumentParser(description=__doc__, formatter_class=argparse.RawDescriptionHelpFormatter)
    p.add_argument('--oracle', default=os.path.join(TOP, 'oracle', 'target', 'release', 'oracle'))
    p.add_argument('--list', action='store_true')
    a = p.parse_args()
    plain, probe = extread_list.sessions(), sessions()
    if a.list:
        print('\n'.join('%3d %s' % (i, name) for i, (name, _) in enumerate(plain + probe)))
        return
    first, then = [b for _, b in plain], [b for _, b in probe]
    crate = os.path.join(TOP, 'crates', 'extprobe')
    with open(os.path.join(crate, 'stdin'), 'wb') as f:
        f.write(framed(first, True) + framed(then))
    outs = by_oracle(a.oracle, first, []) + by_oracle(a.oracle, then)
    with open(os.path.join(crate, 'stdout'), 'w', encoding='ascii') as f:
        f.write(''.join('session %d\n%s' % x for x in enumerate(outs)) + 'sessions %d\n' % len(outs))
    print("%d sessions of extread's, %d of extprobe's" % (len(first), len(then)))


if __name__ == '__main__':
    sys.exit(main())
