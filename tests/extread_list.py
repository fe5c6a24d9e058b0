"""The sessions of extread in the replayed list: hand-made ones, whose names say what each is for, and random ones.

`oracle` (without -x) answers them. Used by tests/fixed_list.py.
"""
import struct

from gen_sessions import A, CLOSE, COMMIT, FULL, HALF, NONE, OPEN, POP, READ, REFILL, ROLLBACK
from gen_sessions import acc, anchor, do, flat, named, rec, route, session, settings, shard

RANDOM = {'plain': 123, 'malformed': 83, 'caps': 6, 'mixed': 40}    # how many of each kind
OURS, OTHER, OURS_B = (0, A), (-1, A), (0, acc(0, 1))
HEAD = [shard(0, FULL), settings(1000, 60, 5, 4, 0, [9])]
ONE = [anchor(1, 1000, 1, [OURS])]
ATTEMPT = [do(OPEN), do(READ), do(CLOSE)]


def at(next_ct, timeout, limits=(9,)):
    return [shard(0, FULL), settings(next_ct, timeout, 5, 4, 0, list(limits))]


def raw_settings(payload):
    return [HEAD[0], rec(3, payload)]


def masterchain():
    """Ticket 2 of document 02: workchain -1 is one shard (`shard_of_the_masterchain`). Parts of it beside `masterchain_half_prefix`, and
    the lower half of workchains that share its byte, its sign or its bits: of those a message in the half is ours where the workchain
    fits a byte."""
    some = {'upper_half': FULL | HALF, 'quarter': HALF >> 1, 'depth_60': FULL | 8, 'prefix_0': 0, 'prefix_4': 4}
    res = {'2_masterchain_' + n: [shard(-1, prefix), HEAD[1], anchor(1, 1000, 1, [OTHER, OURS])] + ATTEMPT for n, prefix in some.items()}
    for n, workchain in {'255': 255, 'minus_257': -257, 'minus_2': -2, 'greatest': 2**31 - 1, 'least': -2**31}.items():
        byte, = struct.unpack_from('<b', struct.pack('<i', workchain))
        two = [anchor(1, 1000, 2, [(byte, A), (byte, acc(FULL))])]
        res['2_half_of_workchain_%s_is_well' % n] = [shard(workchain, HALF), HEAD[1]] + two + ATTEMPT
    return res


def refusals():
    """Every number that a session of extread can give, and the values beside it."""
    wide = struct.pack('<QIIBB', 1000, 60, 5, 4, 0)
    return {
        '2_prefix_0': [shard(0, 0)],
        '2_tag_at_bit_2': [shard(0, 4)],
        '2_tag_at_bit_3_is_well': [shard(0, 8), HEAD[1]],
        '3_route_twice': HEAD + [route(0, A, 1), route(0, A, 2)],
        '3_other_workchain_is_well': HEAD + [route(0, A, 1), route(-1, A, 2)],
        '3_partition_8': HEAD + [route(0, A, 8)],
        '3_partition_7_is_well': HEAD + [route(0, A, 7)],
        '3_257_routes': HEAD + [route(0, acc(i), i % 8) for i in range(257)],
        '3_256_routes_are_well': HEAD + [route(0, acc(i), i % 8) for i in range(256)] + ATTEMPT,
        '4_limit_1025': at(1000, 60, [1025]),
        '4_limit_1024_is_well': at(1000, 60, [1024]),
        '4_limit_65534': at(1000, 60, [65534]),
        '4_open_ranges_17': [HEAD[0], settings(1000, 60, 5, 17, 0, [1])],
        '4_open_ranges_16_is_well': [HEAD[0], settings(1000, 60, 5, 16, 0, [1])],
        '6_ours_above_count': HEAD + [anchor(1, 1000, 2, [OURS])],
        '6_513_messages': HEAD + [anchor(1, 1000, 1, [OURS] * 513)],
        '6_512_messages_are_well': HEAD + [anchor(1, 1000, 1, [OURS] * 512)],
        '6_1985_messages': HEAD + [anchor(1, 1000, 1, [OURS] * 1985)],
        '6_513_messages_cut_is_17': HEAD + [anchor(1, 1000, 1, [OURS] * 513)[:-1]],
        '6_513_messages_none_ours': HEAD + [anchor(1, 1000, 0, [OTHER] * 513)],
        '7_id_equal': HEAD + [anchor(3, 1000, 1, [OURS]), anchor(3, 1000, 1, [OURS])],
        '7_id_below': HEAD + [anchor(3, 1000, 1, [OURS]), anchor(2, 1000, 1, [OURS])],
        '7_not_against_history': HEAD + [anchor(3, 1000, 0, [OTHER]), anchor(2, 1000, 1, [OURS])],
        '8_33_anchors': HEAD + [anchor(i, 1000, 1, [OURS]) for i in range(1, 34)],
        '8_1025_messages': HEAD + [anchor(1, 1000, 1, [OURS] * 512), anchor(2, 1000, 1, [OURS] * 512), anchor(3, 1000, 1, [OURS])],
        '8_not_without_ours': HEAD + [anchor(1, 1000, 1, [OURS] * 512), anchor(2, 1000, 1, [OURS] * 512), anchor(3, 1000, 0, [OURS])],
        '8_257_history_entries': HEAD + [anchor(i, 1000, 0, [OTHER]) for i in range(1, 258)],
        '8_256_history_entries_are_well': HEAD + [anchor(i, 1000, 0, [OTHER]) for i in range(1, 257)],
        '8_freed_places_serve': HEAD + [anchor(1, 1000, 1, [OURS] * 512), anchor(2, 1001, 1, [OURS] * 512), do(POP), anchor(3, 1002, 1, [OURS] * 512), do(POP)],
        '9_none_open': HEAD + ONE + [do(READ), do(REFILL), do(COMMIT), do(ROLLBACK), do(CLOSE), do(POP)],
        '9_open_twice': HEAD + [do(OPEN), do(OPEN), do(CLOSE)],
        '9_add_while_open': HEAD + [do(OPEN)] + ONE,
        '12_partition_without_limit': at(1000, 60, [NONE, 9]) + ONE + ATTEMPT,
        '12_by_a_route': HEAD + [route(0, A, 3)] + ONE + ATTEMPT,
        '12_not_of_the_expired': at(61001, 60, [NONE, 9]) + [anchor(1, 1000, 1, [OURS])] + ATTEMPT,
        '17_nothing': [],
        '17_shard_alone': HEAD[:1],
        '17_settings_first': HEAD[1:],
        '17_shard_twice': HEAD + HEAD[:1],
        '17_settings_twice': HEAD + HEAD[1:],
        '17_route_before_settings': HEAD[:1] + [route(0, A, 1)],
        '17_unknown_kind': HEAD + [rec(6, b'')],
        '17_kind_0': HEAD + [rec(0, b'')],
        '17_kind_of_extprobe': HEAD + [rec(0x110, bytes(8))],
        '17_do_0': HEAD + [do(0)],
        '17_do_8': HEAD + [do(8)],
        '17_do_255': HEAD + [do(255)],
        '17_do_of_two_bytes': HEAD + [rec(5, bytes([1, 1]))],
        '17_waiting_2': raw_settings(wide[:-1] + b'\x02' + bytes(16)),
        '17_settings_short': raw_settings(wide + bytes(15)),
        '17_settings_long': raw_settings(wide + bytes(17)),
        '17_shard_short': [rec(1, bytes(11))],
        '17_route_short': HEAD + [rec(2, bytes(33))],
        '17_anchor_of_49_bytes': HEAD + [rec(4, bytes(49))],
        '17_anchor_count_too_high': HEAD + [rec(4, bytes(48) + b'\x01\x00')],
        '17_anchor_with_more': HEAD + [rec(4, bytes(50) + b'\x00')],
        '17_length_1': HEAD + [struct.pack('<I', 1) + b'\x05'],
        '17_length_0': HEAD + [struct.pack('<I', 0)],
        '17_length_huge': HEAD + [struct.pack('<IH', 2**32 - 1, 4) + bytes(60)],
        '17_cut_in_length': HEAD + [b'\x03\x00'],
        '17_cut_in_kind': HEAD + [b'\x03\x00\x00\x00\x05'],
        '17_cut_before_payload': HEAD + [b'\x03\x00\x00\x00\x05\x00'],
        'bad_stops': HEAD + [do(OPEN), do(9), do(CLOSE)],
        'refused_calls_go_on': HEAD + [do(CLOSE), do(OPEN), do(OPEN), do(CLOSE), do(COMMIT)],
    }


def surprises():
    """Document 01's surprises, and its three misreadings."""
    two = [anchor(1, 1000, 1, [OURS]), anchor(2, 2000, 2, [OURS, OTHER, OURS])]
    return {
        'block_seqno_0': [HEAD[0], settings(1000, 60, 0, 4, 0, [9])] + ONE + ATTEMPT,
        'no_limits_at_all': at(1000, 60, []) + ONE + [do(OPEN), do(READ), do(READ), do(CLOSE)],
        'refill_first': HEAD + ONE + [do(OPEN), do(REFILL), do(READ), do(CLOSE)],
        'new_settings_wait': [HEAD[0], settings(1000, 60, 5, 4, 1, [9])] + ONE + ATTEMPT,
        'session_left_open': HEAD + ONE + [do(OPEN), do(READ)],
        'session_left_open_after_pop': HEAD + two + [do(OPEN), do(POP)],
        'open_ranges_limit_1': [HEAD[0], settings(1000, 60, 5, 1, 0, [9])] + ONE + ATTEMPT,
        'age_60000_kept': at(61000, 60) + ONE + ATTEMPT,
        'age_60001_expired': at(61001, 60) + ONE + ATTEMPT,
        'age_below_0_kept': at(0, 0) + ONE + ATTEMPT,
        'timeout_0': at(1001, 0) + ONE + ATTEMPT,
        'timeout_greatest': at(2**64 - 1, 2**32 - 1) + ONE + ATTEMPT,
        'expired_position_stays_at_the_offset': at(61001, 60) + [anchor(1, 1000, 2, [OURS, OURS]), anchor(2, 1001, 1, [OURS])] + ATTEMPT,
        'limit_0_front_expired': at(61001, 60, [0]) + [anchor(1, 1000, 1, [OURS]), anchor(2, 1001, 1, [OURS])] + [do(OPEN), do(READ), do(COMMIT), do(CLOSE)],
        'limit_0': at(1000, 60, [0]) + ONE + ATTEMPT,
        'full_then_nothing_more': at(1000, 60, [1]) + two + [do(OPEN), do(READ), do(READ), do(CLOSE)],
        'full_at_the_last_message': at(1000, 60, [1]) + ONE + [do(OPEN), do(READ), do(READ), do(CLOSE)],
        'pop_commit_rollback_close': HEAD + two + [do(OPEN), do(POP), do(COMMIT), do(ROLLBACK), do(CLOSE)],
        'rollback_pop_close': HEAD + two + [do(OPEN), do(COMMIT), do(ROLLBACK), do(POP), do(CLOSE)],
        'commit_before_pop': HEAD + two + [do(OPEN), do(COMMIT), do(POP), do(CLOSE)],
        'abandoned': HEAD + two + [do(OPEN), do(READ), do(POP), do(CLOSE), do(OPEN), do(READ), do(COMMIT), do(CLOSE)],
        'commit_does_not_end': HEAD + two + [do(OPEN), do(COMMIT), do(READ), do(POP), do(COMMIT), do(POP), do(CLOSE)],
        'last_history_entry_stays': HEAD + [anchor(1, 5, 0, [OTHER]), anchor(2, 9, 1, [OURS]), do(POP), do(POP)],
        'prefix_4_first_byte_7f': [shard(0, HALF), HEAD[1], anchor(1, 1000, 1, [(0, bytes([0x7f]) + bytes(31))])] + ATTEMPT,
        'prefix_4_first_byte_80': [shard(0, HALF), HEAD[1], anchor(1, 1000, 1, [(0, bytes([0x80]) + bytes(31))])] + ATTEMPT,
        'shard_of_the_masterchain': [shard(-1, FULL), HEAD[1], anchor(1, 1000, 1, [OTHER, OURS])] + ATTEMPT,
        'workchain_beyond_a_byte': [shard(-129, FULL), HEAD[1], anchor(1, 1000, 1, [(127, A)])] + ATTEMPT,
        'routes_after_anchors': at(1000, 60, [9, 9, 9]) + [anchor(1, 1000, 2, [OURS, OURS_B]), route(0, A, 2), do(OPEN), do(READ), route(-1, A, 1), do(READ), do(CLOSE)],
        'eight_partitions': at(1000, 60, [9] * 8) + [route(0, acc(0, i), i % 8) for i in range(16)] + [anchor(1, 1000, 16, [(0, acc(0, i)) for i in range(16)])] + ATTEMPT,
        '1024_entries': at(1000, 60, [1024]) + [anchor(1, 1000, 512, [OURS] * 512), anchor(2, 1001, 512, [OURS] * 512)] + ATTEMPT,
        'greatest_numbers': [HEAD[0], settings(2**64 - 1, 2**32 - 1, 2**32 - 1, 16, 0, [1024] * 8), anchor(2**32 - 1, 2**64 - 1, 1, [OURS])] + ATTEMPT,
    }


def free_places():
    """Ticket 7 of document 02: `free` behind `read`, unless no range was read or the read was refused."""
    again = [do(OPEN), do(READ), do(READ), do(CLOSE)]
    routes = [route(0, acc(0, i), i) for i in range(8)]
    return {
        'free_2_of_an_empty_cache_then_the_mark': at(1000, 60, [2]) + again,
        'free_not_without_limits': at(1000, 60, []) + again,
        'free_not_of_a_first_refill': HEAD + ONE + [do(OPEN), do(REFILL), do(CLOSE)],
        'free_not_where_settings_wait': [HEAD[0], settings(1000, 60, 5, 4, 1, [9])] + ONE + again,
        'free_not_where_refused_by_12': HEAD + [anchor(1, 1000, 2, [OURS, OURS_B]), route(0, acc(0, 1), 3)] + again,
        'free_not_where_none_is_open': HEAD + ONE + [do(READ), do(REFILL)],
        'free_8_of_9_beside_1024': at(1000, 60, [9, 1024]) + ONE + again,
        'free_0_of_limit_0_front_expired': at(61001, 60, [0]) + [anchor(1, 1000, 1, [OURS]), anchor(2, 1001, 1, [OURS])] + ATTEMPT,
        'free_0_by_another_partition': at(1000, 60, [9, 0]) + ONE + again,
        'free_not_by_expired_ones': at(61001, 60, [2]) + [anchor(1, 1000, 2, [OURS, OURS]), anchor(2, 1001, 1, [OURS])] + ATTEMPT,
        'free_not_by_others': at(1000, 60, [1024]) + [anchor(1, 1000, 1, [OTHER, OTHER])] + ATTEMPT,
        'free_1_of_2': at(1000, 60, [2]) + ONE + again,
        'free_0_of_1_and_again': at(1000, 60, [1]) + ONE + again,
        'free_1_of_1024': at(1000, 60, [1024]) + [anchor(1, 1000, 512, [OURS] * 512), anchor(2, 1000, 511, [OURS] * 511)] + ATTEMPT,
        'free_stays_after_a_rollback': at(1000, 60, [3]) + [anchor(1, 1000, 2, [OURS, OURS]), do(OPEN), do(READ), do(ROLLBACK), do(READ), do(CLOSE)],
        # the smallest of eight: by the limit, then by the partition that got two messages, wherever that is
        'free_3_of_eight_limits': at(1000, 60, [5, 4, 9, 3, 7, 3, 1024, 6]) + ATTEMPT,
        **{'free_3_by_partition_%d' % i: at(1000, 60, [5] * 8) + routes + [anchor(1, 1000, 2, [(0, acc(0, i))] * 2)] + ATTEMPT for i in range(8)},
    }


def sessions():
    """Names and bytes, in the list's order."""
    own = {'extread ' + n: recs for n, recs in named().items() if not n.startswith('x_')}
    for group in (refusals(), masterchain(), surprises(), free_places()):
        own.update({'extread ' + n: recs for n, recs in group.items()})
    some = [('extread %s %d' % (kind, i), session(i, kind)) for kind, n in RANDOM.items() for i in range(1, n + 1)]
    return [(n, flat(recs)) for n, recs in own.items()] + some
