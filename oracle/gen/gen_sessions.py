#!/usr/bin/env python3
"""Random sessions of `extread` (document 01), in the binary record form.

  gen_sessions.py --seed N                     one session on standard output
  gen_sessions.py --seed N --count K --dir D   K sessions with seeds N..N+K-1 as D/NNNNNN.bin
  gen_sessions.py --every 5 --dir D            all sequences of five do bytes over one cache
  gen_sessions.py --sample                     document 01's sample session
  gen_sessions.py --named NAME                 a small hand-made session (see --list)
  --kind plain|malformed|caps|mixed|beyond|range|reader
                                               (mixed: mostly plain; the default;
                                                beyond, range, reader: for `oracle -x` only)
"""
import argparse
import itertools
import os
import random
import struct
import sys

OPEN, POP, READ, REFILL, COMMIT, ROLLBACK, CLOSE = range(1, 8)
NONE = 0xFFFF


def rec(kind, payload):
    return struct.pack('<IH', 2 + len(payload), kind) + payload


def shard(workchain, prefix):
    return rec(1, struct.pack('<iQ', workchain, prefix))


def route(workchain, account, partition):
    return rec(2, struct.pack('<b', workchain) + account + bytes([partition]))


def settings(next_ct, timeout, seqno, open_limit, waiting, limits):
    limits = list(limits) + [NONE] * (8 - len(limits))
    return rec(3, struct.pack('<QIIBB8H', next_ct, timeout, seqno, open_limit, waiting, *limits))


def anchor(aid, ct, ours, msgs, author=None, count=None):
    if author is None:
        author = bytes((aid + ct + 7 * i) % 256 for i in range(32))
    body = struct.pack('<IQ', aid, ct) + author
    body += struct.pack('<IH', ours, len(msgs) if count is None else count)
    for wc, acc in msgs:
        body += struct.pack('<b', wc) + acc
    return rec(4, body)


def do(n):
    return rec(5, bytes([n]))


def acc(first, tail=0):
    return struct.pack('>Q', first) + bytes(23) + bytes([tail])


FULL = 0x8000000000000000
HALF = 0x4000000000000000
A = acc(0)


def sample():
    return [shard(0, FULL), settings(61000, 60, 5, 4, 0, [2]),
            anchor(1, 1000, 1, [(0, A)]),
            anchor(2, 2000, 2, [(0, A), (-1, A), (0, A)]),
            do(OPEN), do(READ), do(CLOSE)]


def named():
    head = [shard(0, FULL)]
    m = (0, A)
    return {
        'sample': sample(),
        # open-ranges limit 0 or 1: the Rust takes max(limit, 2)
        'open_limit_0': head + [settings(1000, 60, 5, 0, 0, [2]), do(OPEN), do(READ), do(CLOSE)],
        # no limit at all: the range is made and skipped, never read
        'no_limits': head + [settings(1000, 60, 5, 4, 0, []), anchor(1, 1000, 1, [m]),
                             do(OPEN), do(READ), do(READ), do(CLOSE)],
        # a message of ours for a partition without a limit: 12
        'no_processed': head + [settings(1000, 60, 5, 4, 0, [NONE, 2]), anchor(1, 1000, 1, [m]),
                                do(OPEN), do(READ), do(READ), do(CLOSE)],
        # end with a transaction left open
        'left_open': head + [settings(1000, 60, 5, 4, 0, [2]), anchor(1, 1000, 1, [m]),
                             do(OPEN), do(POP)],
        # Refill first: the mark is set, nothing is ever read
        'refill_first': head + [settings(1000, 60, 5, 4, 0, [2]), anchor(1, 1000, 1, [m]),
                                do(OPEN), do(REFILL), do(READ), do(CLOSE)],
        # an anchor without ours: pending stays
        'ours_0': head + [settings(1000, 60, 5, 4, 0, [2]), anchor(1, 1000, 0, [m])],
        # limit 0, front expired: popped, nothing buffered
        'limit_0_expired': head + [settings(61001, 60, 5, 4, 0, [0]), anchor(1, 1000, 1, [m]),
                                   anchor(2, 1001, 1, [m]), do(OPEN), do(READ), do(COMMIT), do(CLOSE)],
        # cache goes back, range does not
        'rollback': head + [settings(2000, 60, 5, 4, 0, [1]), anchor(1, 1000, 1, [m]),
                            anchor(2, 1001, 2, [m, m]), do(OPEN), do(READ), do(ROLLBACK),
                            do(READ), do(CLOSE), do(OPEN), do(READ), do(COMMIT), do(CLOSE)],
        # block seqno 0: the last seqno (0) is not below it
        'seqno_0': head + [settings(1000, 60, 0, 4, 0, [2]), anchor(1, 1000, 1, [m]),
                           do(OPEN), do(READ), do(CLOSE)],
        # position past a later, shorter anchor of the same id
        'short_again': head + [settings(1000, 60, 5, 4, 0, [2]), anchor(3, 1000, 3, [m, m, m]),
                               do(OPEN), do(READ), do(COMMIT), do(CLOSE), do(POP),
                               anchor(3, 1000, 1, [m]), do(OPEN), do(READ), do(COMMIT), do(CLOSE)],
        # ours 0 is judged by question 7 too, and only by the last cached anchor
        'ours_0_low_id': head + [settings(1000, 60, 5, 4, 0, [2]), anchor(5, 1000, 0, [m]),
                                 anchor(3, 1000, 1, [m]), anchor(4, 1000, 0, [m]), anchor(3, 1000, 0, [m])],
        # an add while one is open: 6 to 8 come before 9
        'add_open_7': head + [settings(1000, 60, 5, 4, 0, [2]), anchor(3, 1000, 1, [m]), do(OPEN),
                              anchor(3, 1000, 1, [m])],
        'add_open_9': head + [settings(1000, 60, 5, 4, 0, [2]), anchor(3, 1000, 1, [m]), do(OPEN),
                              anchor(4, 1000, 1, [m])],
        # full cache of 1,024 messages: an anchor without ours still goes to history
        'ours_0_over_cap': head + [settings(1000, 60, 5, 4, 0, [2]), anchor(1, 1000, 1, [m] * 512),
                                   anchor(2, 1000, 1, [m] * 512), anchor(3, 1000, 0, [m]),
                                   anchor(4, 1000, 1, [m])],
        # the masterchain is one shard: refused, while the Rust reads on (oracle --split-masterchain)
        'masterchain_half_prefix': [shard(-1, HALF), settings(1000, 60, 5, 4, 0, [2]),
                                    anchor(1, 1000, 1, [(-1, A), (-1, acc(FULL))]), do(OPEN), do(READ), do(CLOSE)],
        # own range fully read with history: position from history, also past what was read
        'from_history': head + [settings(1000, 60, 5, 4, 0, [2]), anchor(1, 1000, 1, [m]),
                                anchor(7, 1000, 0, [m, m, m]), do(OPEN), do(READ), do(CLOSE)],
        # for -x: the last range has partition 1, which the reader lacks; partition 0 alone
        # already makes the Rust answer "no" (its walk stops there), document 01 asks 15 first
        'x_short_circuit': head + [settings(1000, 60, 5, 4, 0, [2]),
                                   rec(0x101, struct.pack('<I', 4) + bytes(36) + struct.pack('<QB', 1000, 0)
                                       + struct.pack('<BIII', 1, 0, 0, 5) + struct.pack('<BIII', 1, 0, 0, 0)
                                       + bytes(13 * 6)),
                                   rec(0x113, bytes([5, 0, 0]))],
        # for -x: document 01's table, "one history entry at 5, pop of anchor at 9"
        'x_history_stays': head + [settings(1000, 60, 5, 4, 0, [2]),
                                   rec(0x106, struct.pack('<IQII', 1, 5, 1, 0) + bytes(32)),
                                   rec(0x107, anchor(2, 9, 1, [m])[6:]), do(POP)],
        # for -x: document 01's table, position (2,4), 3 messages, ToTheEnd: 11
        'x_endless': head + [settings(1000, 60, 5, 4, 0, [9]),
                             rec(0x101, struct.pack('<I', 5) + bytes(12) + struct.pack('<IQIQQB', 2, 4, 2, 4, 1000, 0)
                                 + struct.pack('<BIII', 1, 0, 0, 0) + bytes(13 * 7)),
                             anchor(2, 1000, 3, [m, m, m]), do(OPEN), do(READ),
                             rec(0x111, struct.pack('<IB', 5, 1)), do(CLOSE)],
        # for -x: the saved end is the one at entry; here it lies below the position, so that raising
        # "to" must not bring it about
        'x_saved_end_fixed': head + [settings(1000, 60, 5, 4, 0, [9]),
                                     rec(0x101, struct.pack('<I', 4) + bytes(12) + struct.pack('<IQIQQB', 2, 0, 2, 1, 1000, 0)
                                         + struct.pack('<BIII', 1, 0, 0, 0) + bytes(13 * 7)),
                                     anchor(2, 1000, 3, [m, m, m]), do(OPEN), do(READ), do(CLOSE)],
        'empty': [],
        'only_shard': head,
        'short_length': [struct.pack('<I', 1) + b'\x01'],
    }


def rand_shard(r):
    wc = r.choice([0] * 9 + [-1] * 4 + [5, 5, 127, -128, 256, -2**31])
    depth = r.choice([0, 0, 1, 1, 2, 3, 8, 59, 60])
    top = r.getrandbits(depth) if depth else 0
    return wc, depth, top


def unsplit(r, wc, depth, top):
    """The masterchain is one shard: a part of it mostly becomes the whole, or the same part of workchain -2. With the prefix."""
    if wc == -1 and depth:
        x = r.random()
        if x < 0.48:
            wc = -2
        elif x < 0.96:
            depth, top = 0, 0
    return wc, depth, top, ((top << 1) | 1) << (63 - depth)


def rand_accounts(r, depth, top):
    """Some inside the shard, some just outside, some anywhere."""
    res = []
    low = 64 - depth
    for i in range(r.randint(1, 4)):
        w = (top << low) | (r.getrandbits(low) if low else 0)
        if r.random() < 0.3 and low:
            w = (top << low) | r.choice([0, (1 << low) - 1, 1 << (low - 1)])
        res.append(acc(w, r.randint(0, 1)))
    if depth:
        for i in range(r.randint(0, 2)):
            w = (top << low) | r.getrandbits(low)
            res.append(acc(w ^ (1 << r.randint(low, 63)), r.randint(0, 1)))
    if r.random() < 0.3:
        res.append(bytes(r.getrandbits(8) for _ in range(32)))
    return res


def other_wc(r, wc):
    return r.choice([w for w in (0, -1, 1, 5, 127, -128) if w != wc])


def plain(r):
    shard_wc, depth, top, prefix = unsplit(r, *rand_shard(r))
    # a shard's workchain outside 8 bits: messages with its low byte are not ours
    wc = struct.unpack('<b', struct.pack('<i', shard_wc)[:1])[0]
    accounts = rand_accounts(r, depth, top)
    timeout = r.choice([0, 1, 1, 60, 60, 0xFFFFFFFF])
    next_ct = r.choice([0, 5, timeout * 1000, timeout * 1000 + 3000, timeout * 1000 + 9, timeout * 1000 + 5, timeout * 1000 + 2000, 2**64 - 1])
    seqno = r.choice([0] + [1, 5, 5, 5, 7, 2**32 - 1] * 8)
    limits = []
    for p in range(8):
        if p == 0:
            limits.append(r.choice([0, 1, 1, 2, 2, 3, 3, 5, 1024, NONE]))
        else:
            limits.append(r.choice([NONE] * 6 + [0, 1, 1, 2, 2, 3, 1024]))
    if r.random() < 0.5:
        limits = limits[:1] + [r.choice([1, 2, 3, 4])] + [NONE] * 6
    out = [shard(shard_wc, prefix),
           settings(next_ct, timeout, seqno, r.choice([0, 1, 2, 3, 4, 16]),
                    1 if r.random() < 0.04 else 0, limits)]
    routed = set()
    has = [p for p in range(8) if limits[p] != NONE]

    def add_route():
        a = r.choice(accounts)
        w = wc if r.random() < 0.85 else other_wc(r, wc)
        if (w, a) in routed:
            return
        routed.add((w, a))
        p = r.choice(has) if has and r.random() < 0.93 else r.randint(0, 7)
        out.append(route(w, a, p))

    # where partition 0 has no limit, most sessions route every account away from it
    if 0 not in has and has and r.random() < 0.8:
        for a in accounts:
            if (wc, a) not in routed:
                routed.add((wc, a))
                out.append(route(wc, a, r.choice(has)))
    else:
        for _ in range(r.randint(0, 3)):
            add_route()

    next_id = r.choice([0, 1, 1, 1, 2, 2**32 - 40])
    adds = 0
    young = r.choice([0.0, 0.5, 0.8, 0.95])
    mine = r.choice([0.5, 0.85, 0.97])

    def rand_ct():
        edge = max(0, next_ct - timeout * 1000)
        if r.random() < young:
            return min(edge + r.choice([0, 0, 1, 2, 3, 1000]), 2**64 - 1)
        c = r.choice([edge - 1, edge - 1, edge, edge, edge + 1, edge + 2, edge - 2, edge - 1000,
                      next_ct, next_ct + 1, next_ct + 1000, r.randint(0, 3000)])
        return min(max(c, 0), 2**64 - 1)

    def rand_anchor(aid, size=None):
        n = size if size is not None else r.choice([0, 1, 1, 1, 2, 2, 3, 3, 4, 5])
        msgs = [(wc if r.random() < mine else other_wc(r, wc), r.choice(accounts)) for _ in range(n)]
        ours = n if r.random() < 0.6 else r.randint(0, n)
        if n and ours == 0 and r.random() < 0.7:
            ours = 1
        return anchor(aid, rand_ct(), ours, msgs, bytes([r.getrandbits(8)]) * 32)

    if r.random() < 0.9:
        for _ in range(r.randint(1, 6)):
            out.append(rand_anchor(min(next_id, 2**32 - 1)))
            adds += 1
            next_id += r.choice([1, 1, 1, 2, 3])
    opened = False
    for _ in range(r.choice([3, 6, 10, 15, 25])):
        x = r.random()
        if not opened:
            if x < 0.40:
                for _ in range(r.randint(1, 4)):
                    if next_id >= 2**32:
                        break
                    out.append(rand_anchor(next_id))
                    adds += 1
                    next_id += r.choice([1, 1, 1, 2, 3])
            elif x < 0.80:
                out.append(do(OPEN))
                opened = True
            elif x < 0.85:
                out.append(do(POP))
            elif x < 0.90:
                # empty the cache, go back with the ids, so that an old id comes again
                out.extend([do(POP)] * min(adds, 40))
                next_id = max(0, next_id - r.randint(1, 5))
            elif x < 0.93:
                add_route()
            elif x < 0.95:
                out.append(do(r.choice([READ, REFILL, COMMIT, ROLLBACK, CLOSE])))
            elif x < 0.97 and next_id > 0:
                out.append(rand_anchor(r.randint(max(0, next_id - 3), min(next_id, 2**32 - 1))))
        else:
            if x < 0.40:
                out.append(do(READ))
            elif x < 0.44:
                out.append(do(REFILL))
            elif x < 0.60:
                out.append(do(POP))
            elif x < 0.70:
                out.append(do(COMMIT))
            elif x < 0.80:
                out.append(do(ROLLBACK))
            elif x < 0.94:
                out.append(do(CLOSE))
                opened = False
            elif x < 0.97:
                add_route()
            elif x < 0.985:
                out.append(do(OPEN))
            elif x < 0.99:
                out.append(rand_anchor(min(next_id, 2**32 - 1)))
    if opened and r.random() < 0.8:
        out.append(do(CLOSE))
    return out


def beyond(r):
    """Sessions for `oracle -x`: several ranges, saved ends, refusals 10 to 16, the offset calls."""
    wc, prefix = 0, r.choice([FULL, FULL, FULL >> 1, HALF])
    tag = (prefix & -prefix).bit_length()
    inside = [acc(((prefix >> tag) << tag) | r.getrandbits(tag - 1), i) for i in range(3)]
    accounts = inside * 3 + [acc(r.getrandbits(64), 7)]
    timeout = r.choice([0, 1, 60])
    base = timeout * 1000 + 100
    block = r.choice([3, 4, 5])
    pars = sorted(r.sample(range(8), r.choice([1, 2, 2, 3])))
    if r.random() < 0.7 and 0 not in pars:
        pars = [0] + pars
    top = r.choice([2, 4, 8, 1024])
    limits = [r.randint(0, top) if p in pars and r.random() < 0.99 else NONE for p in range(8)]
    if r.random() < 0.8:
        limits = [NONE if x == NONE else max(x, 1) for x in limits]
    out = [shard(wc, prefix), settings(base, timeout, block, r.choice([0, 1, 2, 3, 4, 16]),
                                       1 if r.random() < 0.1 else 0, limits)]
    for a in inside:
        if r.random() < 0.7:
            out.append(route(wc, a, r.choice(pars) if r.random() < 0.95 else r.randint(0, 7)))
    ids, sizes = [], {}
    loose = r.random() < 0.3    # a handed-in cache whose history need not fit its anchors

    def cts():
        return max(0, base - timeout * 1000 + r.choice([-60, -1, 0, 0, 1, 1, 2, 5, 50, 50, 50, 150, 150]))

    nxt = r.choice([1, 1, 2, 5])

    def add(n):
        nonlocal nxt
        for _ in range(n):
            k = r.choice([0, 1, 2, 2, 3, 4, 6])
            msgs = [(wc if r.random() < 0.9 else -1, r.choice(accounts)) for _ in range(k)]
            one = anchor(nxt, cts(), r.randint(1, k) if k and r.random() < 0.95 else 0, msgs)
            if loose and one[6 + 44:6 + 48] != bytes(4):
                one = rec(0x107, one[6:])
            elif loose and r.random() < 0.7:
                one = rec(0x106, struct.pack('<IQII', r.randint(0, 9), cts(), r.randint(0, 5), 0) + bytes(32))
            out.append(one)
            if loose and r.random() < 0.3:
                out.append(rec(0x106, struct.pack('<IQII', r.randint(0, 9), cts(), r.randint(0, 5), 0) + bytes(32)))
            ids.append(nxt)
            sizes[nxt] = k
            nxt += r.choice([1, 1, 2])

    def key():
        if not ids or r.random() < 0.12:
            return (r.randint(0, 8), r.randint(0, 4))
        a = r.choice(ids)
        if r.random() < 0.03:
            return (a, r.choice([2**32, 2**63, 2**64 - 1]))
        return (a, r.choice([0, sizes[a], sizes[a], sizes[a] + 1, r.randint(0, sizes[a])]))

    def k12(k):
        return struct.pack('<IQ', *k)

    def near(k):
        """A key at or a little after k."""
        x = r.random()
        if x < 0.4:
            return k
        later = [q for q in (key() for _ in range(6)) if q > k]
        return min(later) if later else (k[0], min(k[1] + r.randint(0, 2), 2**64 - 1))

    def ranges():
        for s in sorted(r.sample(range(1, 7), r.choice([0, 1, 1, 2, 2, 3, 4]))):
            if s > block and r.random() < 0.8:
                continue
            pos = (min(key(), key()) if r.random() < 0.7 else key()) if r.random() < 0.6 else (0, 0)
            x = r.random()
            to = near(pos) if x < 0.8 else (pos[0], max(0, pos[1] - r.randint(0, 2))) if x < 0.9 else key()
            frm = pos if r.random() < 0.5 else (0, 0)
            body = struct.pack('<I', s) + k12(frm) + k12(to) + k12(pos)
            body += struct.pack('<QB', max(0, base + r.choice([0, 0, 0, -50, -1, 1, 60, 1000])),
                                1 if r.random() < 0.15 else 0)
            for p in range(8):
                there = p in pars and r.random() < 0.99 or r.random() < 0.004
                skip = r.choice([0, 0, 0, 1, 2, 3])
                body += struct.pack('<BIII', there, r.choice([0, 0, 0, 1, 2]) if there else 0,
                                    skip if there else 0, (skip + r.choice([0, 0, 1])) if there else 0)
            out.append(rec(0x101, body))

    def partitions():
        for p in pars:
            if r.random() < 0.8:
                out.append(rec(0x102, struct.pack('<BB', p, 1 if r.random() < 0.97 else 0)
                               + k12(key() if r.random() < 0.4 else (0, 0))
                               + struct.pack('<I', r.choice([0, 0, 1, 2, 3, 2**32 - 1]))))

    add(r.choice([0, 2, 3, 4, 5, 6]))
    partitions()
    ranges()
    if r.random() < 0.15:
        out.append(rec(0x104, struct.pack('<I', r.randint(0, 4))))
    if r.random() < 0.1:
        out.append(rec(0x103, struct.pack('<BBQ', r.randint(0, 1), r.randint(0, 1), 77)))
    opened = False
    if r.random() < 0.8:
        out.append(do(OPEN))
        opened = True
    for _ in range(r.choice([4, 8, 14])):
        x = r.random()
        if not opened and x < 0.75:
            if x < 0.25:
                add(r.randint(1, 2))
            out.append(do(OPEN))
            opened = True
        elif x < 0.08:
            out.append(do(CLOSE))
            opened = False
        elif x < 0.30:
            out.append(do(READ))
        elif x < 0.42:
            out.append(do(READ))
        elif x < 0.50:
            out.append(do(REFILL))
        elif x < 0.62:
            out.append(rec(0x111, struct.pack('<IB', r.choice([block, r.randint(1, 6)]), r.randint(0, 1))))
        elif x < 0.67:
            out.append(do(r.choice([POP, POP, COMMIT, ROLLBACK])))
        elif x < 0.70:
            out.append(rec(0x110, struct.pack('<Q', cts())))
        elif x < 0.78:
            out.append(rec(0x112, struct.pack('<IBI', r.choice([block, block, r.randint(1, 6)]), r.choice(pars), r.choice([0, 1, 1, 2]))))
        elif x < 0.93:
            out.append(rec(0x113, bytes([r.randint(1, 22), r.choice(pars) if r.random() < 0.9 else r.randint(0, 7), r.randint(0, 1)])))
        elif x < 0.95:
            out.append(rec(0x114, struct.pack('<Q', cts())))
        elif x < 0.96:
            out.append(rec(0x115, k12(key())))
        elif x < 0.965:
            out.append(rec(0x108, struct.pack('<I', r.choice([0, 33791, 33792]))))
            if r.random() < 0.6:
                out.append(do(r.randint(1, 7)))
                out.append(rec(0x108, struct.pack('<I', 33792)))
        elif x < 0.975:
            out.append(rec(0x116, b''))
        elif x < 0.985:
            ranges()
        else:
            partitions()
    return out


def put_range(seqno, frm, to, pos, ct, fully, parts):
    """Record 0101; parts: {partition: (count, skip, processed)}."""
    body = struct.pack('<I', seqno) + b''.join(struct.pack('<IQ', *k) for k in (frm, to, pos))
    body += struct.pack('<QB', ct, fully)
    for p in range(8):
        body += struct.pack('<BIII', 1, *parts[p]) if p in parts else bytes(13)
    return rec(0x101, body)


def put_partition(p, key, current=0, present=1):
    return rec(0x102, struct.pack('<BBIQI', p, present, *key, current))


def places(n):
    return rec(0x104, struct.pack('<I', n))


def one(seqno, to_previous):
    return rec(0x111, struct.pack('<IB', seqno, to_previous))


def one_range(r):
    """Sessions for `oracle -x` of one range's read and the cache's calls alone (0005 without 3 and 4; no 0112, 0113,
    0116): handed-in ranges, reader partitions and caches, both modes, edges of every offset and of the output."""
    shard_wc, depth, top = rand_shard(r)
    shard_wc, depth, top, prefix = unsplit(r, r.choice([0, 0, 0, -1, shard_wc]), depth, top)
    wc = struct.unpack('<b', struct.pack('<i', shard_wc)[:1])[0]
    accounts = rand_accounts(r, depth, top)
    timeout = r.choice([0, 1, 60, 60, 0xFFFFFFFF])
    now = r.choice([0, 5, timeout * 1000, timeout * 1000 + 100, timeout * 1000 + 100, timeout * 1000 + 5000, 2**63, 2**64 - 1])
    pars = sorted(set([0] * (r.random() < 0.85) + r.sample(range(1, 8), r.choice([0, 1, 1, 2, 3]))) or {1})
    wide, low = r.random() < 0.3, r.random() < 0.25
    limits = [NONE] * 8
    for p in pars:
        limits[p] = r.choice([3, 5, 9, 1024]) if wide else r.choice([0, 1, 2, 3]) if low else r.choice([1, 2, 2, 3, 3, 3])
        if r.random() < 0.02:
            limits[p] = NONE
    if r.random() < 0.1:
        limits[r.randrange(8)] = r.randint(0, 3)
    out = [shard(shard_wc, prefix), settings(now, timeout, 5, r.choice([0, 4, 16]), 0, limits)]
    routed = set()
    for a in accounts * (1 + (r.random() < 0.2)):
        w = wc if r.random() < 0.9 else other_wc(r, wc)
        if r.random() < 0.6 and ((w, a) not in routed or r.random() < 0.05):
            routed.add((w, a))
            out.append(route(w, a, r.choice(pars) if r.random() < 0.94 else r.choice([0, 1, 2, 3, 4, 5, 6, 7, 7, 8])))
    if 0 not in pars and r.random() < 0.8:
        for a in accounts:
            if (wc, a) not in routed:
                routed.add((wc, a))
                out.append(route(wc, a, r.choice(pars)))
    sizes = {}
    nxt = r.choice([0, 1, 1, 1, 3, 3, 2**32 - 60])
    young = r.choice([0.3, 0.8, 0.95, 1.0])
    loose = r.random() < 0.4
    big = r.random() < 0.01

    def cts():
        edge = max(0, now - timeout * 1000)
        c = edge + r.choice([0, 0, 0, 1, 1, 2, 50]) if r.random() < young else edge + r.choice([-1000, -2, -1, -1, 0, 3, 2**40])
        return min(max(c, 0), 2**64 - 1)

    def history():
        out.append(rec(0x106, struct.pack('<IQII', r.choice([nxt % 2**32, r.randint(0, 9)]), cts(), r.choice([0, 1, 5, 2**32 - 1]),
                                          r.choice([0, 1, 2**32 - 1])) + bytes([r.getrandbits(8)]) * 32))

    def add(n):
        nonlocal nxt
        for _ in range(n):
            k = r.choice([1, 2, 2, 3, 4, 6]) if not big or sum(map(len, out)) > 70000 else r.choice([1, 100, 511, 512, 513])
            msgs = [(wc if r.random() < 0.9 else other_wc(r, wc), r.choice(accounts)) for _ in range(k)]
            ours = r.randint(1, k) if r.random() < 0.9 else r.choice([0, 0, 0, 0, 0, 0, k + 1])
            aid = nxt if r.random() < 0.99 or not sizes else max(sizes)
            payload = anchor(aid, cts(), ours, msgs, bytes([r.getrandbits(8)]) * 32)
            if loose and ours and r.random() < 0.6:
                payload = rec(0x107, payload[6:])
            out.append(payload)
            if loose and r.random() < 0.3:
                history()
            sizes[aid] = k
            nxt = min(nxt + r.choice([1, 1, 1, 2, 3]), 2**32 - 1)

    def key():
        if not sizes or r.random() < 0.1:
            return (r.randint(0, 9), r.randint(0, 4))
        a = r.choice(list(sizes))
        x = r.random()
        if x < 0.06:
            return (a, r.choice([2**32, 2**63, 2**64 - 1]))
        if x < 0.12:
            return (a, sizes[a] + r.choice([1, 1, 2, 7]))
        if x < 0.18:
            return (max(0, a - 1) if r.random() < 0.5 else min(a + 1, 2**32 - 1), r.choice([0, 1, 2**64 - 1]))
        return (a, r.choice([0, 0, sizes[a], r.randint(0, sizes[a])]))

    def near(k):
        x = r.random()
        if x < 0.35:
            return k
        later = [q for q in (key() for _ in range(6)) if q > k]
        if x < 0.8 and later:
            return min(later)
        return (k[0], min(k[1] + r.randint(0, 2), 2**64 - 1)) if x < 0.95 else key()

    seqnos = []

    def ranges():
        s = r.choice(seqnos + [r.choice([0, 4, 5, 5, 6, 2**32 - 1])])
        if s not in seqnos:
            seqnos.append(s)
        pos = (0, 0) if r.random() < 0.3 else min(key(), key(), key()) if r.random() < 0.7 else key()
        to = near(pos)
        if r.random() < 0.1:
            to = (pos[0], max(0, pos[1] - r.randint(0, 2)))
        parts = {}
        for p in range(8):
            if p in pars and r.random() < 0.97 or r.random() < 0.005:
                top = 3 if limits[p] == NONE else limits[p]
                count = r.choice([0, 0, 0, 1, max(0, top - 1), top]) if r.random() < 0.3 else 0
                if r.random() < 0.003:
                    count = r.choice([1024, 1025, 2**32 - 1])
                parts[p] = (count, r.choice([0, 0, 1, 3, 2**32 - 1]), r.choice([0, 0, 2, 2**32 - 1]))
        ct = now if r.random() < 0.8 else min(max(0, now + r.choice([-50, -1, 1, 2, 60, 1000])), 2**64 - 1)
        out.append(put_range(s, r.choice([pos, (0, 0), key()]), to, pos, ct, int(r.random() < 0.15), parts))

    def partitions():
        for p in pars + [r.randrange(8)] * (r.random() < 0.05):
            if r.random() < 0.6:
                out.append(put_partition(p, min(key(), key()) if r.random() < 0.5 else (0, 0), r.choice([0, 1, 2**32 - 1]), int(r.random() < 0.985)))

    add(r.choice([0, 2, 3, 4, 5, 6]) if not big else r.randint(2, 5))
    if r.random() < 0.7:
        partitions()
    for _ in range(r.choice([1, 1, 1, 2, 3])):
        ranges()
    if r.random() < 0.12:
        out.append(places(r.choice([0, 0, 1, 1, 2, 3, 5, 2**32 - 1])))
    if r.random() < 0.05:
        out.append(rec(0x103, struct.pack('<BBQ', r.randint(0, 1), r.randint(0, 1), r.choice([0, 77, 2**64 - 1]))))
    opened = r.random() < 0.9
    if opened:
        out.append(do(OPEN))
    for _ in range(r.choice([2, 4, 8, 14])):
        x = r.random()
        if not opened and x < 0.6:
            if x < 0.3:
                add(r.randint(1, 3))
            out.append(do(OPEN))
            opened = True
        elif x < 0.45:
            if r.random() < 0.5:
                ranges()    # its buffers are emptied so
            out.append(one(r.choice(seqnos) if r.random() < 0.97 else r.randint(0, 9), r.randint(0, 1)))
            if opened and r.random() < 0.35:
                out.append(do(ROLLBACK))
        elif x < 0.55:
            out.append(do(CLOSE))
            opened = False
        elif x < 0.63:
            out.append(do(r.choice([POP, COMMIT, COMMIT, ROLLBACK, ROLLBACK])))
        elif x < 0.67:
            out.append(rec(0x110, struct.pack('<Q', r.choice([cts(), cts(), 0, 2**64 - 1]))))
        elif x < 0.75:
            ranges()
        elif x < 0.80:
            partitions()
        elif x < 0.84:
            out.append(rec(0x114, struct.pack('<Q', r.choice([cts(), cts(), 0, 2**64 - 1]))))
        elif x < 0.88:
            out.append(rec(0x115, struct.pack('<IQ', *key())))
        elif x < 0.91:
            out.append(places(r.choice([0, 1, 2, 4, 1024])))
        elif x < 0.93:
            some = [r.choice([NONE, 0, 1, 2, 3, 1024]) if p in pars else NONE for p in range(8)]
            if r.random() < 0.1:
                some[r.randrange(8)] = r.choice([1025, 0xFFFE])
            out.append(rec(0x105, struct.pack('<8H', *some)))
        elif x < 0.95:
            out.append(rec(0x108, struct.pack('<I', r.choice([0, 33791, 33792]))))
            if r.random() < 0.7:
                out.append(r.choice([do(r.choice([1, 2, 5, 6, 7])), one(r.choice(seqnos), 0), rec(0x110, bytes(8))]))
                if r.random() < 0.8:
                    out.append(rec(0x108, struct.pack('<I', 33792)))
                    opened = r.random() < 0.5
        elif x < 0.965:
            history() if not opened or r.random() < 0.1 else out.append(do(OPEN))
        elif x < 0.975:
            add(1)
        elif x < 0.985:
            out.append(route(wc, acc(r.getrandbits(64)), r.choice(pars)))
    if r.random() < 0.03:
        out = spoiled(r, out)
    return out


def readers(r):
    """Sessions for `oracle -x` of the read of all ranges and of the reader's functions: ranges that follow one another over the
    cached messages, with or without the block's own, skip offsets about the current ones, marks, waiting settings, every small
    open-ranges limit, caches with and without history; some ranges are such that a read is refused in them."""
    wc, depth = r.choice([0, 0, -1]), r.choice([0, 0, 1])
    wc, _, _, prefix = unsplit(r, wc, depth, 0)
    tag = (prefix & -prefix).bit_length()
    inside = [acc(((prefix >> tag) << tag) | r.getrandbits(tag - 1), i) for i in range(3)]
    outside = [(other_wc(r, wc), inside[0])]
    timeout = r.choice([0, 1, 60])
    now = timeout * 1000 + 100
    block = r.choice([0, 1, 3, 4, 4, 5, 5, 5, 2**32 - 1])
    pars = sorted(r.sample(range(8), r.choice([1, 2, 2, 3])))
    if r.random() < 0.75 and 0 not in pars:
        pars = [0] + pars
    wide = r.random() < 0.4
    limits = [(r.choice([9, 20, 1024]) if wide else r.choice([1, 2, 2, 3, 3, 4, 0])) if p in pars else NONE for p in range(8)]
    if r.random() < 0.06:
        limits = [NONE] * 8 if r.random() < 0.5 else [x if r.random() < 0.7 else NONE for x in limits]
    out = [shard(wc, prefix), settings(now, timeout, block, r.choice([0, 1, 2, 2, 3, 3, 4, 5, 16]), int(r.random() < 0.15), limits)]
    mine = [p for p in range(8) if limits[p] != NONE] or pars
    for a in inside:
        if r.random() < 0.75 or 0 not in mine:
            out.append(route(wc, a, r.choice(mine) if r.random() < 0.97 else r.randint(0, 7)))
    sizes, nxt = {}, r.choice([0, 1, 1, 2, 5])
    old = r.choice([0.0, 0.0, 0.1, 0.3])
    how = r.choice(['add', 'add', 'put', 'both'])

    def ct():
        edge = now - timeout * 1000
        return max(0, edge + (r.choice([-90, -50, -1]) if r.random() < old else r.choice([0, 0, 1, 1, 2, 50])))

    def history():
        out.append(rec(0x106, struct.pack('<IQII', r.choice([nxt, r.randint(0, 9)]), ct(), r.choice([0, 1, 4, 2**32 - 1]), 0) + bytes(32)))

    def add(n):
        nonlocal nxt
        for _ in range(n):
            k = r.choice([0, 1, 1, 2, 2, 3, 4])
            msgs = [(wc, r.choice(inside)) if r.random() < 0.85 else r.choice(outside) for _ in range(k)]
            ours = r.randint(1, k) if k and r.random() < 0.95 else 0
            one = anchor(nxt, ct(), ours, msgs)
            if ours and (how == 'put' or how == 'both' and r.random() < 0.5):
                one = rec(0x107, one[6:])
            elif how == 'put':
                continue
            out.append(one)
            if ours:
                sizes[nxt] = k
            if how == 'both' and r.random() < 0.2:
                history()
            nxt = nxt + r.choice([1, 1, 2])

    def keys(n):
        """n places among the cached messages, in order."""
        line = [(a, o) for a, k in sizes.items() for o in range(k + 1)] or [(0, 0), (3, 1)]
        return sorted(r.choice(line) if r.random() < 0.93 else (r.randint(0, 9), r.choice([0, 1, 2, 7, 2**63])) for _ in range(n))

    offsets = {p: r.choice([0, 0, 0, 1, 2, 3]) for p in range(8)}
    seqnos = []

    def part(p):
        x = r.random()
        skip = offsets[p] + r.choice([0, 0, 1]) if x < 0.3 else r.choice([0, 0, 0, 1, 2, 3])
        count = r.choice([0, 0, 0, 1, 2, min(limits[p], 1024)]) if r.random() < 0.3 else 0
        return (count, min(skip, 2**32 - 1), min(r.choice([0, skip, skip, skip + 1, 3, 2**32 - 1]), 2**32 - 1))

    def put(s, frm, pos, to):
        lacks, more = r.random() < 0.12, r.random() < 0.02
        parts = {p: part(p) for p in range(8) if limits[p] != NONE and (not lacks or r.random() < 0.6) or more and r.random() < 0.2}
        when = now if r.random() < 0.8 else max(0, now + r.choice([-50, -1, 1, 60]))
        out.append(put_range(s, frm, to, pos, when, int(r.random() < (0.6 if pos == to else 0.08)), parts))

    def ranges():
        n = r.choice([0, 0, 1, 1, 2, 2, 3, 3, 4, 6])
        below = range(max(0, block - 8), block)
        some = sorted(r.sample(below, min(n, len(below))))
        if r.random() < 0.4:
            some.append(block)
        if r.random() < 0.06 and block < 2**32 - 1:
            some.append(block + 1)
        at = keys(2 * len(some) + 1)
        if r.random() < 0.2:
            at[0] = (0, 0)
        for i, s in enumerate(some):
            frm, to = at[2 * i], at[2 * i + 2]
            pos = r.choice([frm, frm, at[2 * i + 1], at[2 * i + 1], to])
            if r.random() < 0.05:
                pos, to = to, pos
            if r.random() < 0.02:
                pos = (pos[0], min(pos[1] + r.choice([1, 2, 2**32, 2**63]), 2**64 - 1))
            if s not in seqnos:
                seqnos.append(s)
            put(s, frm, pos, to)

    def partitions():
        for p in [p for p in range(8) if limits[p] != NONE] + [r.randint(0, 7)] * (r.random() < 0.06):
            if r.random() < 0.8:
                offsets[p] = r.choice([0, 0, 1, 2, 3]) if r.random() < 0.97 else 2**32 - 1
                key = keys(1)[0] if r.random() < 0.3 else (0, 0)
                out.append(put_partition(p, key, offsets[p], int(r.random() < 0.97)))

    def named():
        return r.choice(pars) if r.random() < 0.9 else r.randint(0, 7)

    def seqno():
        return r.choice(seqnos) if seqnos and r.random() < 0.9 else r.choice([block, block, r.randint(0, 6)])

    if how != 'put' and r.random() < 0.1:
        history()
    add(r.choice([0, 2, 3, 4, 5, 6, 8]))
    partitions()
    ranges()
    if r.random() < 0.15:
        out.append(places(r.choice([0, 1, 1, 2, 3, 4])))
    if r.random() < 0.12:
        out.append(rec(0x103, struct.pack('<BBQ', r.choice([0, 0, 1]), r.randint(0, 1), r.choice([0, 77, 2**64 - 1]))))
    opened = r.random() < 0.95
    if opened:
        out.append(do(OPEN))
    for _ in range(r.choice([2, 5, 8, 12])):
        x = r.random()
        if not opened and 0.05 < x < 0.7:
            if x < 0.35:
                add(r.randint(1, 3))
            out.append(do(OPEN))
            opened = True
        elif x < 0.36:
            out.append(do(READ if r.random() < 0.7 else REFILL))
        elif x < 0.41:
            out.append(one(seqno(), r.randint(0, 1)))
        elif x < 0.47:
            out.append(rec(0x112, struct.pack('<IBI', seqno(), named(), r.choice([0, 1, 1, 2, 1024, 2**32 - 1]))))
        elif x < 0.50:
            out.append(rec(0x113, bytes([r.choice([20, 20, 14]), 0, 0])))
            out.append(do(READ if r.random() < 0.7 else REFILL))
        elif x < 0.68:
            out.append(rec(0x113, bytes([r.randint(1, 22), named(), r.randint(0, 1)])))
        elif x < 0.72:
            out.append(do(ROLLBACK))
        elif x < 0.77:
            out.append(do(r.choice([POP, COMMIT, CLOSE, OPEN])))
            opened = opened and out[-1] != do(CLOSE)
        elif x < 0.80:
            out.append(rec(0x116, b''))
        elif x < 0.85:
            ranges()
        elif x < 0.90:
            partitions()
        elif x < 0.93:
            some = [x if x == NONE or r.random() < 0.8 else r.choice([NONE, 0, 1, 5]) for x in limits]
            out.append(rec(0x105, struct.pack('<8H', *some)))
        elif x < 0.95:
            out.append(rec(0x103, struct.pack('<BBQ', int(r.random() < 0.2), r.randint(0, 1), 5)))
        elif x < 0.96:
            out.append(places(r.choice([0, 1, 2, 4, 1024])))
        elif x < 0.97:
            out.append(rec(0x110, struct.pack('<Q', ct())))
        elif x < 0.975:
            out.append(rec(0x108, struct.pack('<I', 33791)))
            out.append(r.choice([do(READ), do(REFILL), one(seqno(), 0), rec(0x113, bytes([1, 0, 0]))]))
            out.append(rec(0x108, struct.pack('<I', 33792)))
        elif x < 0.985 and not opened:
            history()
    return out


def spoiled(r, recs):
    """One record is made wrong: its length, its kind, a byte; or the session is cut."""
    how, i = r.randint(0, 5), r.randrange(len(recs))
    kind, p = struct.unpack('<H', recs[i][4:6])[0], recs[i][6:]
    if how == 0:
        recs[i] = rec(kind, p + bytes(r.choice([1, 13, 33])))
    elif how == 1:
        recs[i] = rec(kind, p[:-1])
    elif how == 2:
        recs[i] = rec(r.choice([0, 1, 3, 6, 0x100, 0x109, 0x117, 0xFFFF]), p)
    elif how == 3 and kind in (0x101, 0x102, 0x103, 0x111, 0x112, 0x113):
        at = {0x101: r.choice([48, 49, 140]), 0x102: r.choice([0, 1]), 0x103: r.choice([0, 1]), 0x111: 4, 0x112: 4, 0x113: r.randint(0, 2)}[kind]
        recs[i] = rec(kind, p[:at] + bytes([r.choice([2, 8, 255])]) + p[at + 1:])
    elif how == 4:
        b = flat(recs)
        return [b[:r.randint(0, len(b))]]
    else:
        recs[0] = shard(0, r.choice([0, 1, 2, 4, 8, FULL | 1, FULL | 2, FULL | 4, FULL | 8]))
    return recs


def flat(recs):
    return b''.join(recs)


def malformed(r):
    recs = plain(r)
    how = r.randint(0, 15)
    body = 2 if len(recs) > 2 else len(recs)
    at = r.randint(body, len(recs))
    if how == 0:
        b = flat(recs)
        return b[:r.randint(0, len(b))]
    if how == 1:
        recs.insert(r.randint(0, len(recs)), rec(r.choice([0, 6, 7, 9, 0x100, 0x500, 0xFFFF]), bytes(r.randint(0, 40))))
    elif how == 2:
        recs.insert(at, recs[r.choice([0, 1])])
    elif how == 3:
        del recs[r.choice([0, 1])]
    elif how == 4:
        recs[0], recs[1] = recs[1], recs[0]
    elif how == 5:
        recs.insert(at, do(r.choice([0, 8, 255])))
    elif how == 6:
        i = r.randrange(len(recs))
        d = r.choice([-1, 1, 33, -33])
        p = recs[i][6:]
        p = p + bytes(d) if d > 0 else p[:d]
        recs[i] = rec(struct.unpack('<H', recs[i][4:6])[0], p)
    elif how == 7:
        p = bytearray(recs[1])
        p[6 + 17] = r.choice([2, 255])
        recs[1] = bytes(p)
    elif how == 8:
        wc = struct.unpack('<i', recs[0][6:10])[0]
        recs[0] = shard(wc, r.choice([0, 1, 2, 4, 8, FULL | 1, FULL | 2, FULL | 4, FULL | 8]))
    elif how == 9:
        p = bytearray(recs[1])
        if r.random() < 0.5:
            p[6 + 16] = r.choice([17, 255])
        else:
            struct.pack_into('<H', p, 6 + 18 + 2 * r.randint(0, 7), r.choice([1025, 2000, 0xFFFE]))
        recs[1] = bytes(p)
    elif how == 10:
        recs.insert(at, route(0, acc(r.getrandbits(64)), r.choice([8, 255])))
    elif how == 11:
        a = acc(r.getrandbits(64), 9)
        recs.insert(at, route(3, a, 1))
        recs.append(route(3, a, r.randint(0, 7)))
    elif how == 12:
        recs.insert(at, anchor(r.randint(0, 99), 5, r.choice([2, 3, 2**32 - 1]), [(0, A)]))
    elif how == 13:
        recs.insert(at, anchor(r.randint(0, 99), 5, 0, [(0, A)], count=r.choice([0, 2, 65535])))
    elif how == 14:
        b = bytearray(flat(recs))
        for _ in range(r.randint(1, 3)):
            b[r.randrange(len(b))] = r.getrandbits(8)
        return bytes(b)
    else:
        b = flat(recs)
        return b + bytes(r.getrandbits(8) for _ in range(r.randint(1, 9)))
    return flat(recs)


def caps(r):
    """Sessions at the caps: 512 and 513 messages, 32 and 33 anchors, 1,024 messages, 256 entries, 256 routes."""
    wc = 0
    lim = r.choice([1024, 1024, 3, 0, 600])
    out = [shard(wc, FULL), settings(5000, 60, 5, r.choice([0, 16]), 0, [lim, r.choice([NONE, 1024, 2])])]
    how = r.randint(0, 5)
    accs = [acc(i << 40, i & 1) for i in range(300)]
    if how == 0:
        n = r.choice([512, 513])
        out.append(anchor(1, 5, r.choice([0, 1, n]), [(0, r.choice(accs)) for _ in range(n)]))
    elif how == 1:
        for i in range(r.choice([31, 32, 33, 34])):
            out.append(anchor(i + 1, i, 1, [(0, A)] * r.choice([1, 1, 2])))
        if r.random() < 0.5:
            out.append(anchor(100, 40, 0, [(0, A)] * 2))
    elif how == 2:
        total, i = 0, 0
        while total < 1024 and i < 32:
            n = r.choice([512, 300, 212, 200, 512])
            i += 1
            ours = r.choice([n, 1, 1, 0]) if r.random() < 0.2 else n
            out.append(anchor(i, 1000 + i, ours, [(0, r.choice(accs)) for _ in range(n)]))
            total += n if ours else 0
    elif how == 3:
        for i in range(r.choice([254, 255, 256, 257])):
            out.append(anchor(i + 1, r.choice([i, 5]), 0, [(0, A)] * r.choice([0, 1])))
        out.append(anchor(1000, 300, 1, [(0, A)]))
    elif how == 4:
        for i in range(r.choice([255, 256, 257])):
            out.append(route(0, accs[i], i % 8))
        out.append(anchor(1, 5, 5, [(0, accs[0]), (0, accs[1]), (0, accs[8]), (0, accs[9]), (0, accs[255])]))
    else:
        for k in range(3):
            out.extend(anchor(k * 100 + i + 1, 100 * k + i, 1, [(0, A)]) for i in range(30))
            out.extend([do(OPEN)] + [do(POP)] * r.choice([29, 30, 31]) + [do(r.choice([COMMIT, ROLLBACK])), do(CLOSE)])
    out.extend([do(OPEN), do(READ), do(READ), do(r.choice([COMMIT, ROLLBACK, POP])), do(CLOSE)])
    if how == 2:
        # freed places serve again
        out.append(anchor(900, 2000, 1, [(0, A)] * 500))
        out.extend([do(OPEN), do(READ), do(COMMIT), do(CLOSE)])
    return flat(out)


def with_infos(r, recs):
    """The same records with entries to the history alone (0117) among them, and some put entries as such calls."""
    out = []
    full = r.randint(2, 8000)    # where the history is filled, in a few sessions
    for one in recs:
        if one[4:6] == b'\x06\x01' and r.random() < 0.7:
            one = rec(0x117, one[6:])
        out.append(one)
        while r.random() < 0.25 and len(out) > 2:
            size = 52 if r.random() < 0.998 else r.choice([0, 51, 53])
            aid, ct = r.choice([r.randint(0, 9), r.getrandbits(32)]), r.choice([r.randint(0, 70000), r.getrandbits(64)])
            entry = struct.pack('<IQII', aid, ct, r.choice([0, 1, 5, 2**32 - 1]), r.choice([0, 1, 9, 2**32 - 1])) + r.randbytes(32)
            out.extend([rec(0x117, (entry + b'x')[:size])] * (257 if len(out) == full else 1))
    return out


def far(r, key, sizes):
    """The key, of some anchor if its id is none's, with an offset that 16 or 32 bits would cut to one within the
    anchor, or with the greatest of so many bits."""
    aid = key[:4] if key[:4] in sizes else r.choice(list(sizes))
    offset = -1 if r.random() < 0.15 else r.randint(0, sizes[aid])
    return aid + struct.pack('<Q', r.choice([2**16, 2**16, 2**32]) + offset)


def far_range(r, one, sizes):
    """Record 0101 with such a saved end, now and then with such a position, or both."""
    to, pos = one[22:34], one[34:46]
    if r.random() < 0.75:
        to = far(r, to, sizes)
    else:
        pos = far(r, pos, sizes)
        to = r.choice([to, pos, pos, far(r, pos, sizes)])
    return one[:22] + to + pos + one[46:]


def with_far_offsets(r, recs):
    """The same records; in two of three sessions some saved ends, positions and processed positions have offsets far
    above every message count."""
    sizes, out, share = {}, [], r.choice([0, 0.3, 0.6])
    for one in recs:
        kind = one[4:6]
        if kind in (b'\x04\x00', b'\x07\x01'):
            sizes[one[6:10]] = int.from_bytes(one[54:56], 'little')
        elif kind == b'\x01\x01' and sizes and r.random() < share:
            one = far_range(r, one, sizes)
        elif kind == b'\x02\x01' and sizes and r.random() < share:
            one = one[:8] + far(r, one[8:20], sizes) + one[20:]
        out.append(one)
    return out


def session(seed, kind, far_offsets=True):
    """Far offsets are drawn last: without them, as in the replayed list, a session is as before there were any."""
    r = random.Random(seed)
    some = {'beyond': beyond, 'range': one_range, 'reader': readers}
    if kind == 'infos' or kind in some:
        recs = with_infos(r, r.choice(list(some.values()))(r)) if kind == 'infos' else some[kind](r)
        return flat(with_far_offsets(r, recs) if far_offsets else recs)
    if kind == 'mixed':
        x = r.random()
        kind = 'plain' if x < 0.75 else 'malformed' if x < 0.97 else 'caps'
    if kind == 'plain':
        return flat(plain(r))
    return malformed(r) if kind == 'malformed' else caps(r)


def main():
    p = argparse.ArgumentParser(description=__doc__, formatter_class=argparse.RawDescriptionHelpFormatter)
    p.add_argument('--seed', type=int, default=1)
    p.add_argument('--count', type=int)
    p.add_argument('--dir')
    p.add_argument('--kind', choices=['plain', 'malformed', 'caps', 'mixed', 'beyond', 'range', 'reader', 'infos'], default='mixed')
    p.add_argument('--sample', action='store_true')
    p.add_argument('--named')
    p.add_argument('--list', action='store_true')
    p.add_argument('--every', type=int)
    a = p.parse_args()
    if a.every:
        os.makedirs(a.dir, exist_ok=True)
        m = (0, A)
        head = [shard(0, FULL), settings(61000, 60, 5, 4, 0, [2]), anchor(1, 999, 1, [m]), anchor(2, 1000, 1, [m]),
                anchor(3, 2000, 2, [m, (-1, A), m]), anchor(4, 2000, 1, [m, m])]
        for i, ds in enumerate(itertools.product(range(1, 8), repeat=a.every)):
            with open(os.path.join(a.dir, '%06d.bin' % i), 'wb') as f:
                f.write(flat(head + [do(d) for d in ds]))
        return
    if a.list:
        print('\n'.join(named()))
        return
    if a.dir:
        os.makedirs(a.dir, exist_ok=True)
        for i in range(a.seed, a.seed + (a.count or 1)):
            with open(os.path.join(a.dir, '%06d.bin' % i), 'wb') as f:
                f.write(session(i, a.kind))
        return
    data = flat(sample()) if a.sample else flat(named()[a.named]) if a.named else session(a.seed, a.kind)
    sys.stdout.buffer.write(data)


if __name__ == '__main__':
    main()
