#!/usr/bin/env python3
"""Does the generator notice misreadings? Each change is made in the model's text, and the
changed model is compared with the oracle's outputs (already written by compare.sh).
A change named SAME is the same rule in other words and must not be noticed."""
import argparse
import glob
import os

CHANGES = [
    ('expiry at "at least"', "> self.timeout * 1000:", ">= self.timeout * 1000:"),
    ('expired position moved to the end', "                self.cache.pop()\n                moved()\n                continue",
     "                self.cache.pop()\n                off = len(a['msgs'])\n                moved()\n                continue"),
    ('fullness before expiry', "            last = a['ct']\n", "            if self.full(r):\n                break\n            last = a['ct']\n"),
    ('expired counts from 0', "for m in a['msgs'][off:]:\n                    if self.ours(m):\n                        self.count(self.partition(m), 1)",
     "for m in a['msgs']:\n                    if self.ours(m):\n                        self.count(self.partition(m), 1)"),
    ('negative age wraps', "max(r['ct'] - a['ct'], 0) >", "(r['ct'] - a['ct']) % 2**64 >"),
    ('age by settings, not by range', "max(r['ct'] - a['ct'], 0)", "max(self.next_ct - a['ct'], 0)"),
    ('"to" not raised', "if r['pos'] > r['to']:", "if False:"),
    ('"to" always set', "if r['pos'] > r['to']:", "if True:"),
    ('saved end not fixed at entry', "return a['id'] > end[0] or a['id'] == end[0] and off == end[1]",
     "return a['id'] > r['to'][0] or a['id'] == r['to'][0] and off == r['to'][1]"),
    ('saved end by at least', "a['id'] == end[0] and off == end[1]", "a['id'] == end[0] and off >= end[1]"),
    ('saved end by whole key', "return a['id'] > end[0] or a['id'] == end[0] and off == end[1]", "return (a['id'], off) >= end"),
    # the same by the rules: an anchor looked at is taken or ends the walk, and ids rise
    ('SAME position not fixed at entry', "off = pos[1] if a['id'] == pos[0] else 0", "off = r['pos'][1] if a['id'] == r['pos'][0] else 0"),
    ('skip pop of older anchors', "if a['id'] < pos[0]:", "if a['id'] <= pos[0]:"),
    ('older anchor sets last chain time', "            if a['id'] < pos[0]:\n", "            last = a['ct']\n            if a['id'] < pos[0]:\n"),
    ('processed at least', "if (a['id'], off) > self.parts[p][0]:", "if (a['id'], off) >= self.parts[p][0]:"),
    ('not ours are skipped over when full', "                if self.full(r) or previous and reached():\n                    break",
     "                if (self.full(r) or previous and reached()) and self.ours(m):\n                    break"),
    # the same by the caps: an anchor without messages is never cached
    ('SAME pop only when something was read', "if off == len(a['msgs']):", "if off == len(a['msgs']) and off > 0:"),
    ('full before saved end', "            if previous and reached():\n                r['full'] = 1\n                break\n            if self.full(r):\n                break",
     "            if self.full(r):\n                break\n            if previous and reached():\n                r['full'] = 1\n                break"),
    ('full only at more than limit', "self.limits[p] - x[0], 0)", "self.limits[p] + 1 - x[0], 0)"),
    ('full one message early', "self.limits[p] - x[0], 0)", "self.limits[p] - x[0] - 1, 0)"),
    ('the most free places', "return min((max(", "return max((max("),
    ('a range without buffers is full', "default=1024", "default=0"),
    ('a range without buffers by the largest limit', "default=1024", "default=max(self.limits.values(), default=1024)"),
    ('free told where no range was read', "last_seen, seen, free = None, False, None", "last_seen, seen, free = None, False, 1024"),
    ('free of the first range read', "last_seen, free = self.one_range(s, s != self.seqno)\n",
     "last_seen, got = self.one_range(s, s != self.seqno)\n                free = got if free is None else free\n"),
    ('free forgotten at a skipped range', "                    every = False\n                    continue\n                last_seen",
     "                    every, free = False, None\n                    continue\n                last_seen"),
    ('free forgotten at a fully read range', "                if r['full']:\n                    continue\n",
     "                if r['full']:\n                    free = None\n                    continue\n"),
    ('free behind the entries', "([] if after is None else ['free %d' % after]) + adds + counts",
     "adds + ([] if after is None else ['free %d' % after]) + counts"),
    ('11 also when full', "and not self.full(r) and not stop:", "and not stop:"),
    ('11 not asked of the saved end', "and not self.full(r) and not stop:", "and not self.full(r):"),
    ('a part of the masterchain taken', " or self.wc == -1 and self.prefix != 1 << 63", ""),
    ('no workchain in parts', " or self.wc == -1 and self.prefix != 1 << 63", " or self.prefix != 1 << 63"),
    ('tag bit compared too', "return wc == self.wc and self.prefix >> (tag + 1) == word >> (tag + 1)", "return wc == self.wc and self.prefix >> tag == word >> tag"),
    ('workchain not compared', "return wc == self.wc and", "return"),
    ('workchain unsigned', "wc = struct.unpack('<b', m[:1])[0]", "wc = m[0]"),
    ('route by account only', "if q[:33] == m:", "if q[1:33] == m[1:]:"),
    ('router fixed at 0', "return q[33]", "return 0"),
    ('rollback also restores ranges', "self.cache = self.opening.copy()\n        elif d == 7", "self.cache = self.opening.copy(); self.ranges = {}\n        elif d == 7"),
    ('rollback clears the mark', "self.cache = self.opening.copy()\n", "self.cache = self.opening.copy(); self.mark = False\n"),
    ('commit ends the way back', "            self.mark = True\n", "            self.mark = True; self.opening = self.cache.copy()\n"),
    ('close always restores', "if not self.mark:", "if True:"),
    ('close never restores', "if not self.mark:", "if False:"),
    ('pop keeps history', "while len(self.history) > 1 and self.history[0][1] < a['ct']", "while False"),
    ('pop takes equal history', "self.history[0][1] < a['ct']", "self.history[0][1] <= a['ct']"),
    ('pop may empty history', "while len(self.history) > 1 and self.history[0][1] <", "while self.history and self.history[0][1] <"),
    ('trim takes equal', "while self.cache and self.cache[-1]['ct'] > ct", "while self.cache and self.cache[-1]['ct'] >= ct"),
    ('trim may empty history', "while len(self.history) > 1 and self.history[-1][1] >", "while self.history and self.history[-1][1] >"),
    ('pending set by any add', "            if ours > 0:\n                c.cache.append", "            c.pending = True\n            if ours > 0:\n                c.cache.append"),
    ('ids compared with history', "if c.cache and aid <= c.cache[-1]['id']:", "if c.history and aid <= c.history[-1][0]:"),
    ('caps asked without ours', "if len(c.history) >= 256 or ours > 0 and (", "if len(c.history) >= 256 or ("),
    ('own range: position not set from history', "if r['full'] and s == self.seqno and self.cache.history:", "if False:"),
    ('own range: from cache kept at any range', "if r['full'] and s == self.seqno and self.cache.history:", "if r['full'] and self.cache.history:"),
    ('refill reads own', "if refill and s == self.seqno or all(", "if all("),
    ('refill skip counts as read', "                    every = False\n                    continue\n                last_seen", "                    continue\n                last_seen"),
    ('skip by at most', "x[1] < (r['parts'][p][1]", "x[1] <= (r['parts'][p][1]"),
    ('skip if any', "s == self.seqno or all(", "s == self.seqno or any("),
    ('own read to saved end', "self.one_range(s, s != self.seqno)", "self.one_range(s, True)"),
    ('others read to the end', "self.one_range(s, s != self.seqno)", "self.one_range(s, False)"),
    ('full but fully read ends the call', "                    every = False\n                    if free == 0:\n                        queue = None\n                        break",
     "                    every = False\n                if free == 0:\n                    every = every and r['full']\n                    break"),
    ('waiting ignored', "and not self.waiting", ""),
    ('limit ignored', "and len(self.ranges) < limit", ""),
    ('limit as it stands', "limit = self.open_limit if self.doc_limit else max(self.open_limit, 2)", "limit = self.open_limit"),
    ('new range from the saved position', "self.ranges[last]['to'] if self.ranges", "self.ranges[last]['pos'] if self.ranges"),
    ('last chain time from any range', "last_seen, free = self.one_range(s, s != self.seqno)\n", "got, free = self.one_range(s, s != self.seqno)\n                last_seen = last_seen if got is None else got\n"),
    ('all-read mark forgotten', "            self.all_read = True\n            break", "            break"),
]
# an offset of 64 bits in fewer (ticket 4 of document 02)
NARROW = [
    ('saved end cut to BITS bits', "off == end[1]", "off == end[1] % 2**BITS"),
    ('saved end and offset compared by BITS bits', "off == end[1]", "(off - end[1]) % 2**BITS == 0"),
    ('saved end held to BITS bits', "off == end[1]", "off == min(end[1], 2**BITS - 1)"),
    ('saved end at the greatest of BITS bits taken for none', "off == end[1]", "off == end[1] != 2**BITS - 1"),
    ('position cut to BITS bits', "off = pos[1] if", "off = pos[1] % 2**BITS if"),
    ('position held to BITS bits', "off = pos[1] if", "off = min(pos[1], 2**BITS - 1) if"),
    ('position at the greatest of BITS bits taken for none', "off = pos[1] if a['id'] == pos[0]",
     "off = pos[1] if a['id'] == pos[0] and pos[1] != 2**BITS - 1"),
    ('expired counted from an offset cut to BITS bits',
     "for m in a['msgs'][off:]:\n                    if self.ours(m):",
     "for m in a['msgs'][off % 2**BITS:]:\n                    if self.ours(m):"),
    ('popped by an offset cut to BITS bits', "if off == len(a['msgs']):", "if off % 2**BITS == len(a['msgs']):"),
    ('processed position cut to BITS bits', "> self.parts[p][0]:",
     "> (self.parts[p][0][0], self.parts[p][0][1] % 2**BITS):"),
    ('processed position of BITS bits with a sign', "> self.parts[p][0]:",
     "> (self.parts[p][0][0], (self.parts[p][0][1] + 2**(BITS - 1)) % 2**BITS - 2**(BITS - 1)):"),
    ('"to" raised by BITS bits', "if r['pos'] > r['to']:", "if r['pos'] > (r['to'][0], r['to'][1] % 2**BITS):"),
]
CHANGES += [tuple(x.replace('BITS', str(bits)) for x in change) for bits in (16, 32) for change in NARROW]


def cases(dirs, beyond, many):
    for d in dirs:
        for f in sorted(glob.glob(os.path.join(d, '*.bin')))[:many]:
            with open(f, 'rb') as data, open(f + '.out') as out:
                yield beyond, data.read(), out.read()


def main():
    p = argparse.ArgumentParser(description=__doc__)
    p.add_argument('--plain', nargs='+', default=[], help='directories compared without -x')
    p.add_argument('--beyond', nargs='+', default=[], help='directories compared with -x')
    p.add_argument('--many', type=int, default=3000, help='at most so many sessions of each')
    args = p.parse_args()
    here = os.path.dirname(os.path.abspath(__file__))
    with open(os.path.join(here, 'model.py')) as f:
        text = f.read()
    sessions = list(cases(args.plain, False, args.many)) + list(cases(args.beyond, True, args.many))
    wrong = 0
    for name, old, new in CHANGES:
        assert old in text, name
        space = {'__name__': 'changed'}
        exec(compile(text.replace(old, new, 1), 'changed', 'exec'), space)
        seen = [0, 0]
        for beyond, data, out in sessions:
            try:
                got = space['Model'](data, beyond, False).run()
            except Exception:
                got = None
            seen[beyond] += got != out
        bad = (sum(seen) == 0) != name.startswith('SAME')
        wrong += bad
        print('%6d plain %6d beyond  %s%s' % (seen[0], seen[1], name, '   <-- WRONG' if bad else ''))
    print('%d changes, %d not as they should be' % (len(CHANGES), wrong))


if __name__ == '__main__':
    main()
