#!/usr/bin/env python3
"""The samples in samples/, read a second time: the text form of crates/mksession/README.md.

    tests/samples.py [--oracle FILE]          writes samples/*.out, and stdin and stdout of crates/mksession
    tests/samples.py --programs [DIR]         runs each sample through mksession and extread or extprobe, of DIR or of crates/NAME/out
    tests/samples.py --mksession [FILE] [--count K]
                                              runs mksession on wrong lines, and on K random sessions written as text, whole and spoilt
    tests/samples.py --text FILE              a session's records as text

The reading here shares no code with mksession: its bytes are made by the functions of gen_sessions.py. samples/*.out is
what the Rust original prints: `oracle -x` where a sample's comment says `| extprobe`, else `oracle`. stdin is the samples'
texts one after the other, then tests/every_word.txt, which has every word and ends with a wrong line.
"""
import argparse
import glob
import os
import re
import struct
import subprocess
import sys

sys.dont_write_bytecode = True
from differ import TOP, built, by_oracle, gen_sessions as g  # noqa: E402
import fixed_list as x  # noqa: E402

DOS = ['open', 'pop', 'read', 'refill', 'commit', 'rollback', 'close']
MOST = 131072


class Wrong(Exception):
    pass


def number(text, bits):
    """A decimal number of so many bits; a sign where they are negative."""
    sign = '-?' if bits < 0 else ''
    if not re.fullmatch(sign + '[0-9]+', text):
        raise Wrong(text)
    n = int(text)
    if not (0 <= n < 2**bits if bits > 0 else -2**(-bits - 1) <= n < 2**(-bits - 1)):
        raise Wrong(text)
    return n


def raw(text, most=None):
    """Bytes, two digits each; filled up with zeros to so many."""
    if not re.fullmatch('([0-9a-fA-F]{2})*', text):
        raise Wrong(text)
    data = bytes.fromhex(text)
    if most is None:
        return data
    if len(data) > most:
        raise Wrong(text)
    return data + bytes(most - len(data))


def address(text):
    workchain, colon, account = text.partition(':')
    if not colon:
        raise Wrong(text)
    return number(workchain, -8), raw(account, 32)


def limit(text):
    return g.NONE if text in ('-', '') else number(text, 16)


class Words:
    """The words of a line, taken from the front."""

    def __init__(self, words):
        self.words = words

    def take(self):
        if not self.words:
            raise Wrong('nothing left')
        return self.words.pop(0)

    def has(self, name):
        return bool(self.words) and self.words[0].startswith(name + ':')

    def value(self, name):
        if not self.has(name):
            raise Wrong(name)
        return self.take()[len(name) + 1:]

    def bare(self, bits):
        return number(self.take(), bits)

    def named(self, name, bits):
        return number(self.value(name), bits)

    def maybe(self, name, bits):
        return self.named(name, bits) if self.has(name) else 0

    def key(self, name):
        return self.named(name, 32), self.bare(64)

    def author(self):
        return raw(self.value('by'), 32) if self.has('by') else bytes(32)

    def rest(self):
        some, self.words = self.words, []
        return some

    def limits(self, first=()):
        some = [limit(t) for t in list(first) + self.words[:8 - len(first)]]
        self.words = self.words[8 - len(first):]
        return some

    def messages(self):
        some = []
        for t in self.rest():
            times, star, one = t.partition('*')
            if star and number(times, 16) == 0:
                raise Wrong(t)
            some += [address(one)] * number(times, 16) if star else [address(t)]
        return some

    def counts(self):
        """Of a range's partitions."""
        some = {}
        for p in range(8):
            if self.has('p%d' % p):
                first = self.value('p%d' % p)
                some[p] = tuple(number(t, 32) for t in ([first] if first else []) + [self.take() for _ in range(2 if first else 3)])
        return some


def anchor(w):
    aid, ct, by, ours = w.named('id', 32), w.named('time_ms', 64), w.author(), w.named('ours', 32)
    return g.anchor(aid, ct, ours, w.messages(), by)


def put_history(w):
    head = struct.pack('<IQII', w.named('id', 32), w.named('time_ms', 64), w.named('all', 32), w.named('ours', 32))
    return g.rec(0x106, head + w.author())


def settings(w):
    some = [w.named(n, b) for n, b in (('next_ms', 64), ('timeout_s', 32), ('seqno', 32), ('open_limit', 8), ('waiting', 8))]
    return g.settings(*some, w.limits([w.value('limits')]))


def put_range(w):
    some = [w.named('seqno', 32)] + [w.key(n) for n in ('from', 'to', 'position')]
    return g.put_range(*some, w.named('time_ms', 64), w.named('fully_read', 8), w.counts())


def put_partition(w):
    p, present, key = w.bare(8), w.named('present', 8), w.key('processed')
    return g.put_partition(p, key, w.named('offset', 32), present)


def marks(w):
    return x.marks(w.named('all_read', 8), number(w.value('last_ms') or w.take(), 64) if w.has('last_ms') else None)


def prefix(text):
    if not re.fullmatch('0*[0-9a-fA-F]{1,16}', text):
        raise Wrong(text)
    return int(text, 16)


RECORDS = {
    'shard': lambda w: g.shard(w.bare(-32), prefix(w.take())),
    'settings': settings,
    'route': lambda w: g.route(*address(w.take()), w.named('partition', 8)),
    'anchor': anchor,
    'do': lambda w: g.do(w.bare(8)),
    'range': put_range,
    'partition': put_partition,
    'marks': marks,
    'places': lambda w: g.places(w.bare(32)),
    'limits': lambda w: x.limits(*w.limits()),
    'history': put_history,
    'cached': lambda w: g.rec(0x107, anchor(w)[6:]),
    'area': lambda w: x.area(w.bare(32)),
    'trim': lambda w: x.trim(w.named('time_ms', 64)),
    'one': lambda w: g.one(w.named('seqno', 32), w.named('mode', 8)),
    'took': lambda w: x.took(w.named('seqno', 32), w.named('partition', 8), w.named('messages', 32)),
    'function': lambda w: x.function(w.bare(8), w.maybe('partition', 8), w.maybe('flag', 8)),
    'info_at': lambda w: x.info_at(w.named('time_ms', 64)),
    'in_range': lambda w: x.in_range(w.bare(32), w.bare(64)),
    'new': lambda w: x.NEW,
    'info': lambda w: g.rec(0x117, put_history(w)[6:]),
    'hex': lambda w: b''.join(raw(t) for t in w.rest()),
    **{name: lambda w, n=n: g.do(n) for n, name in enumerate(DOS, 1)},
}


def record(words):
    if words[0] not in RECORDS:
        raise Wrong(words[0])
    w = Words(words[1:])
    data = RECORDS[words[0]](w)
    if w.words:
        raise Wrong(w.words[0])
    return data


def made(text):
    """What mksession writes for the text, and the number of the wrong line, or 0."""
    data = b''
    for n, line in enumerate(text.split(b'\n'), 1):
        words = [t.decode('latin-1') for t in re.split(rb'[ ,\t\r]+', line.split(b'#')[0]) if t]
        try:
            one = record(words) if words else b''
        except Wrong:
            return data, n
        if len(line) > 65536 or len(one) > MOST:
            return data, n
        data += one
    return data, 0


def keyed(name, key):
    return '%s:%d,%d' % (name, *key)


def line_of(kind, p):
    """A record as text; None where the words have no form for it."""
    n = lambda form, at=0: struct.unpack_from('<' + form, p, at)
    some = lambda values: ','.join('-' if v == g.NONE else str(v) for v in values)
    at = lambda i: '%d:%s' % (n('b', i)[0], p[i + 1:i + 33].hex())
    if kind == 1 and len(p) == 12:
        return 'shard %d %016x' % n('iQ')
    if kind == 2 and len(p) == 34:
        return 'route %s partition:%d' % (at(0), p[33])
    if kind == 3 and len(p) == 34:
        return 'settings next_ms:%d timeout_s:%d seqno:%d open_limit:%d waiting:%d limits:' % n('QIIBB') + some(n('8H', 18))
    if kind in (4, 0x107) and len(p) >= 50 and len(p) == 50 + 33 * n('H', 48)[0]:
        head = '%s id:%d time_ms:%d by:%s ours:%d' % ('anchor' if kind == 4 else 'cached', *n('IQ'), p[12:44].hex(), *n('I', 44))
        return ' '.join([head] + [at(i) for i in range(50, len(p), 33)])
    if kind == 5 and len(p) == 1:
        return DOS[p[0] - 1] if 1 <= p[0] <= 7 else 'do %d' % p[0]
    if kind == 0x101 and len(p) == 153 and all(p[i] == 1 or p[i:i + 13] == bytes(13) for i in range(49, 153, 13)):
        keys = [keyed(name, n('IQ', i)) for name, i in (('from', 4), ('to', 16), ('position', 28))]
        parts = ['p%d:%d,%d,%d' % (i, *n('III', 50 + 13 * i)) for i in range(8) if p[49 + 13 * i]]
        return ' '.join(['range seqno:%d' % n('I')] + keys + ['time_ms:%d fully_read:%d' % n('QB', 40)] + parts)
    if kind == 0x103 and len(p) == 10 and (p[1] == 1 or p[1:] == bytes(9)):
        return 'marks all_read:%d' % p[0] + (' last_ms:%d' % n('Q', 2) if p[1] else '')
    if kind in (0x106, 0x117) and len(p) == 52:
        return ('history' if kind == 0x106 else 'info') + ' id:%d time_ms:%d all:%d ours:%d by:' % n('IQII') + p[20:].hex()
    plain = {
        0x102: ('partition %d present:%d processed:%d,%d offset:%d', 'BBIQI'), 0x104: ('places %d', 'I'), 0x108: ('area %d', 'I'),
        0x110: ('trim time_ms:%d', 'Q'), 0x111: ('one seqno:%d mode:%d', 'IB'), 0x112: ('took seqno:%d partition:%d messages:%d', 'IBI'),
        0x113: ('function %d partition:%d flag:%d', 'BBB'), 0x114: ('info_at time_ms:%d', 'Q'), 0x115: ('in_range %d,%d', 'IQ'), 0x116: ('new', ''),
    }
    if kind == 0x105 and len(p) == 16:
        return 'limits ' + some(n('8H'))
    if kind in plain and len(p) == struct.calcsize('<' + plain[kind][1]):
        return plain[kind][0] % n(plain[kind][1])
    return None


def text_of(session):
    """A session's records as text."""
    at, lines = 0, []
    while len(session) - at >= 6:
        n, kind = struct.unpack_from('<IH', session, at)
        if n < 2 or len(session) - at < 4 + n:
            break
        lines.append(line_of(kind, session[at + 6:at + 4 + n]) or 'hex ' + session[at:at + 4 + n].hex())
        at += 4 + n
    if at < len(session):
        lines.append('hex ' + session[at:].hex())
    return ''.join(line + '\n' for line in lines)


HEAD = 'shard 0 8000000000000000\nopen\n'
WRONG = '''shard 0
shard 2147483648 8000000000000000
shard -2147483649 8000000000000000
shard 0 10000000000000000
shard 0 8g
shard 0 8000000000000000 5
settings next_ms:61000 60 seqno:5 open_limit:4 waiting:0 limits:2
settings next_ms:61000 timeout:60 seqno:5 open_limit:4 waiting:0 limits:2
settings next_ms:61000 timeout_ms:60000 seqno:5 open_limit:4 waiting:0 limits:2
settings next_ms:61000 timeout_s:4294967296 seqno:5 open_limit:4 waiting:0 limits:2
settings 61000 timeout_s:60 seqno:5 open_limit:4 waiting:0 limits:2
settings next_ms:18446744073709551616 timeout_s:60 seqno:5 open_limit:4 waiting:0 limits:2
settings next_ms:61000 timeout_s:60 seqno:5 open_limit:256 waiting:0 limits:2
settings next_ms:61000 timeout_s:60 seqno:5 open_limit:4 waiting:0
settings next_ms:61000 timeout_s:60 seqno:5 open_limit:4 waiting:0 limits:65536
settings next_ms:61000 timeout_s:60 seqno:5 open_limit:4 waiting:0 limits:1,2,3,4,5,6,7,8,9
settings timeout_s:60 next_ms:61000 seqno:5 open_limit:4 waiting:0 limits:2
route 0:00
route 000 partition:1
route 128:00 partition:1
route -129:00 partition:1
route 0:000 partition:1
route 2*0:00 partition:1
route 0:00000000000000000000000000000000000000000000000000000000000000000 partition:1
route 0:0000000000000000000000000000000000000000000000000000000000000000ff partition:1
anchor id:1 ours:1 0:00
anchor id:1 time_ms:1000 ours:1 by:00 0:00
anchor id:1 time_ms:1000 ours:1 0:0x
anchor id:1 time_ms:1000 ours:1 x*0:00
anchor id:1 time_ms:1000 ours:1 65536*0:00
anchor id:1 time_ms:1000 ours:1 0*0:00
anchor id:1 time_ms:1000 ours:1 4000*0:00
anchor id:-1 time_ms:1000 ours:1 0:00
do
do 256
open 1
opens
Open
range seqno:5 from:1 to:1,2 position:1,0 time_ms:1000 fully_read:0
range seqno:5 from:1,0 to:1,2 position:1,0 time_ms:1000 fully_read:0 p0:1,2
range seqno:5 from:1,0 to:1,2 position:1,0 time_ms:1000 fully_read:0 p1:1,2,3 p0:1,2,3
partition 0 present:1 processed:1 offset:0
took seqno:5 partition:0
function
hex 0
hex 0g
session
18446744073709551615
-
:'''.split('\n')


def run(program, text):
    done = subprocess.run([program], input=text, capture_output=True, check=True)
    return done.stdout, done.stderr.decode('latin-1')


FULL = 'hex ' + '00' * 32766 + '\n'    # the longest line
LONG = [FULL, ' ' + FULL, HEAD + '#' + FULL, 'anchor id:1 time_ms:1 ours:1 3970*0:00', 'anchor id:1 time_ms:1 ours:1 3971*0:00', FULL * 5]
SIGNS = b' ,:*-#\n\t\r0123456789abcfpxs_'


def compare(program, text):
    """Bytes, and the number of the wrong line; answers what the program said."""
    out, err = run(program, text)
    data, n = made(text)
    assert out == data, text
    assert err.startswith('line %d: ' % n) and err.count('\n') == 1 if n else err == '', (text, err)
    return err.rstrip('\n')


def try_wrong(program):
    """Each wrong line after a good head: what came before is written, the line's number is told, nothing follows."""
    for line in WRONG:
        err = compare(program, (HEAD + line + '\nclose\n').encode())
        assert err.startswith('line 3: '), line
        print('%s\n    %s' % (line, err))
    wrong = [compare(program, text.encode()) != '' for text in LONG]
    assert wrong == [False, True, True, False, True, False], wrong


def spoilt(r, text):
    """A few bytes changed, taken out or put in."""
    text = bytearray(text)
    for _ in range(r.choice([1, 1, 1, 2, 5])):
        i = r.randrange(len(text))
        text[i:i + r.randint(0, 1)] = bytes(r.choices(SIGNS, k=r.randint(0, 1)))
    return bytes(text)


def try_random(program, count):
    """Random sessions as text: their own bytes come out. Then with a few bytes spoilt."""
    kinds = ('plain', 'malformed', 'beyond', 'range', 'reader', 'caps')
    r, wrong = g.random.Random(1), 0
    for i in range(count):
        session = g.session(i, kinds[i % 5 if i % 20 else 5])
        text = text_of(session).encode()
        assert compare(program, text) == '' and made(text) == (session, 0), i
        wrong += compare(program, spoilt(r, text)) != ''
    print('%d random sessions; of the spoilt ones %d are wrong' % (count, wrong))


def samples():
    """Each sample's path without its end, its text, and the program that its comment names."""
    for path in sorted(glob.glob(os.path.join(TOP, 'samples', '*.txt'))):
        with open(path, 'rb') as f:
            text = f.read()
        yield path[:-4], text, re.search(r'^# Run: .* \| (extread|extprobe)\b', text.decode(), re.M)[1]


def write_all(oracle):
    texts = []
    for path, text, program in samples():
        data, wrong = made(text)
        assert not wrong, (path, wrong)
        with open(path + '.out', 'w', encoding='ascii') as f:
            f.write(by_oracle(oracle, [data], ['-x'] if program == 'extprobe' else [])[0])
        texts.append(text)
    with open(os.path.join(TOP, 'tests', 'every_word.txt'), 'rb') as f:
        text = b''.join(texts) + f.read()
    for name, data in (('stdin', text), ('stdout', made(text)[0])):
        with open(os.path.join(TOP, 'crates', 'mksession', name), 'wb') as f:
            f.write(data)
    print('%d samples, %d bytes expected' % (len(texts), len(made(text)[0])))


def try_samples(where):
    """Each sample through the programs: what they print is in NAME.out."""
    differ = 0
    for path, text, program in samples():
        data, err = run(built('mksession', where), text)
        out, _ = run(built(program, where), data)
        with open(path + '.out', 'rb') as f:
            same = err == '' and out == f.read()
        differ += not same
        print('%-20s %-9s%s' % (os.path.basename(path), program, 'equal' if same else 'DIFFERS'))
    return differ


def main():
    p = argparse.ArgumentParser(description=__doc__, formatter_class=argparse.RawDescriptionHelpFormatter)
    p.add_argument('--oracle', default=os.path.join(TOP, 'oracle', 'target', 'release', 'oracle'))
    p.add_argument('--programs', nargs='?', const='', metavar='DIR')
    p.add_argument('--mksession', nargs='?', const='', metavar='FILE')
    p.add_argument('--count', type=int, default=600)
    p.add_argument('--text')
    a = p.parse_args()
    if a.text:
        with open(a.text, 'rb') as f:
            sys.stdout.write(text_of(f.read()))
    elif a.programs is not None:
        return try_samples(a.programs)
    elif a.mksession is not None:
        program = a.mksession or built('mksession')
        try_wrong(program)
        try_random(program, a.count)
    else:
        write_all(a.oracle)
    return 0


if __name__ == '__main__':
    sys.exit(main())
