#!/usr/bin/env python3
"""Random sessions through extread and extprobe, compared with the Rust original.

    tests/differ.py extread  [--kind plain|malformed|caps|mixed] [--seed N] [--count K]
    tests/differ.py extprobe [--kind reader|beyond|range|mixed|..] [--seed N] [--count K]
    tests/differ.py cuts     [--kind plain|..] [--seed N] [--count K]     extread on each session cut at every byte
    tests/differ.py long                                                  extread on anchors of 511 to 65,535 messages
    also: --program FILE, --oracle FILE, --valgrind (the program under valgrind, which must find nothing)

Makes K sessions (20,000 unless told; 200 for cuts) with seeds N.. by oracle/gen/gen_sessions.py, runs the oracle on each (with
-x for extprobe) and the program, and tells the first session where they part, with its records and the first lines that
differ. Also told: how often each call answered each number. extread runs once for each session, extprobe on a list of them.

The programs are crates/extread/out/extread and crates/extprobe/out/extprobe, where `rt run` in crates/extread and in
crates/extprobe leaves them. The oracle is oracle/target/release/oracle (`cargo build --release --offline`).
"""
import argparse
import collections
import os
import struct
import subprocess
import sys
import tempfile

HERE = os.path.dirname(os.path.abspath(__file__))
TOP = os.path.dirname(HERE)
sys.dont_write_bytecode = True
sys.path.insert(0, os.path.join(TOP, 'oracle', 'gen'))
import gen_sessions  # noqa: E402

# Lines that are no call's.
OTHERS = ('S', 'free', 'add', 'count', 'range', 'answer', 'at_ct', 'in_range', 'end', 'bad')
VALGRIND = 'valgrind -q --error-exitcode=9 '


def built(name, folder=None):
    """Where a program is: in the folder that is given, or where `rt run` leaves it."""
    return os.path.join(folder or os.path.join(TOP, 'crates', name, 'out'), name)


def framed(sessions, plain=False):
    """The sessions as `extprobe replay` reads them: each behind its length, and 1 where it is one of extread's."""
    return b''.join(struct.pack('<IB', len(s), plain) + s for s in sessions)


def in_files(sessions, run):
    """What `run(names)` leaves in FILE.out, for each session in a file of its own."""
    outs = []
    for i in range(0, len(sessions), 1000):
        some = sessions[i:i + 1000]
        with tempfile.TemporaryDirectory() as d:
            names = [os.path.join(d, '%04d' % k) for k in range(len(some))]
            for name, s in zip(names, some):
                with open(name, 'wb') as f:
                    f.write(s)
            run(names)
            for name in names:
                with open(name + '.out', encoding='ascii') as f:
                    outs.append(f.read())
    return outs


def by_oracle(oracle, sessions, words=('-x',)):
    """What the original prints for each session."""
    return in_files(sessions, lambda names: subprocess.run([oracle, *words, *names], check=True))


def by_extread(program, sessions, before=''):
    """What extread prints for each session; it must end with status 0."""
    loop = 'for f in "$@"; do %s%s < "$f" > "$f.out" || exit 1; done' % (before, program)
    return in_files(sessions, lambda names: subprocess.run(['bash', '-c', loop, 'extread', *names], check=True))


def by_extprobe(program, sessions, before=''):
    """What extprobe prints for each session."""
    run = subprocess.run((before + program).split() + ['replay'], input=framed(sessions), stdout=subprocess.PIPE, check=True)
    outs, now = [], None
    for line in run.stdout.decode('ascii').splitlines(True):
        if line == 'session %d\n' % len(outs):
            now = []
            outs.append(now)
        elif line != 'sessions %d\n' % len(sessions):
            now.append(line)
    return [''.join(lines) for lines in outs]


def records(session):
    """A session's records, a line each."""
    at, lines = 0, []
    while len(session) - at >= 6:
        n, kind = struct.unpack_from('<IH', session, at)
        lines.append('%3d  %04x %s' % (len(lines) + 1, kind, session[at + 6:at + 4 + n].hex()[:240]))
        at += 4 + n
    return '\n'.join(lines)


def first_difference(sessions, want, got):
    """Tells it; None if there is none."""
    for i, s in enumerate(sessions):
        have = got[i] if i < len(got) else '(nothing)\n'
        if want[i] == have:
            continue
        print('session %d differs; its records:\n%s' % (i, records(s)))
        a, b = want[i].splitlines(), have.splitlines()
        k = next((j for j in range(min(len(a), len(b))) if a[j] != b[j]), min(len(a), len(b)))
        for j in range(max(0, k - 12), k):
            print('         %s' % a[j])
        print('oracle:  %s' % (a[k] if k < len(a) else '(ends)'))
        print('program: %s' % (b[k] if k < len(b) else '(ends)'))
        return i
    return None


def free(places):
    return 'free 0' if places == '0' else 'free above 0'


def counts(outs):
    """How often each call answered each number."""
    seen = collections.Counter()
    for out in outs:
        for line in out.splitlines():
            w = line.split()
            if w[0] not in OTHERS:
                seen[w[0], int(w[1])] += 1
            elif w[0] == 'bad':
                seen['bad', int(w[2])] += 1
            elif w[0] in ('add', 'count', 'at_ct', 'in_range', 'end'):
                seen[w[0], -1] += 1
            elif w[0] == 'free':
                seen[free(w[1]), -1] += 1
            elif w[0] == 'answer':
                seen['answer with%s chain time, %s' % ('out' if w[1] == '-' else '', free(w[2])), -1] += 1
    return seen


def cut(sessions):
    """Each session, ended before each of its bytes."""
    return [s[:n] for s in sessions for n in range(len(s))]


def long_anchors():
    """Anchors around the longest that can be taken and beyond, whole and cut, in their place and out of it."""
    g = gen_sessions
    head = [g.shard(0, g.FULL), g.settings(1000, 60, 5, 4, 0, [9])]
    some = []
    for n in (511, 512, 513, 514, 1000, 1985, 1986, 4000, 65535):
        for ours in (0, 1, n, n + 1):
            whole = g.anchor(1, 1000, ours, [(0, g.A)] * n)
            some += [head + [whole], head + [whole, g.do(g.OPEN)], head + [g.do(g.OPEN), whole]]
        some += [head + [whole[:-k]] for k in (1, 2, 33, 34, 100)]
        some += [head + [whole[:k]] for k in (55, 56, 57, 60)]
        some += [head[:1] + [whole], [whole], head + [whole[:4] + b'\x05' + whole[5:]], head + [whole[:54] + b'\xff' + whole[55:]]]
    return [g.flat(recs) for recs in some]


def made(what, kind, first, last):
    """The sessions with seeds from first up to last."""
    if what == 'long':
        return long_anchors()
    some = [gen_sessions.session(i, kind) for i in range(first, last)]
    return cut(some) if what == 'cuts' else some


def main():
    p = argparse.ArgumentParser(description=__doc__, formatter_class=argparse.RawDescriptionHelpFormatter)
    p.add_argument('what', choices=('extread', 'extprobe', 'cuts', 'long'))
    p.add_argument('--seed', type=int, default=1)
    p.add_argument('--count', type=int)
    p.add_argument('--kind')
    p.add_argument('--program')
    p.add_argument('--oracle', default=os.path.join(TOP, 'oracle', 'target', 'release', 'oracle'))
    p.add_argument('--valgrind', action='store_true')
    a = p.parse_args()
    probe = a.what == 'extprobe'
    kind = a.kind or ('reader' if probe else 'plain')
    end = a.seed + (a.count or {'cuts': 200, 'long': 1}.get(a.what, 20000))
    program = a.program or built('extprobe' if probe else 'extread')
    run = by_extprobe if probe else by_extread
    total, parts, seen = 0, 0, collections.Counter()
    step = 10 if a.what == 'cuts' else 5000
    for seed in range(a.seed, end, step):
        sessions = made(a.what, kind, seed, min(seed + step, end))
        want = by_oracle(a.oracle, sessions, ['-x'] if probe else [])
        got = run(program, sessions, VALGRIND if a.valgrind else '')
        differ = sum(w != (got[i] if i < len(got) else None) for i, w in enumerate(want))
        if differ and not parts:
            first_difference(sessions, want, got)
        total, parts = total + len(sessions), parts + differ
        seen += counts(want)
    for (name, number), n in sorted(seen.items()):
        print('%9d  %s%s' % (n, name, '' if number < 0 else ' %d' % number))
    print('%d sessions, %d differ' % (total, parts))
    sys.exit(1 if parts else 0)


if __name__ == '__main__':
    main()
