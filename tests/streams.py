#!/usr/bin/env python3
"""The programs on input that comes slowly or can't be read, and on output that goes slowly or can't be written.

    tests/streams.py [--programs DIR] [--sessions N]

The programs are those that `rt run` leaves in crates/extread, extprobe and mksession, each in its folder out; with
--programs all three are in DIR.
Slow input is a pipe that does not block: a reader that comes too early is told to come again. A few bytes are written
every 20 ms, a larger session in pieces of about its hundredth part. Slow output is a small pipe that does not block and is
emptied by 1,000 bytes every 2 ms. What is printed must be what is printed for the file.
"""
import argparse
import fcntl
import os
import random
import resource
import signal
import socket
import struct
import subprocess
import sys
import threading
import time

sys.dont_write_bytecode = True
from differ import TOP, built, gen_sessions as g  # noqa: E402

NAMES = ('extread', 'extprobe', 'mksession')
SECONDS = 20    # for a run that is to end at once


def on_file(words, data):
    return subprocess.run(words, input=data, capture_output=True, check=True)


def feed(fd, data, most, r):
    """Pieces of 1 to `most` bytes, 20 ms between them, as long as somebody reads."""
    at = 0
    try:
        while at < len(data):
            n = r.randint(1, most)
            at += os.write(fd, data[at:at + n])
            time.sleep(0.02)
    except BrokenPipeError:
        pass    # the program has stopped at a refused record
    os.close(fd)


def slowly(words, data, r):
    """What the program prints for the data from a pipe that does not block, and the processor time that it took."""
    out, into = os.pipe()
    os.set_blocking(out, False)
    before = resource.getrusage(resource.RUSAGE_CHILDREN)
    with subprocess.Popen(words, stdin=out, stdout=subprocess.PIPE, stderr=subprocess.PIPE) as p:
        os.close(out)
        feeder = threading.Thread(target=feed, args=(into, data, max(7, len(data) // 50), r))
        feeder.start()
        text, err = p.communicate()
        feeder.join()
    after = resource.getrusage(resource.RUSAGE_CHILDREN)
    return text, err, after.ru_utime + after.ru_stime - before.ru_utime - before.ru_stime


def large(anchors):
    """Anchors of 500 messages, each taken out again: 16 KB a piece."""
    some = [g.shard(0, g.FULL), g.settings(61000, 60, 5, 4, 0, [1024])]
    for i in range(1, anchors + 1):
        some += [g.anchor(i, 1000 * i, 500, [(0, g.A)] * 500), g.do(g.OPEN), g.do(g.READ), g.do(g.POP), g.do(g.COMMIT), g.do(g.CLOSE)]
    return b''.join(some)


def slow_runs(programs, count):
    """Name, words and input of each run: the stored sessions, larger ones, and the samples as text."""
    with open(os.path.join(TOP, 'crates', 'extread', 'stdin'), 'rb') as f:
        sample = f.read()
    extread, extprobe, mksession = ([programs[n]] for n in NAMES)
    yield 'sample', extread, sample
    yield 'sample', extprobe, sample
    for i in range(count):
        session = g.session(i, ('plain', 'caps')[i % 2])
        yield 'session %d' % i, extread, session
        if len(session) <= 131072:
            yield 'session %d' % i, extprobe, session
    for anchors in (7, 12, 40):
        yield '%d anchors' % anchors, extread, large(anchors)
    yield '7 anchors', extprobe, large(7)
    yield 'cut', extread, sample[:-5]
    yield 'cut', extread, large(12)[:-5]
    yield 'long record', extread, sample + (70000).to_bytes(4, 'little') + bytes(70000)
    for name in ('sample', 'gateway_count'):
        with open(os.path.join(TOP, 'samples', name + '.txt'), 'rb') as f:
            yield name + '.txt', mksession, f.read()


def try_slow(programs, count):
    r, bad = random.Random(1), 0
    for name, words, data in slow_runs(programs, count):
        want = on_file(words, data)
        text, err, took = slowly(words, data, r)
        same = (text, err) == (want.stdout, want.stderr)
        bad += not same
        print('slow     %-9s %-14s %7d bytes  %5.2f s of processor  %s' % (os.path.basename(words[0]), name, len(data), took, 'equal' if same else 'DIFFERS'))
    return bad


def try_slow_output(programs):
    words = [programs['extread']]
    want = on_file(words, many()).stdout
    out, into = os.pipe()
    fcntl.fcntl(into, fcntl.F_SETPIPE_SZ, 4096)
    os.set_blocking(into, False)
    text = b''
    with subprocess.Popen(words, stdin=subprocess.PIPE, stdout=into) as p:
        os.close(into)
        feeder = threading.Thread(target=p.communicate, args=(many(),))
        feeder.start()
        piece = os.read(out, 1000)
        while piece:
            text += piece
            time.sleep(0.002)
            piece = os.read(out, 1000)
        feeder.join()
    os.close(out)
    print('slow out extread   %d bytes  %s' % (len(text), 'equal' if text == want else 'DIFFERS'))
    return text != want


def try_reset(programs):
    """A connection that is reset behind a whole session: the reads that follow fail, and the session has not ended."""
    with open(os.path.join(TOP, 'crates', 'extread', 'stdin'), 'rb') as f:
        data = f.read()
    bad = 0
    for name in ('extread', 'extprobe'):
        words = [programs[name]]
        lines = on_file(words, data).stdout.splitlines(True)
        want = b''.join(lines[:-1]) + b'bad 8 17\n'
        with socket.create_server(('127.0.0.1', 0)) as server:
            near = socket.create_connection(server.getsockname())
            far, _ = server.accept()
        near.setsockopt(socket.SOL_SOCKET, socket.SO_LINGER, struct.pack('ii', 1, 0))
        with subprocess.Popen(words, stdin=far, stdout=subprocess.PIPE) as p:
            far.close()
            near.sendall(data)
            time.sleep(0.2)
            near.close()
            text, _ = p.communicate(timeout=SECONDS)
        bad += text != want
        print('reset    %-9s %s' % (name, 'bad 8 17' if text == want else text))
    return bad


def shell(programs, line, data=b''):
    """What a line of the shell gives; it must end soon. SIGPIPE is ignored, so that a write to a closed pipe fails."""
    ignore = lambda: signal.signal(signal.SIGPIPE, signal.SIG_IGN)    # noqa: E731
    folders = ''.join(os.path.dirname(path) + ':' for path in programs.values())
    done = subprocess.run(['sh', '-c', line], input=data, capture_output=True, timeout=SECONDS, preexec_fn=ignore, restore_signals=False,
                          env=dict(os.environ, PATH=folders + os.environ['PATH']))
    return done.stdout.decode('latin-1'), done.stderr.decode('latin-1')


def many():
    """A session whose lines take more than the text buffer: ten thousand pops."""
    with open(os.path.join(TOP, 'crates', 'extread', 'stdin'), 'rb') as f:
        return f.read() + g.do(g.POP) * 10000


# What each line prints; standard error where it has two words.
FAILED = (
    ('extread <&-', 'bad 1 17\n', ''),
    ('extread < /', 'bad 1 17\n', ''),
    ('extprobe <&-', 'bad 1 17\n', ''),
    ('extprobe < /', 'bad 1 17\n', ''),
    ('extprobe replay < /', '', 'extprobe: the list has a session that is cut short or too long\n'),
    ('mksession <&-', '', "line 1: can't be read\n"),
    ('mksession < /', '', "line 1: can't be read\n"),
    ('printf "shard 0 8000000000000000" | mksession | wc -c', '18\n', ''),
)
UNWRITTEN = ('extread > /dev/full', 'extread >&-', 'extread | true', 'extprobe > /dev/full', 'extprobe >&-', 'extprobe | true')


def try_failing(programs):
    bad = 0
    for line, text, err in FAILED:
        got = shell(programs, line)
        bad += got != (text, err)
        print('unread   %-55s %s' % (line, 'as told' if got == (text, err) else got))
    for line in UNWRITTEN:
        began = time.time()
        text, _ = shell(programs, line, many())
        bad += text != ''
        print('unwritten %-54s ended in %.2f s' % (line, time.time() - began))
    with open(os.path.join(TOP, 'crates', 'mksession', 'stdin'), 'rb') as f:
        text = f.read()
    for line in ('mksession > /dev/full', 'mksession >&-', 'mksession | true'):
        bad += shell(programs, line, text)[0] != ''
        print('unwritten %-54s ended' % line)
    return bad


def main():
    p = argparse.ArgumentParser(description=__doc__, formatter_class=argparse.RawDescriptionHelpFormatter)
    p.add_argument('--programs', metavar='DIR')
    p.add_argument('--sessions', type=int, default=6)
    a = p.parse_args()
    programs = {n: os.path.abspath(built(n, a.programs)) for n in NAMES}
    bad = try_failing(programs) + try_reset(programs) + try_slow_output(programs) + try_slow(programs, a.sessions)
    print('%d differ' % bad)
    return bad != 0


if __name__ == '__main__':
    sys.exit(main())
