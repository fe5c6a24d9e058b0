#!/usr/bin/env python3
"""The list of cache steps (README.md, "Cache steps") on a cache by document 01's words.
Shares no code with the oracle; prints what `oracle --cache-steps` prints."""


class Steps:
    def __init__(self):
        self.s, self.next_id, self.next_ct = 1, 1, 1000
        self.cached, self.history, self.pending = [], [], False
        self.opening, self.mark = None, False
        self.adds = self.refused = self.pops = 0

    def rnd(self, n):
        self.s = (self.s * 1103515245 + 12345) % 2147483648
        return self.s // 65536 % n

    def anchor(self, kind):
        """Id, chain time, ours, count, author, messages."""
        aid = self.next_id
        self.next_id += 1 + self.rnd(3)
        ct = self.next_ct
        self.next_ct += 50 * self.rnd(10)
        count = self.rnd(120 if kind == 1 else 12)
        ours = self.rnd(count + 1) if count else 0
        if kind == 2:
            ours = 0
        v = self.rnd(32)
        if v == 0:
            ours = count + 1
        elif v == 1:
            aid = max(0, aid - (1 + self.rnd(4)))
        elif v == 2:
            ct += 50 * self.rnd(60)
        author = [(aid + i) % 256 for i in range(32)]
        messages = [(aid + 7 * m + j) % 256 for m in range(count) for j in range(33)]
        return aid, ct, ours, count, author, messages

    def add(self, kind):
        k = 1 if self.opening else 1 + self.rnd(40 if kind == 2 else 20)
        for _ in range(k):
            a = aid, ct, ours, count, author, _ = self.anchor(kind)
            no = 0
            if count > 512 or ours > count:
                no = 6
            elif self.cached and aid <= self.cached[-1][0]:
                no = 7
            elif len(self.history) >= 256 or ours > 0 and (
                    len(self.cached) >= 32 or sum(c[3] for c in self.cached) + count > 1024):
                no = 8
            elif self.opening:
                no = 9
            print('add', no)
            if no:
                self.refused += 1
                continue
            self.adds += 1
            self.history.append((aid, ct, count, ours, author))
            if ours > 0:
                self.cached.append(a)
                self.pending = True

    def pop(self):
        for _ in range(1 + self.rnd(8)):
            if not self.cached:
                print('pop 0 none')
                continue
            aid, ct, _, count, _, _ = self.cached.pop(0)
            while len(self.history) > 1 and self.history[0][1] < ct:
                self.history.pop(0)
            self.pending = bool(self.cached)
            self.pops += 1
            print('pop 0', aid, ct, count)

    def trim(self):
        last = self.history[-1][1] if self.history else 0
        ct = max(0, last - 50 * self.rnd(40))
        while self.cached and self.cached[-1][1] > ct:
            self.cached.pop()
            self.pending = bool(self.cached)
        while len(self.history) > 1 and self.history[-1][1] > ct:
            self.history.pop()
        print('trim 0', *(self.history[-1][:4] if self.history else ['none']))

    def restore(self):
        cached, history, self.pending = self.opening
        self.cached, self.history = list(cached), list(history)

    def transaction(self, name):
        no = 9 if (name == 'open') == bool(self.opening) else 0
        print(name, no)
        if no:
            return
        if name == 'open':
            self.opening, self.mark = (list(self.cached), list(self.history), self.pending), False
        elif name == 'commit':
            self.mark = True
        elif name == 'rollback':
            self.restore()
        else:
            if not self.mark:
                self.restore()
            self.opening = None

    def digest(self):
        d = 0
        for x in [x for aid, ct, ours, count, author, messages in self.cached
                  for x in [aid, ct, ours, count] + author + messages] + \
                 [x for h in self.history for x in list(h[:4]) + h[4]]:
            d = (d * 31 + x % 1000003) % 4294967296
        return d

    def run(self):
        for i in range(1200):
            r = self.rnd(16)
            if r < 6:
                self.add(i // 40 % 3)
            elif r < 9:
                self.pop()
            elif r < 10:
                self.trim()
            else:
                self.transaction(['open', 'commit', 'commit', 'rollback', 'close', 'close'][r - 10])
            print('cached %d history %d pending %d digest %d'
                  % (len(self.cached), len(self.history), self.pending, self.digest()))
        print('end', self.adds, self.refused, self.pops)


if __name__ == '__main__':
    Steps().run()
