//! Random sessions: several ranges over the cached messages, partitions, routes, caches that are reached by calls or put, and
//! every call on them. Most states fit together; some keys, offsets, limits and lent sizes do not, so that each number occurs.

/// splitmix64
struct Rng(u64);

impl Rng {
    fn next(&mut self) -> u64 {
        self.0 = self.0.wrapping_add(0x9E37_79B9_7F4A_7C15);
        let mut z = self.0;
        z = (z ^ z >> 30).wrapping_mul(0xBF58_476D_1CE4_E5B9);
        z = (z ^ z >> 27).wrapping_mul(0x94D0_49BB_1331_11EB);
        z ^ z >> 31
    }
    /// From 0 up to n, without n.
    fn below(&mut self, n: usize) -> usize {
        (self.next() % n as u64) as usize
    }
    /// Yes in so many of 1,000.
    fn chance(&mut self, n: usize) -> bool {
        self.below(1000) < n
    }
    fn pick<T: Copy>(&mut self, of: &[T]) -> T {
        of[self.below(of.len())]
    }
}

type Key = (u32, u64);

/// A payload, little-endian.
#[derive(Default)]
struct Payload(Vec<u8>);

impl Payload {
    fn bytes(mut self, b: &[u8]) -> Self {
        self.0.extend(b);
        self
    }
    fn u8(self, v: u8) -> Self {
        self.bytes(&[v])
    }
    fn flag(self, v: bool) -> Self {
        self.u8(v.into())
    }
    fn u16(self, v: u16) -> Self {
        self.bytes(&v.to_le_bytes())
    }
    fn u32(self, v: u32) -> Self {
        self.bytes(&v.to_le_bytes())
    }
    fn u64(self, v: u64) -> Self {
        self.bytes(&v.to_le_bytes())
    }
    fn key(self, k: Key) -> Self {
        self.u32(k.0).u64(k.1)
    }
}

fn payload() -> Payload {
    Payload::default()
}

const NO_LIMIT: u16 = 0xFFFF;
const MASTERCHAIN: i8 = -1;
// The do bytes.
const OPEN: u8 = 1;
const POP: u8 = 2;
const READ: u8 = 3;
const REFILL: u8 = 4;
const COMMIT: u8 = 5;
const ROLLBACK: u8 = 6;
const CLOSE: u8 = 7;

struct Session {
    r: Rng,
    out: Vec<u8>,
    workchain: i8,
    /// inside the shard, then some anywhere
    accounts: Vec<[u8; 32]>,
    inside: usize,
    now: u64,
    timeout: u32,
    block: u32,
    limits: [u16; 8],
    /// those with a limit
    partitions: Vec<u8>,
    routed: Vec<(i8, [u8; 32])>,
    next_id: u32,
    /// ids and message counts of the anchors so far
    sizes: Vec<(u32, u64)>,
    seqnos: Vec<u32>,
    /// how far seqnos lie below the block's; from 16 on there may be too many ranges
    span: usize,
    open: bool,
    /// of 1,000: anchors that are expired; rows that are put and not added
    old: usize,
    put: usize,
    big: bool,
}

/// The session of a seed.
pub fn session(seed: u64) -> Vec<u8> {
    let mut s = begun(Rng(seed.wrapping_mul(0xD1B5_4A32_D192_ED03)));
    for _ in 0..s.r.below(3) {
        s.route();
    }
    let n = s.r.below(7);
    s.anchors(n);
    s.reader_partitions();
    s.ranges();
    let steps = s.r.pick(&[6, 12, 25, 40, 60]);
    for _ in 0..steps {
        s.step();
    }
    if s.open && s.r.chance(700) {
        s.act(CLOSE);
    }
    s.spoiled()
}

/// Depth and the bits above the tag. The masterchain is one shard: rarely a part of it, which 2 refuses.
fn shard(r: &mut Rng, workchain: i8) -> (u32, u64) {
    let whole = workchain == MASTERCHAIN && !r.chance(90);
    let depth = if whole { 0 } else { r.pick(&[0, 0, 0, 1, 2, 8, 60]) };
    (depth, if depth == 0 { 0 } else { r.next() >> (64 - depth) })
}

/// So many inside the shard, and two anywhere.
fn accounts(r: &mut Rng, (depth, top): (u32, u64), inside: usize) -> Vec<[u8; 32]> {
    let account = |i| {
        let low = r.next();
        let word = if depth == 0 || i >= inside { low } else { top << (64 - depth) | low >> depth };
        let mut account = [0; 32];
        account[..8].copy_from_slice(&word.to_be_bytes());
        account[31] = i as u8;
        account
    };
    (0..inside + 2).map(account).collect()
}

fn limits(r: &mut Rng) -> [u16; 8] {
    let wide = r.chance(350);
    std::array::from_fn(|p| {
        if !r.chance(if p == 0 { 900 } else { 200 }) {
            return NO_LIMIT;
        }
        if wide { r.pick(&[9, 20, 1024]) } else { r.pick(&[0, 1, 1, 2, 2, 3, 3, 4, 4, 5]) }
    })
}

/// The shard and the settings.
fn begun(mut r: Rng) -> Session {
    let workchain = r.pick(&[0, 0, MASTERCHAIN, -2, 5]);
    let (depth, top) = shard(&mut r, workchain);
    let inside = 1 + r.below(3);
    let accounts = accounts(&mut r, (depth, top), inside);
    let timeout: u32 = r.pick(&[0, 1, 60, 60, 60, u32::MAX]);
    let now = u64::from(timeout) * 1000 + r.pick(&[0, 100, 100, 100, 5000]);
    let block = r.pick(&[0, 1, 3, 4, 5, 5, 5, 30, u32::MAX]);
    let limits = limits(&mut r);
    let mut s = Session {
        workchain,
        accounts,
        inside,
        now,
        timeout,
        block,
        partitions: (0..8).filter(|&p| limits[p as usize] != NO_LIMIT).collect(),
        limits,
        routed: Vec::new(),
        next_id: r.pick(&[0, 1, 1, 1, 5, u32::MAX - 60]),
        sizes: Vec::new(),
        seqnos: Vec::new(),
        span: r.pick(&[7, 7, 7, 14, 16]),
        open: false,
        old: r.pick(&[0, 0, 100, 300]),
        put: r.pick(&[0, 0, 0, 500, 1000]),
        big: r.chance(10),
        out: Vec::new(),
        r,
    };
    s.head(depth, top);
    s
}

impl Session {
    fn rec(&mut self, kind: u16, p: Payload) {
        self.out.extend((p.0.len() as u32 + 2).to_le_bytes());
        self.out.extend(kind.to_le_bytes());
        self.out.extend(p.0);
    }

    /// The first two records; rarely such that 2 or 4 is answered "no".
    fn head(&mut self, depth: u32, top: u64) {
        let tag = 1 << (63 - depth);
        let prefix = if depth == 0 { tag } else { top << (64 - depth) | tag };
        let prefix = if self.r.chance(3) { self.r.pick(&[0, 1, 4, tag | 1, tag | 8]) } else { prefix };
        self.rec(1, payload().u32(i32::from(self.workchain) as u32).u64(prefix));
        let open_limit = if self.r.chance(3) { 17 } else { self.r.pick(&[0, 1, 2, 2, 3, 3, 4, 5, 16]) };
        let waiting = self.r.chance(100);
        let settings = payload().u64(self.now).u32(self.timeout).u32(self.block).u8(open_limit).flag(waiting);
        self.rec(3, self.limits.iter().fold(settings, |p, &l| p.u16(l)));
    }

    fn act(&mut self, what: u8) {
        self.rec(5, payload().u8(what));
        match what {
            OPEN => self.open = true,
            CLOSE => self.open = false,
            _ => {}
        }
    }

    /// Nearly always one that has a limit.
    fn partition(&mut self) -> u8 {
        if self.partitions.is_empty() || self.r.chance(60) { self.r.below(8) as u8 } else { self.r.pick(&self.partitions) }
    }

    fn route(&mut self) {
        let account = self.r.pick(&self.accounts);
        let workchain = if self.r.chance(900) { self.workchain } else { 7 };
        if self.routed.contains(&(workchain, account)) && !self.r.chance(10) {
            return;
        }
        self.routed.push((workchain, account));
        let partition = if self.r.chance(3) { 8 } else { self.partition() };
        self.rec(2, payload().u8(workchain as u8).bytes(&account).u8(partition));
    }

    /// About the edge of expiry.
    fn chain_time(&mut self) -> u64 {
        let edge = self.now - u64::from(self.timeout) * 1000;
        if self.r.chance(self.old) { edge.saturating_sub(self.r.pick(&[1, 1, 50, 1000])) } else { edge + self.r.pick(&[0, 0, 0, 1, 1, 2, 50]) }
    }

    fn history(&mut self) {
        let id = if self.r.chance(500) { self.next_id } else { self.r.below(10) as u32 };
        let (ct, all, ours, author) = (self.chain_time(), self.r.pick(&[0, 1, 4, u32::MAX]), self.r.pick(&[0, 1]), self.r.below(256) as u8);
        let kind = if self.open || self.r.chance(500) { 0x117 } else { 0x106 };
        self.rec(kind, payload().u32(id).u64(ct).u32(all).u32(ours).bytes(&[author; 32]));
    }

    fn anchors(&mut self, n: usize) {
        for _ in 0..n {
            let most = if self.big { self.r.pick(&[8, 100, 512, 513]) } else { self.r.pick(&[1, 2, 3, 4, 6]) };
            let count = if self.big && self.r.chance(300) { most } else { self.r.below(most + 1) };
            let ours = if count > 0 && self.r.chance(900) { 1 + self.r.below(count) } else { self.r.below(2) * usize::from(self.r.chance(20)) };
            let id = if self.r.chance(993) { self.next_id } else { self.next_id.saturating_sub(1) };
            let (ct, author) = (self.chain_time(), self.r.below(256) as u8);
            let mut p = payload().u32(id).u64(ct).bytes(&[author; 32]).u32(ours as u32).u16(count as u16);
            for _ in 0..count {
                let account = if self.r.chance(850) { self.accounts[self.r.below(self.inside)] } else { self.r.pick(&self.accounts) };
                let workchain = if self.r.chance(900) { self.workchain } else { 7 };
                p = p.u8(workchain as u8).bytes(&account);
            }
            let put = self.r.chance(self.put) && ours > 0;
            self.rec(if put { 0x107 } else { 4 }, p);
            if ours > 0 {
                self.sizes.push((id, count as u64));
            }
            if self.put > 0 && self.r.chance(200) {
                self.history();
            }
            self.next_id = self.next_id.saturating_add(self.r.pick(&[1, 1, 1, 2, 3]));
        }
    }

    /// A place among the messages of an anchor, now and then one beyond it.
    fn key(&mut self) -> Key {
        if self.sizes.is_empty() || self.r.chance(60) {
            return (self.r.below(10) as u32, self.r.below(4) as u64);
        }
        let from = self.sizes.len().saturating_sub(5);
        let (id, size) = self.r.pick(&self.sizes[from..]);
        match self.r.below(100) {
            0 => (id, self.r.pick(&[size + 1, 1 << 32, 1 << 63, u64::MAX])),
            1 | 2 => (id.saturating_add(1), self.r.pick(&[0, 1])),
            _ => (id, self.r.below(size as usize + 1) as u64),
        }
    }

    /// In so many of 1,000 the offset becomes one that 16 or 32 bits would cut to a place in the anchor, or the greatest
    /// of so many bits.
    fn far(&mut self, n: usize, key: Key) -> Key {
        match self.sizes.iter().rfind(|a| a.0 == key.0) {
            Some(&(id, size)) if self.r.chance(n) => {
                (id, self.r.pick(&[1 << 16, 1 << 16, 1 << 32]) - 1 + self.r.below(size as usize + 2) as u64)
            }
            _ => key,
        }
    }

    fn range_partition(&mut self, p: usize, there: bool) -> Payload {
        if !there {
            return payload().flag(false).u32(0).u32(0).u32(0);
        }
        let limit = if self.limits[p] == NO_LIMIT { 1 } else { u32::from(self.limits[p]) };
        let count = if self.r.chance(100) { self.r.pick(&[0, 1, 2, limit]) } else { 0 };
        let count = if self.r.chance(2) { self.r.pick(&[1025, u32::MAX]) } else { count };
        let skip = self.r.pick(&[0, 0, 0, 0, 0, 0, 1, 1, 2, 3]);
        let processed = self.r.pick(&[0, skip, skip, skip + 1, 3, u32::MAX]);
        payload().flag(true).u32(count).u32(skip).u32(processed)
    }

    fn range(&mut self, seqno: u32, from: Key, position: Key, to: Key) {
        let ct = if self.r.chance(850) { self.now } else { self.now.saturating_add(self.r.pick(&[1, 60])).saturating_sub(self.r.pick(&[0, 2, 100])) };
        let read = self.r.chance(if position == to { 500 } else { 80 });
        let mut p = payload().u32(seqno).key(from).key(to).key(position).u64(ct).flag(read);
        let lacks = self.r.chance(100);
        for i in 0..8 {
            let there = if self.limits[i] != NO_LIMIT { !lacks || self.r.chance(600) } else { self.r.chance(4) };
            p = p.bytes(&self.range_partition(i, there).0);
        }
        if !self.seqnos.contains(&seqno) {
            self.seqnos.push(seqno);
        }
        self.rec(0x101, p);
    }

    /// Ranges that follow one another over the messages.
    fn ranges(&mut self) {
        let n = self.r.pick(&[0, 1, 1, 2, 3, 5, 8]);
        let mut seqnos: Vec<u32> = (0..n).map(|_| self.block.saturating_sub(1 + self.r.below(self.span) as u32)).collect();
        if self.r.chance(400) {
            seqnos.push(self.block);
        }
        if self.r.chance(40) {
            seqnos.push(self.block.saturating_add(1));
        }
        seqnos.sort();
        seqnos.dedup();
        let mut keys: Vec<Key> = (0..=2 * seqnos.len()).map(|_| self.key()).collect();
        keys.sort();
        if self.r.chance(300) {
            keys[0] = (0, 0);
        }
        for (i, seqno) in seqnos.into_iter().enumerate() {
            let (from, to) = (keys[2 * i], keys[2 * i + 2]);
            let position = self.r.pick(&[from, from, from, keys[2 * i + 1], keys[2 * i + 1], to]);
            let (position, to) = if self.r.chance(40) { (to, position) } else { (position, to) };
            let to = self.far(150, to);
            let position = if self.r.chance(30) { to } else { self.far(30, position) };
            self.range(seqno, from, position, to);
        }
    }

    fn reader_partitions(&mut self) {
        for p in 0..8 {
            if self.limits[p as usize] != NO_LIMIT && self.r.chance(850) || self.r.chance(10) {
                let key = if self.r.chance(150) { self.key() } else { (0, 0) };
                let key = self.far(400, key);
                let (there, offset) = (self.r.chance(975), self.r.pick(&[0, 0, 0, 1, 2, 3]));
                let offset = if self.r.chance(20) { u32::MAX } else { offset };
                self.rec(0x102, payload().u8(p).flag(there).key(key).u32(offset));
            }
        }
    }

    fn seqno(&mut self) -> u32 {
        if self.seqnos.is_empty() || self.r.chance(100) { self.block } else { self.r.pick(&self.seqnos) }
    }

    fn function(&mut self, which: u8) {
        let (p, flag) = (self.partition(), self.r.chance(500));
        self.rec(0x113, payload().u8(which).u8(p).flag(flag));
    }

    fn some_limits(&mut self) {
        let mut limits = self.limits;
        for l in limits.iter_mut().filter(|l| **l != NO_LIMIT) {
            if self.r.chance(300) {
                *l = self.r.pick(&[0, 1, 2, 3, 5, 1024]);
            }
        }
        if self.r.chance(100) {
            limits[self.r.below(8)] = self.r.pick(&[NO_LIMIT, NO_LIMIT, 1, 1025]);
        }
        self.rec(0x105, limits.iter().fold(payload(), |p, &l| p.u16(l)));
    }

    /// Less of the area, a call or two, and all of it again.
    fn short_area(&mut self) {
        let (bytes, what, open) = (self.r.pick(&[0, 33_791]), 1 + self.r.below(7) as u8, self.open);
        self.rec(0x108, payload().u32(bytes));
        match self.r.below(4) {
            0 => self.trim(),
            1 => self.one(),
            2 if self.r.chance(100) => self.anchors(1),
            _ => self.act(what),
        }
        self.open = open;
        self.rec(0x108, payload().u32(33_792));
    }

    fn trim(&mut self) {
        let ct = if self.r.chance(900) { self.chain_time() } else { self.r.pick(&[0, u64::MAX]) };
        self.rec(0x110, payload().u64(ct));
    }

    fn one(&mut self) {
        let (seqno, to_previous) = (self.seqno(), self.r.chance(500));
        self.rec(0x111, payload().u32(seqno).flag(to_previous));
    }

    fn took(&mut self) {
        let (seqno, p, n) = (self.seqno(), self.partition(), self.r.pick(&[0, 1, 1, 1, 2, 3, 1024]));
        self.rec(0x112, payload().u32(seqno).u8(p).u32(n));
    }

    fn marks(&mut self) {
        let (all, last, time) = (self.r.chance(200), self.r.chance(500), self.r.pick(&[0, 77, u64::MAX]));
        self.rec(0x103, payload().flag(all).flag(last).u64(time));
    }

    /// A cache and a reader that have something to read, then a read.
    fn again(&mut self) {
        if self.open && self.r.chance(600) {
            self.act(ROLLBACK);
        } else if self.r.chance(500) {
            if self.open {
                self.act(CLOSE);
            }
            self.begin();
        }
        if self.r.chance(400) {
            self.reader_partitions();
        }
        if self.r.chance(600) {
            self.ranges();
        }
        match self.r.below(4) {
            0 => {}
            1 => self.rec(0x116, payload()),
            _ => self.function(20),
        }
        match self.r.below(10) {
            0..=5 => self.act(READ),
            6 | 7 => self.act(REFILL),
            _ => self.one(),
        }
    }

    /// Without a transaction most steps open one, often after anchors were added.
    fn begin(&mut self) {
        if self.r.chance(700) {
            let n = 1 + self.r.below(4);
            self.anchors(n);
        }
        self.act(OPEN);
    }

    fn step(&mut self) {
        if !self.open && self.r.chance(600) {
            return self.begin();
        }
        match self.r.below(100) {
            0..=5 => self.act(READ),
            6 => self.act(REFILL),
            7..=29 => self.again(),
            30..=37 => self.one(),
            38..=43 => self.took(),
            44..=63 => {
                let which = 1 + self.r.below(22) as u8;
                self.function(which);
            }
            64..=69 => self.act(POP),
            70..=72 => self.act(COMMIT),
            73..=77 => self.act(ROLLBACK),
            78..=81 => self.act(CLOSE),
            82 | 83 => self.trim(),
            84 | 85 => {
                let ct = self.chain_time();
                self.rec(0x114, payload().u64(ct));
            }
            86 | 87 => {
                let key = self.key();
                self.rec(0x115, payload().key(key));
            }
            x => self.change(x),
        }
    }

    /// What the calls go on from, by a number from 88 to 99. With a transaction open few anchors are added or put: the session would end.
    fn change(&mut self, x: usize) {
        match x {
            88 | 89 => self.ranges(),
            90 | 91 => self.reader_partitions(),
            92 => self.some_limits(),
            93 => self.marks(),
            94 => {
                let places = self.r.pick(&[0, 1, 2, 4, 1024, 1024, 1024, u32::MAX]);
                self.rec(0x104, payload().u32(places));
            }
            95 => self.short_area(),
            96 => self.route(),
            97 => self.history(),
            98 if !self.open || self.r.chance(30) => self.anchors(1),
            99 if !self.open || self.r.chance(200) => self.act(OPEN),
            _ => self.act(READ),
        }
    }

    /// Now and then the bytes are cut, or one is changed.
    fn spoiled(mut self) -> Vec<u8> {
        let n = self.out.len();
        match self.r.below(100) {
            0 => self.out.truncate(self.r.below(n)),
            1 => {
                let at = self.r.below(n);
                self.out[at] = self.r.below(256) as u8;
            }
            _ => {}
        }
        self.out
    }
}
