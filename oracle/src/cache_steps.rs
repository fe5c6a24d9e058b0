//! A fixed list of pseudo-random steps on the original cache and its transaction, told in
//! lines for comparing with a port that runs the same list. README.md, "Cache steps", tells
//! the steps exactly.

use std::collections::BTreeMap;
use std::fmt::Write as _;

use crate::beyond::info_fields;
use crate::collator::anchors_cache::hook::{self, View};
use crate::collator::anchors_cache::{AnchorsCache, AnchorsCacheTransaction};
use crate::questions::{self, Number, ask_add, mempool_anchor};
use crate::records::{Anchor, Message};

const STEPS: u64 = 1200;
/// Steps of one kind in a row. The kinds take turns: 0 small anchors, 1 large ones, 2 none ours.
const IN_A_ROW: u64 = 40;
const LARGE: u64 = 1;
const NONE_OURS: u64 = 2;

enum Step {
    Add,
    Pop,
    Trim,
    Open,
    Commit,
    Rollback,
    Close,
}

#[derive(Default)]
struct Steps {
    /// of the generator
    s: u64,
    /// steps begun
    step: u64,
    next_id: u32,
    next_ct: u64,
    adds: u64,
    refused: u64,
    pops: u64,
    out: String,
    /// how often what the list is to show has come about; told on standard error
    seen: BTreeMap<&'static str, u64>,
}

impl Steps {
    /// A number below `n`.
    fn rnd(&mut self, n: u64) -> u64 {
        self.s = (self.s * 1103515245 + 12345) % 2147483648;
        (self.s / 65536) % n
    }

    /// What the next step does, if there is one.
    fn next(&mut self) -> Option<Step> {
        if self.step == STEPS {
            return None;
        }
        self.step += 1;
        Some(match self.rnd(16) {
            0..=5 => Step::Add,
            6..=8 => Step::Pop,
            9 => Step::Trim,
            10 => Step::Open,
            11 | 12 => Step::Commit,
            13 => Step::Rollback,
            _ => Step::Close,
        })
    }

    fn kind(&self) -> u64 {
        (self.step - 1) / IN_A_ROW % 3
    }

    fn line(&mut self, line: std::fmt::Arguments<'_>) {
        self.out.write_fmt(line).unwrap();
        self.out.push('\n');
    }

    fn saw(&mut self, what: &'static str) {
        *self.seen.entry(what).or_default() += 1;
    }

    /// The next anchor of the list.
    fn anchor(&mut self) -> Anchor {
        let mut id = self.next_id;
        self.next_id += 1 + self.rnd(3) as u32;
        let mut chain_time = self.next_ct;
        self.next_ct += 50 * self.rnd(10);
        let count = self.rnd(if self.kind() == LARGE { 120 } else { 12 });
        let mut ours = if count == 0 { 0 } else { self.rnd(count + 1) };
        if self.kind() == NONE_OURS {
            ours = 0;
        }
        match self.rnd(32) {
            0 => ours = count + 1,
            1 => id = id.saturating_sub(1 + self.rnd(4) as u32),
            2 => chain_time += 50 * self.rnd(60),
            _ => {}
        }
        let byte = |n: u64| ((u64::from(id) + n) % 256) as u8;
        let message = |m: u64| -> Message {
            (byte(7 * m) as i8, std::array::from_fn(|j| byte(7 * m + 1 + j as u64)))
        };
        Anchor {
            id,
            chain_time,
            author: std::array::from_fn(|i| byte(i as u64)),
            ours: ours as u32,
            messages: (0..count).map(message).collect(),
        }
    }

    /// A burst of adds; a single one where a transaction is open, which refuses it.
    fn add(&mut self, mut view: View<'_, '_>) {
        let open = matches!(view, View::Open(_));
        let burst = if self.kind() == NONE_OURS { 40 } else { 20 };
        let k = if open { 1 } else { 1 + self.rnd(burst) };
        for _ in 0..k {
            let a = self.anchor();
            let no = ask_add(view.cache(), open, a.id, a.ours, a.messages.len());
            self.saw(reason(view.cache(), &a, no));
            self.line(format_args!("add {no}"));
            match &mut view {
                View::Closed(cache) if no == 0 => {
                    self.adds += 1;
                    cache.add(mempool_anchor(self.adds, &a), a.ours as usize);
                }
                _ => self.refused += 1,
            }
        }
    }

    fn pop(&mut self, mut view: View<'_, '_>) {
        for _ in 0..1 + self.rnd(8) {
            match view.pop_front() {
                None => self.line(format_args!("pop 0 none")),
                Some((id, a)) => {
                    self.pops += 1;
                    self.line(format_args!("pop 0 {id} {} {}", a.chain_time, a.externals.len()));
                }
            }
        }
    }

    fn trim(&mut self, mut view: View<'_, '_>) {
        let last = view.cache().last_imported_anchor_info().map_or(0, |i| i.ct);
        let ct = last.saturating_sub(50 * self.rnd(40));
        let (cached, history) = lengths(view.cache());
        view.remove_last_imported_above(ct);
        let info = view.cache().last_imported_anchor_info();
        self.line(format_args!("trim 0 {}", info_fields(info)));

        let (cached_now, history_now) = lengths(view.cache());
        if cached_now < cached {
            self.saw("trim of cached anchors");
        }
        if history_now < history {
            self.saw("trim of history");
        }
    }

    /// `cached L history H pending P digest D`
    fn state(&mut self, cache: &AnchorsCache) {
        let (cached, history) = lengths(cache);
        let pending = u8::from(cache.has_pending_externals());
        let d = digest(cache);
        self.line(format_args!("cached {cached} history {history} pending {pending} digest {d}"));
    }

    /// A step other than an open that opens or a close that closes.
    fn one(&mut self, step: Step, view: View<'_, '_>) {
        match (step, view) {
            (Step::Add, view) => self.add(view),
            (Step::Pop, view) => self.pop(view),
            (Step::Trim, view) => self.trim(view),
            (Step::Open, _) => self.line(format_args!("open 9")),
            (Step::Close, _) => self.line(format_args!("close 9")),
            (Step::Commit, View::Closed(_)) => self.line(format_args!("commit 9")),
            (Step::Rollback, View::Closed(_)) => self.line(format_args!("rollback 9")),
            (Step::Commit, View::Open(tx)) => {
                tx.commit();
                self.line(format_args!("commit 0"));
            }
            (Step::Rollback, View::Open(tx)) => {
                let before = digest(hook::cache_of(tx));
                tx.rollback();
                self.line(format_args!("rollback 0"));
                if digest(hook::cache_of(tx)) != before {
                    self.saw("rollback that restores");
                }
            }
        }
    }

    /// Steps while no transaction is open; true at an open.
    fn closed(&mut self, cache: &mut AnchorsCache) -> bool {
        while let Some(step) = self.next() {
            if matches!(step, Step::Open) {
                self.line(format_args!("open 0"));
                return true;
            }
            self.one(step, View::Closed(cache));
            self.state(cache);
        }
        false
    }

    /// Steps while a transaction is open; true at a close, which the caller makes.
    fn open(&mut self, tx: &mut AnchorsCacheTransaction<'_>) -> bool {
        self.state(hook::cache_of(tx));
        while let Some(step) = self.next() {
            if matches!(step, Step::Close) {
                self.line(format_args!("close 0"));
                return true;
            }
            self.one(step, View::Open(tx));
            self.state(hook::cache_of(tx));
        }
        false
    }

    fn all(&mut self) {
        let mut cache = AnchorsCache::default();
        while self.closed(&mut cache) {
            let opening = digest(&cache);
            let mut tx = AnchorsCacheTransaction::new(&mut cache);
            let closes = self.open(&mut tx);
            let present = digest(hook::cache_of(&tx));
            let committed = hook::committed(&tx);
            drop(tx);
            if !closes {
                break;
            }
            self.saw(match (committed, present != opening) {
                (true, true) => "close after a commit, present cache differs",
                (true, false) => "close after a commit, present cache the same",
                (false, true) => "close without a commit, present cache differs",
                (false, false) => "close without a commit, present cache the same",
            });
            self.state(&cache);
        }
        let (adds, refused, pops) = (self.adds, self.refused, self.pops);
        self.line(format_args!("end {adds} {refused} {pops}"));
    }
}

/// What an added anchor met.
fn reason(cache: &AnchorsCache, a: &Anchor, no: Number) -> &'static str {
    match no {
        0 if a.ours > 0 => "add 0, cached",
        0 => "add 0, history only",
        6 => "add 6",
        7 => "add 7",
        8 if hook::history(cache).len() >= questions::MAX_HISTORY => "add 8, history full",
        8 if hook::cached_len(cache) >= questions::MAX_CACHED => "add 8, cached anchors full",
        8 => "add 8, cached messages full",
        _ => "add 9",
    }
}

fn lengths(cache: &AnchorsCache) -> (usize, usize) {
    (hook::cached_len(cache), hook::history(cache).len())
}

fn fold(d: u64, x: u64) -> u64 {
    (d * 31 + x % 1_000_003) % 4_294_967_296
}

/// Of every number and byte of cached anchors and history, front to back.
fn digest(cache: &AnchorsCache) -> u64 {
    let bytes = |d: u64, bytes: &[u8]| bytes.iter().fold(d, |d, b| fold(d, u64::from(*b)));
    let mut d = 0;
    for (id, ca) in cache.iter() {
        let (a, count) = (&ca.anchor, ca.anchor.externals.len());
        let head = [u64::from(*id), a.chain_time, ca.our_exts_count as u64, count as u64];
        d = bytes(head.into_iter().fold(d, fold), &a.author.0);
        d = a.externals.iter().fold(d, |d, m| bytes(d, &hook::message_bytes(m)));
    }
    for i in hook::history(cache) {
        let (all, ours) = (i.all_exts_count as u64, i.our_exts_count as u64);
        d = bytes([u64::from(i.id), i.ct, all, ours].into_iter().fold(d, fold), &i.author.0);
    }
    d
}

pub fn main() {
    let mut steps = Steps { s: 1, next_id: 1, next_ct: 1000, ..Steps::default() };
    steps.all();
    print!("{}", steps.out);
    for (what, n) in &steps.seen {
        eprintln!("{n:6} {what}");
    }
}
