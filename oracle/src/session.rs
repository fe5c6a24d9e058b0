//! A session of `extread` (document 01). The records and the questions are judged here;
//! cache, transaction and reader are the original ones.

use std::fmt::Write as _;
use std::io::{Read as _, Write as _};

use tycho_block_util::queue::{QueuePartitionIdx, RouterAddr, RouterPartitions};
use tycho_types::cell::HashBytes;
use tycho_types::models::ShardIdent;

use crate::collator::anchors_cache::hook::{self, View};
use crate::collator::anchors_cache::{AnchorsCache, AnchorsCacheTransaction};
use crate::collator::messages_reader::externals_reader::hook::{Entry, Kept, Settings};
use crate::internal_queue::types::router::PartitionRouter;
use crate::questions::{
    AREA, MASTERCHAIN, MAX_LIMIT, MAX_OPEN_RANGES, MAX_ROUTES, Number, PREFIX_FULL, ask_add,
    mempool_anchor,
};
use crate::records::{Anchor, Input, Record, parse};
use crate::refusals::{note_panics, try_read};

/// Entries in the output lent to each read.
const OUTPUT_PLACES: usize = 1024;

/// Names of the calls by do byte.
const NAMES: [&str; 8] = ["", "open", "pop", "read", "read", "commit", "rollback", "close"];

pub struct Session<'a> {
    input: Input<'a>,
    pub out: String,
    routes: Vec<(i8, [u8; 32], u8)>,
    pub reader: Kept,
    adds: u64,
    /// entries in the output lent to each read
    pub places: usize,
    /// bytes of the message area lent to each call
    pub area: usize,
    pub opts: Opts,
}

#[derive(Clone, Copy, Default)]
pub struct Opts {
    pub verbose: bool,
    pub beyond: bool,
    /// question 2 as document 01 alone has it: a part of the masterchain is taken
    pub split_masterchain: bool,
}

pub enum Stop {
    End,
    Bad(Number),
}

impl Session<'_> {
    fn next(&mut self) -> Result<Record, Stop> {
        match self.input.next() {
            Ok(None) => Err(Stop::End),
            Ok(Some(raw)) => parse(&raw, self.input.number, self.opts.beyond).map_err(Stop::Bad),
            Err(n) => Err(Stop::Bad(n)),
        }
    }

    pub fn line(&mut self, name: &str, n: Number) {
        writeln!(self.out, "{name} {n}").unwrap();
    }

    /// Question 3, then the route is kept.
    fn route(&mut self, workchain: i8, account: [u8; 32], partition: u8) -> Result<(), Stop> {
        let twice = self.routes.iter().any(|(w, a, _)| *w == workchain && *a == account);
        if self.routes.len() >= MAX_ROUTES || twice || partition > 7 {
            return Err(Stop::Bad(3));
        }
        self.routes.push((workchain, account, partition));
        Ok(())
    }

    pub fn router(&self) -> PartitionRouter {
        let mut dst = RouterPartitions::new();
        for (workchain, account, partition) in &self.routes {
            dst.entry(QueuePartitionIdx(u16::from(*partition)))
                .or_default()
                .insert(RouterAddr { workchain: *workchain, account: HashBytes(*account) });
        }
        PartitionRouter::with_partitions(&RouterPartitions::new(), &dst)
    }

    /// The original's anchor of a record; each add gets a serial of its own.
    pub fn mempool_anchor(&mut self, a: &Anchor) -> std::sync::Arc<crate::mempool::MempoolAnchor> {
        self.adds += 1;
        mempool_anchor(self.adds, a)
    }

    /// An added anchor: questions 1 and 6 to 9, then the original's `add`.
    fn add(&mut self, view: &mut View<'_, '_>, a: &Anchor) -> Result<(), Stop> {
        let open = matches!(view, View::Open(_));
        let no = match self.area < AREA {
            true => 1,
            false => ask_add(view.cache(), open, a.id, a.ours, a.messages.len()),
        };
        match view {
            View::Closed(cache) if no == 0 => {
                cache.add(self.mempool_anchor(a), a.ours as usize);
                Ok(())
            }
            _ => Err(Stop::Bad(no)),
        }
    }

    /// A record that neither opens nor closes a transaction.
    fn record(&mut self, record: Record, mut view: View<'_, '_>) -> Result<(), Stop> {
        match record {
            Record::Route { workchain, account, partition } => {
                self.route(workchain, account, partition)?
            }
            Record::Anchor(a) => self.add(&mut view, &a)?,
            Record::Do(d) if self.area < AREA => self.line(NAMES[d as usize], 1),
            Record::Do(2) => {
                view.pop_front();
                self.line("pop", 0);
            }
            Record::Do(d) => match view {
                View::Open(tx) => self.do_open(d, tx),
                View::Closed(_) => self.line(NAMES[d as usize], 9),
            },
            Record::Beyond { kind, payload } => self.beyond(kind, &payload, view)?,
            Record::Shard { .. } | Record::Settings(_) => unreachable!("17 was asked"),
        }
        Ok(())
    }

    /// A do byte other than pop and close, with a transaction open.
    fn do_open(&mut self, d: u8, tx: &mut AnchorsCacheTransaction<'_>) {
        match d {
            1 => return self.line("open", 9),
            3 | 4 => return self.read(tx, d == 4),
            5 => tx.commit(),
            _ => tx.rollback(),
        }
        self.line(NAMES[d as usize], 0);
    }

    /// Records while no transaction is open. Returns at `open`.
    fn closed(&mut self, cache: &mut AnchorsCache) -> Result<(), Stop> {
        loop {
            let record = self.next()?;
            if matches!(record, Record::Do(1)) && self.area >= AREA {
                self.line("open", 0);
                return Ok(());
            }
            self.record(record, View::Closed(cache))?;
            self.state(cache);
        }
    }

    /// Records while a transaction is open. Returns at `close`, which the caller makes.
    fn open(&mut self, tx: &mut AnchorsCacheTransaction<'_>) -> Result<(), Stop> {
        loop {
            let record = self.next()?;
            if matches!(record, Record::Do(7)) && self.area >= AREA {
                self.line("close", 0);
                return Ok(());
            }
            self.record(record, View::Open(tx))?;
            self.state(hook::cache_of(tx));
        }
    }

    /// The original `read_into_buffers`, first on copies, which a refused read may leave
    /// half done.
    fn read(&mut self, tx: &mut AnchorsCacheTransaction<'_>, refill: bool) {
        let router = self.router();
        let mut copied_cache = hook::cache_of(tx).clone();
        let mut copied_tx = hook::fork(tx, &mut copied_cache);
        let mut copy = self.reader.copy();
        let no = try_read(&mut copy, &mut copied_tx, &self.reader, self.places, |k, t| {
            k.read(t, refill, &router).map(|_| ())
        });
        self.line("read", no);
        if no != 0 {
            return;
        }

        let before = self.reader.copy();
        let (counts, last_read) = self.reader.read(tx, refill, &router).expect("the copy did it");
        let entries = self.reader.buffered_since(&before);
        assert_eq!(self.reader.dump(), copy.dump());
        assert_eq!(hook::dump(hook::cache_of(tx)), hook::dump(hook::cache_of(&copied_tx)));
        let buffered: u64 = counts.values().map(|c| c.buffered).sum();
        assert_eq!(buffered, entries.len() as u64);

        if let Some(seqno) = last_read {
            writeln!(self.out, "free {}", self.reader.free(seqno)).unwrap();
        }
        self.entries(entries);
        if self.opts.beyond {
            self.counts(&counts);
        }
        self.ranges();
        if self.opts.verbose {
            eprintln!("# counts {counts:?}");
        }
    }

    pub fn entries(&mut self, entries: Vec<Entry>) {
        for e in entries {
            writeln!(
                self.out,
                "add {} {} {} {} {}",
                e.seqno, e.partition, e.name.anchor_id, e.name.offset, e.chain_time,
            )
            .unwrap();
        }
    }

    fn ranges(&mut self) {
        for (seqno, r) in self.reader.state.ranges.iter() {
            let (to, pos) = (r.range.to, r.range.current_position);
            writeln!(
                self.out,
                "range {} {} {} {} {} {}",
                seqno,
                to.anchor_id,
                to.msgs_offset,
                pos.anchor_id,
                pos.msgs_offset,
                u8::from(r.fully_read),
            )
            .unwrap();
        }
    }

    fn end(&mut self, cache: &AnchorsCache) {
        writeln!(
            self.out,
            "end {} {} {}",
            hook::cached_len(cache),
            hook::history(cache).len(),
            u8::from(cache.has_pending_externals()),
        )
        .unwrap();
    }

    fn state(&mut self, cache: &AnchorsCache) {
        if self.opts.beyond {
            self.out += &self.reader.lines();
            self.out += &hook::lines(cache);
        }
        if self.opts.verbose {
            let n = self.input.number;
            eprintln!("# record {n}: {} | {}", hook::dump(cache), self.reader.dump());
        }
    }

    /// The records after the second, up to the end of the input or a refused record.
    fn rest(&mut self) -> Stop {
        let mut cache = AnchorsCache::default();
        loop {
            if let Err(stop) = self.closed(&mut cache) {
                if matches!(stop, Stop::End) {
                    self.end(&cache);
                }
                return stop;
            }
            let mut tx = AnchorsCacheTransaction::new(&mut cache);
            self.state(hook::cache_of(&tx));
            if let Err(stop) = self.open(&mut tx) {
                if matches!(stop, Stop::End) {
                    // left open: the present cache is told
                    self.end(hook::cache_of(&tx));
                }
                return stop;
            }
            drop(tx);
            self.state(&cache);
        }
    }
}

/// Question 2 of the first record. Ticket 2 of document 02, that the masterchain is one shard, is asked here: the
/// original does not look, and runs on a part of it as on any shard.
fn shard(input: &mut Input<'_>, opts: Opts) -> Result<ShardIdent, Number> {
    match input.first()? {
        Record::Shard { workchain: MASTERCHAIN, prefix }
            if prefix != PREFIX_FULL && !opts.split_masterchain =>
        {
            Err(2)
        }
        Record::Shard { workchain, prefix } => ShardIdent::new(workchain, prefix).ok_or(2),
        _ => Err(17),
    }
}

/// Question 4 of the second record.
fn settings(input: &mut Input<'_>) -> Result<Settings, Number> {
    match input.first()? {
        Record::Settings(s) if s.limits.iter().flatten().any(|l| *l > MAX_LIMIT) => Err(4),
        Record::Settings(s) if s.open_ranges_limit > MAX_OPEN_RANGES => Err(4),
        Record::Settings(s) => Ok(s),
        _ => Err(17),
    }
}

/// What a session prints.
pub fn session(bytes: &[u8], opts: Opts) -> String {
    note_panics();
    let mut input = Input::new(bytes);
    let head =
        shard(&mut input, opts).and_then(|sh| settings(&mut input).map(|se| Kept::new(sh, &se)));
    let reader = match head {
        Ok(reader) => reader,
        Err(no) => return format!("bad {} {no}\n", input.number),
    };
    let mut s = Session {
        input,
        out: String::new(),
        routes: Vec::new(),
        reader,
        adds: 0,
        places: OUTPUT_PLACES,
        area: AREA,
        opts,
    };
    match s.rest() {
        Stop::End => s.out,
        Stop::Bad(no) => format!("{}bad {} {no}\n", s.out, s.input.number),
    }
}

/// Standard input: one session. With file names: each file's session, its output
/// written beside it with `.out` added. `-v` tells states on standard error;
/// `-x` allows the records beyond `extread`, `--split-masterchain` takes a part of the
/// masterchain (README.md).
pub fn main(mut args: &[String]) {
    let mut opts = Opts::default();
    while let Some((first, rest)) = args.split_first() {
        match first.as_str() {
            "-v" => opts.verbose = true,
            "-x" => opts.beyond = true,
            "--split-masterchain" => opts.split_masterchain = true,
            _ => break,
        }
        args = rest;
    }
    if args.is_empty() {
        let mut input = Vec::new();
        std::io::stdin().read_to_end(&mut input).expect("standard input");
        let out = session(&input, opts);
        std::io::stdout().write_all(out.as_bytes()).expect("standard output");
    }
    for name in args {
        let input = std::fs::read(name).expect("session file");
        std::fs::write(format!("{name}.out"), session(&input, opts)).expect("output file");
    }
}
