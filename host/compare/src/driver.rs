//! A session's records as calls of the library, in the lines of `oracle -x`.
use std::collections::HashMap;
use std::fmt::Write as _;

use externals::*;
use oracle::FUNCTIONS;

use crate::records::{Bad, Fields, Input, Record};
use crate::{put, Calls};

/// Entries of the largest output that is lent: every message in every range.
const MOST_PLACES: usize = 16 * 1024;
/// What the output holds before a read.
const FILL: u8 = 0xA5;

struct Driver<'c> {
    e: Externals,
    /// 34 bytes each
    routes: Vec<u8>,
    text: String,
    /// entries in the output lent to each read
    places: usize,
    /// bytes of the area lent to each call
    area: usize,
    /// of the record
    number: u64,
    /// the number of the record's call, if it made one
    called: Option<u8>,
    calls: &'c mut Calls,
}

/// All that the library holds between two calls.
struct Whole {
    state: State,
    tables: Box<[u8]>,
    area: Box<[u8]>,
}

fn count(calls: &mut Calls, name: &'static str, number: u8) {
    *calls.entry((name, number)).or_default() += 1;
}

fn number<T>(answer: &Result<T, Refused>) -> u8 {
    answer.as_ref().err().map_or(0, |Refused(n)| *n)
}

/// A call that must not be refused here.
fn sure<T>(answer: Result<T, Refused>) -> T {
    answer.unwrap_or_else(|r| panic!("{r:?}"))
}

fn reader_of(shard: ShardIdent, f: &mut Fields<'_>) -> Reader {
    let next_chain_time = ChainTime(f.u64());
    let externals_expire_timeout = Seconds(f.u32());
    let block_seqno = f.u32();
    let msgs_exec_params = Params { externals_expire_timeout, open_ranges_limit: f.u8(), new_is_some: f.flag() };
    Reader { for_shard_id: shard, block_seqno, next_chain_time, msgs_exec_params, buffer_limits_by_partitions: put::limits(f), ..Reader::default() }
}

/// The first two records: the shard, then the settings.
fn head(input: &mut Input<'_>, calls: &mut Calls) -> Result<Externals, Bad> {
    let mut f = input.first()?;
    let shard = ShardIdent { workchain: f.u32() as i32, prefix: f.u64() };
    let made = Externals::new(Reader { for_shard_id: shard, ..Reader::default() });
    count(calls, "new", number(&made));
    let mut e = made.map_err(|Refused(n)| Bad(n))?;
    let renewed = e.renew(reader_of(shard, &mut input.first()?));
    count(calls, "new", number(&renewed));
    renewed.map_err(|Refused(n)| Bad(n))?;
    Ok(e)
}

/// What a session prints.
pub fn session(bytes: &[u8], calls: &mut Calls) -> String {
    let mut input = Input::new(bytes);
    let e = match head(&mut input, calls) {
        Ok(e) => e,
        Err(Bad(n)) => return format!("bad {} {n}\n", input.number),
    };
    let mut d = Driver { e, routes: Vec::new(), text: String::new(), places: 1024, area: AREA_BYTES, number: 0, called: None, calls };
    loop {
        let done = match input.next() {
            Ok(None) => break d.end(),
            Ok(Some(record)) => {
                d.number = input.number;
                d.asked(record)
            }
            Err(bad) => Err(bad),
        };
        match done {
            Ok(()) => d.state(),
            Err(Bad(n)) => {
                writeln!(d.text, "bad {} {n}", input.number).unwrap();
                break;
            }
        }
    }
    d.text
}

impl Driver<'_> {
    fn whole(&self) -> Whole {
        let state = State { transaction: *self.e.transaction(), reader: *self.e.reader() };
        Whole { state, tables: self.e.tables().into(), area: self.e.area().into() }
    }

    /// A record, with odd numbers wherever nothing is held. A refused call leaves all, a done one what is free.
    fn asked(&mut self, record: Record<'_>) -> Result<(), Bad> {
        put::odd(&mut self.e, self.number as u32);
        let was = self.whole();
        self.called = None;
        let done = self.record(record);
        let now = self.whole();
        match self.called {
            None => {}
            Some(0) => assert!(free::is_kept(&was.state, &now.state), "record {}", self.number),
            Some(n) => {
                assert_eq!(was.state, now.state, "record {}, refused by {n}", self.number);
                assert!(was.tables == now.tables && was.area == now.area, "record {}, refused by {n}", self.number);
            }
        }
        done
    }

    fn count(&mut self, name: &'static str, number: u8) {
        self.called = Some(number);
        count(self.calls, name, number);
    }

    fn record(&mut self, (kind, mut f): Record<'_>) -> Result<(), Bad> {
        match kind {
            2 => return self.route(f.0),
            4 => return self.add(f),
            5 => self.act(f.u8()),
            0x101 => return put::range(&mut self.e, &mut f),
            0x102 => put::partition(&mut self.e, &mut f),
            0x103 => put::marks(&mut self.e, &mut f),
            0x104 => self.places = f.u32() as usize,
            0x105 => {
                let limits = BufferLimits { by_partitions: put::limits(&mut f) };
                let done = self.e.set_buffer_limits_by_partition(limits);
                return self.quiet("set_buffer_limits_by_partition", done);
            }
            0x106 => return put::history(&mut self.e, f.0),
            0x107 => return put::cached(&mut self.e, f.0),
            0x108 => self.area = f.u32() as usize,
            0x110 => self.trim(ChainTime(f.u64())),
            0x111 => self.one(f.u32(), f.flag()),
            0x112 => {
                let done = self.e.messages_taken(f.u32(), f.u8(), f.u32());
                self.line("took", &done);
            }
            0x113 => self.function(f.u8(), f.u8(), f.flag()),
            0x114 => self.at_ct(ChainTime(f.u64())),
            0x115 => {
                let yes = self.e.check_has_pending_externals_in_range(put::key(&mut f));
                self.count("in_range", number(&yes));
                writeln!(self.text, "in_range {}", u8::from(sure(yes))).unwrap();
            }
            0x117 => self.info(f),
            _ => {
                let reader = *self.e.reader();
                let done = self.e.renew(reader);
                self.line("new", &done);
            }
        }
        Ok(())
    }

    /// A call that prints nothing; where it is refused the session ends.
    fn quiet(&mut self, name: &'static str, done: Result<(), Refused>) -> Result<(), Bad> {
        self.count(name, number(&done));
        done.map_err(|Refused(n)| Bad(n))
    }

    fn line<T>(&mut self, name: &'static str, answer: &Result<T, Refused>) {
        let n = number(answer);
        self.count(name, n);
        writeln!(self.text, "{name} {n}").unwrap();
    }

    /// A call while only a part of the area is lent.
    fn lent<R>(&mut self, call: impl FnOnce(&mut Externals) -> R) -> R {
        if self.area == AREA_BYTES {
            return call(&mut self.e);
        }
        self.e.with_area(self.area, call)
    }

    fn route(&mut self, route: &[u8]) -> Result<(), Bad> {
        self.routes.extend(route);
        self.quiet("check_routes", check_routes(&self.routes))
    }

    fn add(&mut self, mut f: Fields<'_>) -> Result<(), Bad> {
        let anchor = MempoolAnchor { id: f.u32(), chain_time: ChainTime(f.u64()), author: f.bytes(32).try_into().unwrap() };
        let ours = f.u32();
        f.u16();
        let done = self.lent(|e| e.add(anchor, ours, f.0));
        self.quiet("add", done)
    }

    fn info(&mut self, mut f: Fields<'_>) {
        let info = AnchorInfo { id: f.u32(), ct: ChainTime(f.u64()), all_exts_count: f.u32(), our_exts_count: f.u32() };
        let entry = HistoryEntry { info, author: f.bytes(32).try_into().unwrap() };
        let done = self.lent(|e| e.add_imported_anchor_info(entry));
        self.line("info", &done);
    }

    fn act(&mut self, what: u8) {
        let (name, done) = match what {
            1 => ("open", self.lent(Externals::open)),
            2 => ("pop", self.pop()),
            3 => return self.all(Mode::Continue),
            4 => return self.all(Mode::Refill),
            5 => ("commit", self.lent(Externals::commit)),
            6 => ("rollback", self.lent(Externals::rollback)),
            _ => ("close", self.lent(Externals::close)),
        };
        self.line(name, &done);
    }

    /// What is answered is the anchor that the last state line shows in front.
    fn pop(&mut self) -> Result<(), Refused> {
        let front = sure(self.e.get(0));
        let popped = self.lent(Externals::pop_front)?;
        assert_eq!(popped, front);
        Ok(())
    }

    /// What is answered is the history entry that the next state line shows last.
    fn trim(&mut self, ct: ChainTime) {
        let trimmed = self.lent(|e| e.remove_last_imported_above(ct));
        if let Ok(left) = trimmed {
            assert_eq!(left, sure(self.e.last_imported_anchor_info()));
            assert_eq!(left, self.history().last().copied());
        }
        self.line("trim", &trimmed);
    }

    fn at_ct(&mut self, ct: ChainTime) {
        let answer = self.e.last_imported_anchor_info_at_ct(ct);
        self.count("at_ct", number(&answer));
        match sure(answer) {
            None => self.text += "at_ct none\n",
            Some((i, _)) => writeln!(self.text, "at_ct {} {} {} {}", i.id, i.ct.0, i.all_exts_count, i.our_exts_count).unwrap(),
        }
    }

    // === the reads ===

    /// The output is lent with some bytes more than its places have, too few for one.
    fn output(&self) -> Vec<u8> {
        vec![FILL; self.places.min(MOST_PLACES) * ENTRY_BYTES + (self.number % ENTRY_BYTES as u64) as usize]
    }

    fn all(&mut self, mode: Mode) {
        let mut out = self.output();
        let (routes, places) = (self.routes.clone(), self.message_places());
        let answer = self.lent(|e| e.read_into_buffers(mode, &routes, &mut out).map(|(counts, free, used)| (counts, free, used.len())));
        self.line("read", &answer);
        let used = answer.map_or(0, |(_, _, used)| used);
        assert!(out[used..].iter().all(|&b| b == FILL), "bytes beyond those used have changed");
        if let Ok((counts, free, used)) = answer {
            if let Some(places) = free {
                writeln!(self.text, "free {places}").unwrap();
            }
            self.entries(&out[..used], &places);
            self.counts(&counts);
            for r in self.e.ranges() {
                let (to, at) = (r.to, r.current_position);
                writeln!(self.text, "range {} {} {} {} {} {}", r.seqno, to.anchor_id, to.msgs_offset, at.anchor_id, at.msgs_offset, u8::from(r.fully_read)).unwrap();
            }
        }
    }

    /// What the read of all would tell the read of one range.
    fn settings(&self, to_previous: bool) -> RangeSettings {
        let r = self.e.reader();
        let processed = r.reader_state.by_partitions.map(|p| ProcessedTo { key: p.processed_to, present: p.present });
        RangeSettings { shard: r.for_shard_id, limits: r.buffer_limits_by_partitions, processed, timeout: r.msgs_exec_params.externals_expire_timeout, to_previous }
    }

    /// The host holds the range, so that one that is missing is not the library's question: 15, after 1 and 9.
    fn one(&mut self, seqno: u32, to_previous: bool) {
        let Some(i) = self.e.ranges().iter().position(|r| r.seqno == seqno) else {
            let n = if self.area < AREA_BYTES { 1 } else if self.e.transaction().active { 15 } else { 9 };
            return writeln!(self.text, "one {n}").unwrap();
        };
        let mut out = self.output();
        let (routes, places, settings) = (self.routes.clone(), self.message_places(), self.settings(to_previous));
        let mut range = self.e.ranges()[i];
        let answer = self.lent(|e| e.read_externals_into_buffers(&mut range, settings, &routes, &mut out));
        // a refused read's range is taken too: it must be as at entry
        self.e.reader_mut().reader_state.ranges[i] = range;
        self.line("one", &answer);
        let used = answer.map_or(0, |a| a.used);
        assert!(out[used..].iter().all(|&b| b == FILL), "bytes beyond those used have changed");
        let limits = BufferLimits { by_partitions: settings.limits };
        if answer == Err(Refused(10)) {
            assert_eq!(get_max_buffers_fill_state(limits, range), Err(Refused(10)));
        }
        if let Ok(a) = answer {
            assert_eq!(get_max_buffers_fill_state(limits, range), Ok(a.free));
            writeln!(self.text, "answer {} {}", time(a.last_chain_time), a.free).unwrap();
            self.counts(&a.counts);
            self.entries(&out[..a.used], &places);
        }
    }

    /// Where each cached anchor's messages stand in the area.
    fn message_places(&self) -> HashMap<u32, usize> {
        put::anchors(&self.e).iter().map(|(a, _)| (a.id, a.place)).collect()
    }

    /// Each entry's message is ours, and of its partition.
    fn entries(&mut self, used: &[u8], places: &HashMap<u32, usize>) {
        for x in entries(used) {
            writeln!(self.text, "add {} {} {} {} {}", x.seqno, x.partition, x.anchor_id, x.offset, x.chain_time.0).unwrap();
            let at = places[&x.anchor_id] + x.offset as usize - 1;
            let message = &self.e.area()[MESSAGE_BYTES * at..][..MESSAGE_BYTES];
            assert_eq!(contains_message(self.e.reader().for_shard_id, message), Ok(true));
            assert_eq!(get_partition(&self.routes, message).map(u16::from), Ok(x.partition));
        }
    }

    fn counts(&mut self, c: &Counts) {
        for p in 0..PARTITIONS {
            let (read, expired, buffered) = (c.read[p], c.expired[p], c.buffered[p]);
            if (read, expired, buffered) != (0, 0, 0) {
                writeln!(self.text, "count {p} {read} {expired} {buffered}").unwrap();
            }
        }
    }

    // === the functions ===

    fn function(&mut self, which: u8, par_id: u8, flag: bool) {
        let e = &mut self.e;
        let nothing = |done: Result<(), Refused>| done.map(|()| String::new());
        let yes = |answer: Result<bool, Refused>| answer.map(|b| format!(" {}", u8::from(b)));
        let pairs = |answer: Result<[Option<u32>; PARTITIONS], Refused>| {
            answer.map(|all| (0..).zip(all).filter_map(|(i, v): (usize, _)| Some(format!(" {i}:{}", v?))).collect())
        };
        let answer = match which {
            1 => nothing(e.finalize()),
            2 => yes(e.open_ranges_limit_reached()),
            3 => yes(e.has_non_zero_processed_offset()),
            4 => yes(e.last_range_offset_reached(par_id)),
            5 => yes(e.last_range_offsets_reached_in_all_partitions()),
            6 => pairs(e.count_messages_in_buffers_by_partitions()),
            7 => yes(e.has_messages_in_buffers()),
            8 => yes(e.has_not_fully_read_ranges()),
            9 => yes(e.all_ranges_read_and_collected()),
            10 => yes(e.check_all_ranges_read_and_collected()),
            11 => yes(e.all_read_externals_collected()),
            12 => yes(e.has_pending_externals()),
            13 => pairs(e.get_last_range_state_offsets_by_partitions()),
            14 => nothing(e.retain_only_last_range_state()),
            15 => nothing(e.set_from_to_current_position_in_last_range_state()),
            16 => nothing(e.increment_curr_processed_offset(par_id)),
            17 => nothing(e.drop_processing_offset(par_id, flag)),
            18 => nothing(e.set_skip_processed_offset_to_current(par_id)),
            19 => nothing(e.set_processed_to_current_position(par_id)),
            20 => nothing(e.reset_read_state()),
            21 => nothing(e.drop_last_read_to_anchor_chain_time()),
            _ => e.get_partition_ids().map(|there| (0..PARTITIONS).filter(|&i| there[i]).map(|i| format!(" {i}")).collect()),
        };
        let (name, n) = (FUNCTIONS[which as usize], number(&answer));
        self.count(name, n);
        writeln!(self.text, "{name} {n}{}", answer.unwrap_or_default()).unwrap();
    }

    // === the state ===

    fn end(&mut self) {
        let c = self.e.transaction().cache;
        let pending = u8::from(sure(self.e.cache_has_pending_externals()));
        writeln!(self.text, "end {} {} {pending}", c.len, c.history_len).unwrap();
    }

    /// The history's rows: id 4, chain time 8, all 4, ours 4, author 32.
    fn history(&self) -> Vec<(AnchorInfo, [u8; 32])> {
        let c = self.e.transaction().cache;
        let rows = self.e.tables().chunks(52).skip(c.history_first).take(c.history_len);
        let row = |row| {
            let mut f = Fields(row);
            let info = AnchorInfo { id: f.u32(), ct: ChainTime(f.u64()), all_exts_count: f.u32(), our_exts_count: f.u32() };
            (info, f.0.try_into().unwrap())
        };
        rows.map(row).collect()
    }

    /// The whole state in lines that begin with `S`.
    fn state(&mut self) {
        let s = &self.e.reader().reader_state;
        let text = &mut self.text;
        for r in self.e.ranges() {
            let k = |k: ExternalKey| format!("{} {}", k.anchor_id, k.msgs_offset);
            write!(text, "S range {} {} {} {} {} {}", r.seqno, k(r.from), k(r.to), k(r.current_position), r.chain_time.0, u8::from(r.fully_read)).unwrap();
            for (i, p) in r.by_partitions.iter().enumerate().filter(|(_, p)| p.present) {
                write!(text, " {i}:{}:{}:{}", p.count, p.skip_offset, p.processed_offset).unwrap();
            }
            text.push('\n');
        }
        for (i, p) in s.by_partitions.iter().enumerate().filter(|(_, p)| p.present) {
            let k = p.processed_to;
            writeln!(text, "S part {i} {} {} {}", k.anchor_id, k.msgs_offset, p.curr_processed_offset).unwrap();
        }
        writeln!(text, "S marks {} {}", u8::from(self.e.reader().all_ranges_fully_read), time(s.last_read_to_anchor_chain_time)).unwrap();
        self.cache_state();
    }

    fn cache_state(&mut self) {
        self.text += "S cached";
        for (a, author) in put::anchors(&self.e) {
            let messages = &self.e.area()[MESSAGE_BYTES * a.place..][..MESSAGE_BYTES * a.count];
            let d = digest(digest(0, &author), messages);
            write!(self.text, " {}:{}:{}:{}:{d}", a.id, a.chain_time.0, a.count, a.ours).unwrap();
        }
        self.text += "\nS history";
        for (i, author) in self.history() {
            let d = digest(0, &author);
            write!(self.text, " {}:{}:{}:{}:{d}", i.id, i.ct.0, i.all_exts_count, i.our_exts_count).unwrap();
        }
        let pending = u8::from(sure(self.e.cache_has_pending_externals()));
        writeln!(self.text, "\nS pending {pending}").unwrap();
    }
}

fn time(t: SavedTime) -> String {
    if t.present { t.time.0.to_string() } else { "-".to_owned() }
}

/// For each byte, times 31 plus the byte, in 32 bits.
fn digest(start: u32, bytes: &[u8]) -> u32 {
    bytes.iter().fold(start, |d, &b| d.wrapping_mul(31).wrapping_add(b.into()))
}
