//! With `-x`: records that set any reader state and make any call of the original reader,
//! for the parts that a session of `extread` cannot reach. After every record but a refused
//! one the whole state follows in lines that begin with `S`.

use std::collections::BTreeMap;
use std::fmt::Write as _;
use std::panic::{AssertUnwindSafe, catch_unwind};

use tycho_network::PeerId;

use crate::collator::anchors_cache::hook::{self, View};
use crate::collator::anchors_cache::{AnchorInfo, AnchorsCacheTransaction};
use crate::collator::messages_reader::externals_reader::hook::{Counts, RangeRecord};
use crate::questions::{
    AREA, MAX_HISTORY, MAX_LIMIT, MAX_MESSAGES_IN_ANCHOR, MAX_RANGES, Number, has_place,
};
use crate::records::{Fields, anchor, anchor_well_made};
use crate::refusals::try_read;
use crate::session::{Session, Stop};

/// The original's functions by the number that a record 0113 gives.
pub const FUNCTIONS: [&str; 23] = [
    "",
    "finalize",
    "open_ranges_limit_reached",
    "has_non_zero_processed_offset",
    "last_range_offset_reached",
    "last_range_offsets_reached_in_all_partitions",
    "count_messages_in_buffers_by_partitions",
    "has_messages_in_buffers",
    "has_not_fully_read_ranges",
    "all_ranges_read_and_collected",
    "check_all_ranges_read_and_collected",
    "all_read_externals_collected",
    "has_pending_externals",
    "get_last_range_state_offsets_by_partitions",
    "retain_only_last_range_state",
    "set_from_to_current_position_in_last_range_state",
    "increment_curr_processed_offset",
    "drop_processing_offset",
    "set_skip_processed_offset_to_current",
    "set_processed_to_current_position",
    "reset_read_state",
    "drop_last_read_to_anchor_chain_time",
    "get_partition_ids",
];

/// Kind and length; flags 0 or 1, partitions at most 7.
pub fn well_made(kind: u16, p: &[u8]) -> bool {
    match kind {
        // range: seqno 4; from, to, position 12 each; chain time 8; fully read 1;
        // eight times present 1, count 4, skip 4, processed 4
        0x101 => p.len() == 153 && p[48] <= 1 && (0..8).all(|i| p[49 + 13 * i] <= 1),
        // reader partition: partition 1, present 1, processed key 12, current offset 4
        0x102 => p.len() == 18 && p[0] <= 7 && p[1] <= 1,
        // marks: all ranges read 1; last chain time: present 1, value 8
        0x103 => p.len() == 10 && p[0] <= 1 && p[1] <= 1,
        // places in the output lent to the following reads: 4
        0x104 => p.len() == 4,
        // limits: eight of 2
        0x105 => p.len() == 16,
        // history entry as it stands: id 4, chain time 8, all messages 4, ours 4, author 32
        0x106 => p.len() == 52,
        // cached anchor as it stands, without history: the payload of 0004
        0x107 => anchor_well_made(p),
        // bytes of the message area lent to the following calls: 4, at most 33,792
        0x108 => p.len() == 4 && Fields(p).u32() as usize <= AREA,
        // trim: chain time 8
        0x110 => p.len() == 8,
        // one range's read: seqno 4, mode 1 (0 ToTheEnd, 1 ToPreviuosReadTo)
        0x111 => p.len() == 5 && p[4] <= 1,
        // the host took: seqno 4, partition 1, number 4
        0x112 => p.len() == 9 && p[4] <= 7,
        // function: which 1, partition 1, flag 1
        0x113 => p.len() == 3 && (1..=22).contains(&p[0]) && p[1] <= 7 && p[2] <= 1,
        // last_imported_anchor_info_at_ct: chain time 8
        0x114 => p.len() == 8,
        // check_has_pending_externals_in_range: key 12
        0x115 => p.len() == 12,
        // `new` once more
        0x116 => p.is_empty(),
        // `add_imported_anchor_info`: the payload of 0106
        0x117 => p.len() == 52,
        _ => false,
    }
}

fn range_record(f: &mut Fields<'_>) -> RangeRecord {
    let (from, to, position) = (f.key(), f.key(), f.key());
    let chain_time = f.u64();
    let fully_read = f.u8() == 1;
    let mut partitions = Vec::new();
    for i in 0..8 {
        let (present, count, skip, processed) = (f.u8(), f.u32(), f.u32(), f.u32());
        if present == 1 {
            partitions.push((i, count, skip, processed));
        }
    }
    RangeRecord { from, to, position, chain_time, fully_read, partitions }
}

impl Session<'_> {
    pub fn counts(&mut self, counts: &BTreeMap<u16, Counts>) {
        for (p, c) in counts {
            // the original makes an empty entry for partition 0 in each range's read
            if *c != Counts::default() {
                writeln!(self.out, "count {p} {} {} {}", c.read, c.expired, c.buffered).unwrap();
            }
        }
    }

    pub fn beyond(&mut self, kind: u16, payload: &[u8], view: View<'_, '_>) -> Result<(), Stop> {
        let mut f = Fields(payload);
        match kind {
            0x101 => return self.put_range(&mut f),
            0x102 => {
                let (par_id, present) = (f.u8().into(), f.u8());
                let (key, current) = (f.key(), f.u32());
                self.reader.put_partition(par_id, (present == 1).then_some((key, current)));
            }
            0x103 => {
                let (all_read, present, ct) = (f.u8() == 1, f.u8() == 1, f.u64());
                self.reader.put_marks(all_read, present.then_some(ct));
            }
            0x104 => self.places = f.u32() as usize,
            0x105 => return self.put_limits(&mut f, &view),
            0x106 => return put_history(&mut f, view),
            0x107 => return self.put_cached(payload, view),
            0x108 => self.area = f.u32() as usize,
            0x110 => self.trim(f.u64(), view),
            0x111 => self.one(f.u32(), f.u8() == 1, view),
            0x112 => self.took(f.u32(), f.u8().into(), f.u32() as usize),
            0x113 => self.function(&view, f.u8(), f.u8().into(), f.u8() == 1),
            0x114 => self.at_ct(f.u64(), &view),
            0x115 => {
                let yes = view.cache().check_has_pending_externals_in_range(&f.key().into());
                writeln!(self.out, "in_range {}", u8::from(yes)).unwrap();
            }
            0x117 => self.info(&mut f, view),
            _ => {
                let mut copy = view.cache().clone();
                self.reader.renew(&mut AnchorsCacheTransaction::new(&mut copy));
                self.line("new", 0);
            }
        }
        Ok(())
    }

    fn put_range(&mut self, f: &mut Fields<'_>) -> Result<(), Stop> {
        let seqno = f.u32();
        let r = range_record(f);
        let ranges = self.reader.state.ranges.len();
        let too_many = !self.reader.has_range(seqno) && ranges >= MAX_RANGES;
        if too_many || r.partitions.iter().any(|p| p.1 > u32::from(MAX_LIMIT)) {
            return Err(Stop::Bad(5));
        }
        self.reader.put_range(seqno, &r);
        Ok(())
    }

    fn put_limits(&mut self, f: &mut Fields<'_>, view: &View<'_, '_>) -> Result<(), Stop> {
        let limits = f.limits();
        if limits.iter().flatten().any(|l| *l > MAX_LIMIT) {
            return Err(Stop::Bad(4));
        }
        let mut copy = view.cache().clone();
        self.reader.put_limits(&mut AnchorsCacheTransaction::new(&mut copy), limits);
        Ok(())
    }

    fn put_cached(&mut self, payload: &[u8], view: View<'_, '_>) -> Result<(), Stop> {
        let a = anchor(payload);
        let View::Closed(c) = view else { return Err(Stop::Bad(9)) };
        let count = a.messages.len();
        let within = count <= MAX_MESSAGES_IN_ANCHOR
            && a.ours > 0
            && a.ours as usize <= count
            && hook::last_cached_id(c).is_none_or(|last| a.id > last)
            && has_place(c, count);
        if !within {
            return Err(Stop::Bad(5));
        }
        hook::put_cached(c, self.mempool_anchor(&a), a.ours as usize);
        Ok(())
    }

    fn info(&mut self, f: &mut Fields<'_>, view: View<'_, '_>) {
        let number = match view {
            _ if self.area < AREA => 1,
            view if hook::history(view.cache()).len() >= MAX_HISTORY => 8,
            View::Open(_) => 9,
            View::Closed(c) => {
                c.add_imported_anchor_info(history_entry(f));
                0
            }
        };
        self.line("info", number);
    }

    fn trim(&mut self, ct: u64, mut view: View<'_, '_>) {
        if self.area < AREA {
            return self.line("trim", 1);
        }
        view.remove_last_imported_above(ct);
        self.line("trim", 0);
    }

    fn took(&mut self, seqno: u32, par_id: u16, n: usize) {
        let no = match self.reader.took(seqno, par_id, n) {
            None => 15,
            Some(false) => 16,
            Some(true) => 0,
        };
        self.line("took", no);
    }

    fn at_ct(&mut self, ct: u64, view: &View<'_, '_>) {
        let info = view.cache().last_imported_anchor_info_at_ct(ct);
        writeln!(self.out, "at_ct {}", info_fields(info)).unwrap();
    }

    /// One range's read, refusals as for a whole read.
    fn one(&mut self, seqno: u32, to_previous: bool, view: View<'_, '_>) {
        if self.area < AREA {
            return self.line("one", 1);
        }
        let View::Open(tx) = view else { return self.line("one", 9) };
        if !self.reader.has_range(seqno) {
            return self.line("one", 15);
        }
        let router = self.router();
        let mut copied_cache = hook::cache_of(tx).clone();
        let mut copied_tx = hook::fork(tx, &mut copied_cache);
        let mut copy = self.reader.copy();
        let no = try_read(&mut copy, &mut copied_tx, &self.reader, self.places, |k, t| {
            k.read_one(t, seqno, to_previous, &router).map(|_| ())
        });
        self.line("one", no);
        if no != 0 {
            return;
        }
        let before = self.reader.copy();
        let (last, full, counts) =
            self.reader.read_one(tx, seqno, to_previous, &router).expect("the copy did it");
        let free = self.reader.free(seqno);
        assert_eq!(full, free == 0);
        let last = last.map_or("-".to_owned(), |c| c.to_string());
        writeln!(self.out, "answer {last} {free}").unwrap();
        self.counts(&counts);
        self.entries(self.reader.buffered_since(&before));
    }

    /// What document 01 asks where the original panics, or where only some states make it.
    fn ask_function(&self, which: u8, par_id: u16) -> Number {
        match which {
            5 if !self.reader.last_range_within_reader() => 15,
            16 if self.reader.current_offset(par_id) == Some(u32::MAX) => 16,
            _ => 0,
        }
    }

    /// Made on a copy, since the original may have changed something before it errs.
    fn function(&mut self, view: &View<'_, '_>, which: u8, par_id: u16, flag: bool) {
        let name = FUNCTIONS[which as usize];
        let mut cache = view.cache().clone();
        let mut tx = AnchorsCacheTransaction::new(&mut cache);
        let mut copy = self.reader.copy();
        let asked = self.ask_function(which, par_id);
        if asked != 0 {
            if self.opts.verbose {
                let call = AssertUnwindSafe(|| copy.function(&mut tx, which, par_id, flag));
                match catch_unwind(call) {
                    Ok(answer) => eprintln!("# the Rust itself answers {answer:?}"),
                    Err(_) => eprintln!("# the Rust itself panics"),
                }
            }
            return self.line(name, asked);
        }
        match copy.function(&mut tx, which, par_id, flag) {
            Err(_) => self.line(name, 15),
            Ok(answer) => {
                self.reader = copy;
                let sep = if answer.is_empty() { "" } else { " " };
                writeln!(self.out, "{name} 0{sep}{answer}").unwrap();
            }
        }
    }
}

fn history_entry(f: &mut Fields<'_>) -> AnchorInfo {
    let (id, ct, all, ours) = (f.u32(), f.u64(), f.u32() as usize, f.u32() as usize);
    AnchorInfo { id, ct, all_exts_count: all, our_exts_count: ours, author: PeerId(f.take()) }
}

fn put_history(f: &mut Fields<'_>, view: View<'_, '_>) -> Result<(), Stop> {
    let info = history_entry(f);
    let View::Closed(c) = view else { return Err(Stop::Bad(9)) };
    if hook::history(c).len() >= MAX_HISTORY {
        return Err(Stop::Bad(5));
    }
    hook::put_history(c, info);
    Ok(())
}

/// Id, chain time, all messages, ours; or `none`.
pub fn info_fields(info: Option<&AnchorInfo>) -> String {
    match info {
        None => "none".to_owned(),
        Some(i) => format!("{} {} {} {}", i.id, i.ct, i.all_exts_count, i.our_exts_count),
    }
}
