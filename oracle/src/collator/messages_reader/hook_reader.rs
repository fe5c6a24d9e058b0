//! Keeps what an `ExternalsReader` holds between calls, and makes the original one over it
//! for the time of a call. `extread` has one reader for the whole session, made once by
//! `new`, while the original borrows an open transaction; so the reader is taken apart
//! after a call and put together before the next, with the same fields and without `new`.

use std::collections::BTreeMap;

use tycho_types::cell::CellName;
use tycho_types::models::MsgsExecutionParams;

use super::*;
use crate::collator::anchors_cache::AnchorsCache;
use crate::collator::messages_buffer::MessagesBuffer;
use crate::questions::MAX_LIMIT;

#[path = "hook_bench.rs"]
pub mod bench;

pub struct Settings {
    pub next_chain_time: u64,
    pub timeout: u32,
    pub block_seqno: u32,
    pub open_ranges_limit: u8,
    pub new_waiting: bool,
    pub limits: [Option<u16>; 8],
}

/// The fields of an `ExternalsReader`, without its borrowed transaction.
pub struct Kept {
    for_shard_id: ShardIdent,
    block_seqno: BlockSeqno,
    next_chain_time: u64,
    msgs_exec_params: MsgsExecutionParamsStuff,
    buffer_limits_by_partitions: BTreeMap<QueuePartitionIdx, MessagesBufferLimits>,
    pub state: ExternalsReaderState,
    all_ranges_fully_read: bool,
}

/// One message put in a buffer.
#[derive(Debug, Clone, Copy, PartialEq, Eq, PartialOrd, Ord)]
pub struct Entry {
    pub seqno: u32,
    pub name: CellName,
    pub partition: u16,
    pub chain_time: u64,
}

/// The three counts of an answer.
#[derive(Debug, Clone, Copy, Default, PartialEq, Eq)]
pub struct Counts {
    pub read: u64,
    pub expired: u64,
    pub buffered: u64,
}

fn take_buffer(b: &MessagesBuffer) -> MessagesBuffer {
    let mut res = MessagesBuffer::default();
    for (_, msgs) in b.iter() {
        msgs.iter().for_each(|m| res.add_message(m.clone()));
    }
    res
}

/// The same reader state once more (the original types have no `Clone`).
fn take_state(s: &ExternalsReaderState) -> ExternalsReaderState {
    let ranges: BTreeMap<_, _> = s
        .ranges
        .iter()
        .map(|(seqno, r)| {
            let by_partitions = r
                .by_partitions
                .iter()
                .map(|(par_id, p)| {
                    let p = ExternalsPartitionRangeReaderState::new(
                        take_buffer(&p.buffer),
                        *p.skip_offset,
                        *p.processed_offset,
                        *p.last_expire_check_on_ct,
                    );
                    (*par_id, p)
                })
                .collect();
            let mut copy = ExternalsRangeReaderState::new((*r.range).clone(), by_partitions);
            copy.fully_read = r.fully_read;
            (*seqno, copy)
        })
        .collect();
    ExternalsReaderState {
        ranges: ranges.into(),
        by_partitions: (*s.by_partitions).clone().into(),
        last_read_to_anchor_chain_time: (*s.last_read_to_anchor_chain_time).into(),
    }
}

/// A range state as a record gives it.
pub struct RangeRecord {
    pub from: (u32, u64),
    pub to: (u32, u64),
    pub position: (u32, u64),
    pub chain_time: u64,
    pub fully_read: bool,
    /// partition, count, skip offset, processed offset
    pub partitions: Vec<(u16, u32, u32, u32)>,
}

fn nameless() -> ParsedMessage {
    let dst = IntAddr::from((0, HashBytes([0xEE; 32])));
    ParsedMessage::from_ext(
        tycho_types::models::ExtInMsgInfo { dst },
        tycho_types::cell::Cell::default(),
        true,
        0,
    )
}

fn limits_map(limits: [Option<u16>; 8]) -> BTreeMap<QueuePartitionIdx, MessagesBufferLimits> {
    (0u16..)
        .zip(limits)
        .filter_map(|(i, l)| {
            let max_count = l? as usize;
            Some((
                QueuePartitionIdx(i),
                MessagesBufferLimits { max_count, slots_count: 0, slot_vert_size: 0 },
            ))
        })
        .collect()
}

fn counts_of(metrics: &MessagesReaderMetricsByPartitions) -> BTreeMap<u16, Counts> {
    metrics
        .iter()
        .map(|(par_id, m)| {
            (
                par_id.0,
                Counts {
                    read: m.read_ext_msgs_count,
                    expired: m.expired_ext_msgs_count,
                    buffered: m.add_to_msgs_groups_ops_count,
                },
            )
        })
        .collect()
}

fn pairs<N: std::fmt::Display>(it: impl Iterator<Item = (QueuePartitionIdx, N)>) -> String {
    let parts: Vec<_> = it.map(|(id, n)| format!("{id}:{n}")).collect();
    parts.join(" ")
}

impl Kept {
    /// The original `new`, over a reader state without ranges. The limits are the given ones;
    /// slots, which never fill, are 0.
    pub fn new(shard: ShardIdent, s: &Settings) -> Self {
        let current = MsgsExecutionParams {
            externals_expire_timeout: s.timeout,
            open_ranges_limit: s.open_ranges_limit.into(),
            ..Default::default()
        };
        let mut other = current.clone();
        other.group_slots_fractions.0.push((0, 1));
        let params = MsgsExecutionParamsStuff::create(
            Some(current.clone()),
            if s.new_waiting { other } else { current },
        );
        assert_eq!(params.new_is_some(), s.new_waiting);
        let limits = limits_map(s.limits);

        let mut state = ExternalsReaderState::default();
        let mut cache = AnchorsCache::default();
        let mut tx = AnchorsCacheTransaction::new(&mut cache);
        let ExternalsReader {
            for_shard_id,
            block_seqno,
            next_chain_time,
            msgs_exec_params,
            buffer_limits_by_partitions,
            all_ranges_fully_read,
            ..
        } = ExternalsReader::new(
            shard,
            s.block_seqno,
            s.next_chain_time,
            params,
            limits,
            &mut tx,
            &mut state,
        );
        Self {
            for_shard_id,
            block_seqno,
            next_chain_time,
            msgs_exec_params,
            buffer_limits_by_partitions,
            state,
            all_ranges_fully_read,
        }
    }

    pub fn copy(&self) -> Self {
        Self {
            for_shard_id: self.for_shard_id,
            block_seqno: self.block_seqno,
            next_chain_time: self.next_chain_time,
            msgs_exec_params: self.msgs_exec_params.clone(),
            buffer_limits_by_partitions: self.buffer_limits_by_partitions.clone(),
            state: take_state(&self.state),
            all_ranges_fully_read: self.all_ranges_fully_read,
        }
    }

    /// The original struct, put together over the fields that are kept.
    fn reader<'x, 'c>(
        &'x mut self,
        tx: &'x mut AnchorsCacheTransaction<'c>,
    ) -> ExternalsReader<'x, 'c> {
        ExternalsReader {
            for_shard_id: self.for_shard_id,
            block_seqno: self.block_seqno,
            next_chain_time: self.next_chain_time,
            msgs_exec_params: self.msgs_exec_params.clone(),
            buffer_limits_by_partitions: self.buffer_limits_by_partitions.clone(),
            anchors_cache: tx,
            reader_state: &mut self.state,
            all_ranges_fully_read: self.all_ranges_fully_read,
        }
    }

    fn call<R>(
        &mut self,
        tx: &mut AnchorsCacheTransaction<'_>,
        f: impl FnOnce(&mut ExternalsReader<'_, '_>) -> R,
    ) -> R {
        let mut reader = self.reader(tx);
        let res = f(&mut reader);
        let ExternalsReader { buffer_limits_by_partitions, all_ranges_fully_read, .. } = reader;
        self.buffer_limits_by_partitions = buffer_limits_by_partitions;
        self.all_ranges_fully_read = all_ranges_fully_read;
        res
    }

    /// The original `read_into_buffers`: the counts, and the last range that it read.
    pub fn read(
        &mut self,
        tx: &mut AnchorsCacheTransaction<'_>,
        refill: bool,
        router: &PartitionRouter,
    ) -> Result<(BTreeMap<u16, Counts>, Option<u32>)> {
        let mode = if refill {
            GetNextMessageGroupMode::Refill
        } else {
            GetNextMessageGroupMode::Continue
        };
        tracing::forget();
        let metrics = self.call(tx, |r| r.read_into_buffers(mode, router))?;
        Ok((counts_of(&metrics), tracing::last_range_read()))
    }

    /// What is in the buffers now that was not in `before`'s, range by range in the order
    /// of reading, and inside a range in the order in which the anchors were added.
    pub fn buffered_since(&self, before: &Self) -> Vec<Entry> {
        let mut res = Vec::new();
        for (seqno, r) in self.state.ranges.iter() {
            for (par_id, p) in r.by_partitions.iter() {
                let old = before.state.ranges.get(seqno).and_then(|r| r.by_partitions.get(par_id));
                for (account, msgs) in p.buffer.iter() {
                    let had = old.map_or(0, |o| o.buffer.account_messages_count(account));
                    res.extend(msgs.iter().skip(had).map(|m| Entry {
                        seqno: *seqno,
                        name: m.cell().name,
                        partition: par_id.0,
                        chain_time: m.ext_msg_chain_time().unwrap(),
                    }));
                }
            }
        }
        res.sort();
        res
    }

    // === beyond extread: any state, any call ===

    /// Puts a range state in place (or in place of another), its buffers filled with
    /// nameless messages.
    pub fn put_range(&mut self, seqno: u32, r: &RangeRecord) {
        let by_partitions = r
            .partitions
            .iter()
            .map(|(par_id, count, skip, processed)| {
                let mut buffer = MessagesBuffer::default();
                for _ in 0..*count {
                    buffer.add_message(nameless());
                }
                let p = ExternalsPartitionRangeReaderState::new(buffer, *skip, *processed, None);
                (QueuePartitionIdx(*par_id), p)
            })
            .collect();
        let range = ExternalsReaderRange {
            from: r.from.into(),
            to: r.to.into(),
            current_position: r.position.into(),
            chain_time: r.chain_time,
        };
        let mut state = ExternalsRangeReaderState::new(range, by_partitions);
        state.fully_read = r.fully_read;
        self.state.ranges.insert(seqno, state);
    }

    pub fn put_partition(&mut self, par_id: u16, p: Option<((u32, u64), u32)>) {
        let par_id = QueuePartitionIdx(par_id);
        match p {
            None => {
                self.state.by_partitions.remove(&par_id);
            }
            Some((processed_to, curr_processed_offset)) => {
                self.state.by_partitions.insert(
                    par_id,
                    ExternalsPartitionReaderState {
                        processed_to: processed_to.into(),
                        curr_processed_offset,
                    },
                );
            }
        }
    }

    pub fn put_marks(&mut self, all_read: bool, last_chain_time: Option<u64>) {
        self.all_ranges_fully_read = all_read;
        *self.state.last_read_to_anchor_chain_time = last_chain_time;
    }

    /// The original `set_buffer_limits_by_partition`.
    pub fn put_limits(&mut self, tx: &mut AnchorsCacheTransaction<'_>, limits: [Option<u16>; 8]) {
        let limits = limits_map(limits);
        self.call(tx, |r| r.set_buffer_limits_by_partition(limits));
    }

    /// The host took messages: `None` if the range or the partition is missing,
    /// `Some(false)` if it took more than there were.
    pub fn took(&mut self, seqno: u32, par_id: u16, n: usize) -> Option<bool> {
        let p =
            self.state.ranges.get_mut(&seqno)?.by_partitions.get_mut(&QueuePartitionIdx(par_id))?;
        let have = p.buffer.msgs_count();
        if n > have {
            return Some(false);
        }
        let mut rest = MessagesBuffer::default();
        let all: Vec<_> = p.buffer.iter().flat_map(|(_, q)| q.iter().cloned()).collect();
        all.into_iter().skip(n).for_each(|m| rest.add_message(m));
        p.buffer = rest;
        Some(true)
    }

    pub fn has_range(&self, seqno: u32) -> bool {
        self.state.ranges.get(&seqno).is_some()
    }

    pub fn current_offset(&self, par_id: u16) -> Option<u32> {
        self.state.by_partitions.get(&QueuePartitionIdx(par_id)).map(|p| p.curr_processed_offset)
    }

    /// Is each partition of the last range (if any) in the reader?
    pub fn last_range_within_reader(&self) -> bool {
        self.state.ranges.last_key_value().is_none_or(|(_, r)| {
            r.by_partitions.iter().all(|(id, _)| self.state.by_partitions.contains_key(id))
        })
    }

    /// The original `read_externals_into_buffers` on one range, with what
    /// `read_into_buffers` would hand it: the last chain time, whether a buffer is full, the counts.
    pub fn read_one(
        &mut self,
        tx: &mut AnchorsCacheTransaction<'_>,
        seqno: u32,
        to_previous: bool,
        router: &PartitionRouter,
    ) -> Result<(Option<u64>, bool, BTreeMap<u16, Counts>)> {
        let processed: BTreeMap<_, _> = self
            .state
            .by_partitions
            .iter()
            .map(|(par_id, par)| (*par_id, par.processed_to))
            .collect();
        let timeout = self.msgs_exec_params.current().externals_expire_timeout as u64;
        let mode = if to_previous {
            ReadNextExternalsMode::ToPreviuosReadTo
        } else {
            ReadNextExternalsMode::ToTheEnd
        };
        let res = read_externals_into_buffers(
            &self.for_shard_id,
            &seqno,
            tx,
            self.state.ranges.get_mut(&seqno).expect("asked before"),
            &self.buffer_limits_by_partitions,
            mode,
            router,
            &processed,
            timeout,
        )?;
        let full = res.max_fill_state_by_count == BufferFillStateByCount::IsFull;
        Ok((res.last_read_to_anchor_chain_time, full, counts_of(&res.metrics_by_partitions)))
    }

    /// The fewest places left in a buffer of the range, by the original's counts and limits; 1,024 where
    /// it has none. (The original tells only whether one is full.)
    pub fn free(&self, seqno: u32) -> usize {
        let range = self.state.ranges.get(&seqno).expect("it was read");
        let left = |(id, p): (&QueuePartitionIdx, &ExternalsPartitionRangeReaderState)| {
            self.buffer_limits_by_partitions[id].max_count.saturating_sub(p.buffer.msgs_count())
        };
        range.by_partitions.iter().map(left).min().unwrap_or(MAX_LIMIT.into())
    }

    /// The other public functions, by number. `Err` where the original errs.
    pub fn function(
        &mut self,
        tx: &mut AnchorsCacheTransaction<'_>,
        which: u8,
        par_id: u16,
        flag: bool,
    ) -> Result<String> {
        let par_id = QueuePartitionIdx(par_id);
        let yes = |b: bool| Ok(u8::from(b).to_string());
        self.call(tx, |r| match which {
            1 => r.finalize().map(|_| String::new()),
            2 => yes(r.open_ranges_limit_reached()),
            3 => yes(r.has_non_zero_processed_offset()),
            4 => yes(r.last_range_offset_reached(&par_id)),
            5 => yes(r.last_range_offsets_reached_in_all_partitions()),
            6 => Ok(pairs(r.count_messages_in_buffers_by_partitions().into_iter())),
            7 => yes(r.has_messages_in_buffers()),
            8 => yes(r.has_not_fully_read_ranges()),
            9 => yes(r.all_ranges_read_and_collected()),
            10 => yes(r.check_all_ranges_read_and_collected()),
            11 => yes(r.all_read_externals_collected()),
            12 => yes(r.has_pending_externals()),
            13 => Ok(pairs(r.get_last_range_state_offsets_by_partitions().into_iter())),
            14 => r.retain_only_last_range_state().map(|_| String::new()),
            15 => r.set_from_to_current_position_in_last_range_state().map(|_| String::new()),
            16 => r.increment_curr_processed_offset(&par_id).map(|_| String::new()),
            17 => r.drop_processing_offset(par_id, flag).map(|_| String::new()),
            18 => r.set_skip_processed_offset_to_current(par_id).map(|_| String::new()),
            19 => r.set_processed_to_current_position(par_id).map(|_| String::new()),
            20 => {
                r.reset_read_state();
                Ok(String::new())
            }
            21 => {
                r.drop_last_read_to_anchor_chain_time();
                Ok(String::new())
            }
            22 => Ok(r
                .get_partition_ids()
                .iter()
                .map(|p| format!("{p} "))
                .collect::<String>()
                .trim_end()
                .into()),
            _ => unreachable!("17 was asked"),
        })
    }

    /// The original `new` once more over the present state.
    pub fn renew(&mut self, tx: &mut AnchorsCacheTransaction<'_>) {
        let reader = ExternalsReader::new(
            self.for_shard_id,
            self.block_seqno,
            self.next_chain_time,
            self.msgs_exec_params.clone(),
            self.buffer_limits_by_partitions.clone(),
            tx,
            &mut self.state,
        );
        self.all_ranges_fully_read = reader.all_ranges_fully_read;
    }

    /// The reader in lines for comparing with a port: buffers by their counts.
    pub fn lines(&self) -> String {
        use std::fmt::Write as _;
        let mut out = String::new();
        for (seqno, r) in self.state.ranges.iter() {
            let k = |k: ExternalKey| format!("{} {}", k.anchor_id, k.msgs_offset);
            write!(
                out,
                "S range {seqno} {} {} {} {} {}",
                k(r.range.from),
                k(r.range.to),
                k(r.range.current_position),
                r.range.chain_time,
                u8::from(r.fully_read),
            )
            .unwrap();
            for (id, p) in r.by_partitions.iter() {
                write!(
                    out,
                    " {id}:{}:{}:{}",
                    p.buffer.msgs_count(),
                    *p.skip_offset,
                    *p.processed_offset,
                )
                .unwrap();
            }
            out.push('\n');
        }
        for (id, p) in self.state.by_partitions.iter() {
            let k = p.processed_to;
            let cur = p.curr_processed_offset;
            writeln!(out, "S part {id} {} {} {cur}", k.anchor_id, k.msgs_offset).unwrap();
        }
        let last = self.state.last_read_to_anchor_chain_time.map_or("-".into(), |c| c.to_string());
        writeln!(out, "S marks {} {last}", u8::from(self.all_ranges_fully_read)).unwrap();
        out
    }

    /// All that can be told of the reader, for comparing.
    pub fn dump(&self) -> String {
        let ranges: Vec<_> = self
            .state
            .ranges
            .iter()
            .map(|(seqno, r)| {
                let pars: Vec<_> = r
                    .by_partitions
                    .iter()
                    .map(|(id, p)| {
                        let msgs: Vec<_> = p
                            .buffer
                            .iter()
                            .flat_map(|(_, q)| q.iter().map(|m| m.cell().name))
                            .collect();
                        (id.0, *p.skip_offset, *p.processed_offset, msgs)
                    })
                    .collect();
                format!("{seqno} {:?} {} {pars:?}", *r.range, r.fully_read)
            })
            .collect();
        format!(
            "{ranges:?} {:?} {:?} {}",
            *self.state.by_partitions,
            *self.state.last_read_to_anchor_chain_time,
            self.all_ranges_fully_read,
        )
    }
}
