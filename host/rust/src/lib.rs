//! The externals reader and its anchors cache, over the proved library `libhost.a`.
//!
//! [`Externals`] owns the tables, the message area and the state, so nothing else touches them while a transaction is open, and hides the pointers.
//! Each call answers what the library answers: `Err(Refused(n))` is question n of document 01, and leaves everything as it was.
//!
//! A timeout and a chain time are types of their own, and a bare number is neither:
//! ```compile_fail
//! let p = externals::Params { externals_expire_timeout: 60, open_ranges_limit: 4, new_is_some: false };
//! ```
//! ```compile_fail
//! let p = externals::Params { externals_expire_timeout: externals::ChainTime(60), open_ranges_limit: 4, new_is_some: false };
//! ```
#[doc(hidden)]
pub mod free;
mod raw;
#[cfg(test)]
mod refused;
mod types;

pub use types::*;

/// The number of the question that was answered "no".
#[derive(Clone, Copy, Debug, PartialEq, Eq)]
pub struct Refused(pub u8);

fn done<T>(number: u8, answer: T) -> Result<T, Refused> {
    if number == 0 { Ok(answer) } else { Err(Refused(number)) }
}

fn flag(f: Flag) -> Result<bool, Refused> {
    done(f.number, f.flag)
}

/// The Rust's mode of a read of all ranges.
#[derive(Clone, Copy, Debug, PartialEq, Eq)]
pub enum Mode {
    Continue,
    Refill,
}

/// A message that was read into a buffer.
#[derive(Clone, Copy, Debug, PartialEq, Eq)]
pub struct Entry {
    pub seqno: u32,
    pub partition: u16,
    pub anchor_id: u32,
    pub offset: u64,
    pub chain_time: ChainTime,
}

/// The entries in the used bytes of an output.
pub fn entries(used: &[u8]) -> impl Iterator<Item = Entry> + '_ {
    fn number(b: &[u8]) -> u64 {
        b.iter().rev().fold(0, |v, &x| v << 8 | u64::from(x))
    }
    used.chunks_exact(ENTRY_BYTES).map(|e| Entry {
        seqno: number(&e[0..4]) as u32,
        partition: number(&e[4..6]) as u16,
        anchor_id: number(&e[6..10]) as u32,
        offset: number(&e[10..18]),
        chain_time: ChainTime(number(&e[18..26])),
    })
}

/// Whether a message is the shard's.
pub fn contains_message(shard: ShardIdent, message: &[u8]) -> Result<bool, Refused> {
    flag(unsafe { raw::ext_contains_message(shard, message.as_ptr(), message.len()) })
}

pub fn check_routes(routes: &[u8]) -> Result<(), Refused> {
    done(unsafe { raw::ext_check_routes(routes.as_ptr(), routes.len()) }, ())
}

/// The partition of a message by the routes.
pub fn get_partition(routes: &[u8], message: &[u8]) -> Result<u8, Refused> {
    let p = unsafe { raw::ext_get_partition(routes.as_ptr(), routes.len(), message.as_ptr(), message.len()) };
    done(p.number, p.partition)
}

/// The free places of a range: the fewest that one of its buffers has left, 0 where one is full; 1,024 where it has no
/// partition.
pub fn get_max_buffers_fill_state(limits: BufferLimits, range: Range) -> Result<u16, Refused> {
    let f = unsafe { raw::ext_get_max_buffers_fill_state(limits, range) };
    done(f.number, f.free)
}

pub struct Externals {
    state: Box<State>,
    tables: Box<[u8]>,
    area: Box<[u8]>,
}

// Calls on the transaction: the tables and the area are lent, and nothing is answered but the number.
macro_rules! on_transaction {
    ($($(#[$m:meta])* $name:ident = $raw:ident;)*) => { $(
        $(#[$m])*
        pub fn $name(&mut self) -> Result<(), Refused> {
            done(unsafe { raw::$raw(&mut self.state.transaction, self.tables.as_ptr(), self.tables.len(), self.area.as_ptr(), self.area.len()) }, ())
        }
    )* };
}

// Calls that change the reader, and questions about it.
macro_rules! on_reader {
    ($($(#[$m:meta])* $name:ident($($p:ident: $ty:ty),*) = $raw:ident;)*) => { $(
        $(#[$m])*
        pub fn $name(&mut self $(, $p: $ty)*) -> Result<(), Refused> {
            done(unsafe { raw::$raw(&mut self.state.reader $(, $p)*) }, ())
        }
    )* };
}

macro_rules! of_reader {
    ($($(#[$m:meta])* $name:ident($($p:ident: $ty:ty),*) = $raw:ident;)*) => { $(
        $(#[$m])*
        pub fn $name(&self $(, $p: $ty)*) -> Result<bool, Refused> {
            flag(unsafe { raw::$raw(self.state.reader $(, $p)*) })
        }
    )* };
}

impl Externals {
    /// An empty cache, and a reader over the state that it is handed with.
    pub fn new(reader: Reader) -> Result<Externals, Refused> {
        let transaction = unsafe { raw::ext_new_transaction() };
        let mut e = Externals {
            state: Box::new(State { transaction, reader }),
            tables: vec![0; TABLES_BYTES].into(),
            area: vec![0; AREA_BYTES].into(),
        };
        e.renew(reader)?;
        Ok(e)
    }

    /// Another reader over the same cache, as for the next block. A refused one leaves the reader as it was.
    pub fn renew(&mut self, reader: Reader) -> Result<(), Refused> {
        let mut next = reader;
        done(unsafe { raw::ext_new_reader(&mut next) }, ())?;
        self.state.reader = next;
        Ok(())
    }

    /// State, tables and message area, to go on from kept ones. Any values and lengths are safe: a call that finds less than it needs answers 1 or 5.
    /// While a transaction is open nobody else touches them: 9.
    pub fn parts_mut(&mut self) -> Result<(&mut State, &mut Box<[u8]>, &mut Box<[u8]>), Refused> {
        let number = if self.state.transaction.active { 9 } else { 0 };
        done(number, (&mut *self.state, &mut self.tables, &mut self.area))
    }

    /// The reader, to go on from a kept one; no transaction restores it.
    pub fn reader_mut(&mut self) -> &mut Reader {
        &mut self.state.reader
    }

    /// A call that is lent only the first bytes of the area.
    #[doc(hidden)]
    pub fn with_area<R>(&mut self, bytes: usize, call: impl FnOnce(&mut Externals) -> R) -> R {
        let part = self.area[..bytes].into();
        let whole = std::mem::replace(&mut self.area, part);
        let answer = call(self);
        self.area = whole;
        answer
    }

    /// Rows of the history from byte 0, of the cached anchors from byte 13,312 on.
    pub fn tables(&self) -> &[u8] {
        &self.tables
    }

    pub fn area(&self) -> &[u8] {
        &self.area
    }

    pub fn transaction(&self) -> &Transaction {
        &self.state.transaction
    }

    pub fn reader(&self) -> &Reader {
        &self.state.reader
    }

    /// The ranges that the reader holds.
    pub fn ranges(&self) -> &[Range] {
        let s = &self.state.reader.reader_state;
        &s.ranges[..s.len.min(RANGES)]
    }

    on_transaction! {
        open = ext_open;
        /// Sets the mark, and ends nothing.
        commit = ext_commit;
        rollback = ext_rollback;
        /// A rollback, unless the mark was ever set.
        close = ext_close;
        clear = ext_clear;
    }

    /// The front anchor goes, and is answered with its author.
    pub fn pop_front(&mut self) -> Result<Option<(CachedAnchor, [u8; 32])>, Refused> {
        let a = unsafe { raw::ext_pop_front(&mut self.state.transaction, self.tables.as_ptr(), self.tables.len(), self.area.as_ptr(), self.area.len()) };
        done(a.number, a.found.then_some((a.anchor, a.author)))
    }

    /// Cached anchors and history above `ct` go from the back; the last entry that is left is answered.
    pub fn remove_last_imported_above(&mut self, ct: ChainTime) -> Result<Option<(AnchorInfo, [u8; 32])>, Refused> {
        let a = unsafe { raw::ext_remove_last_imported_above(&mut self.state.transaction, self.tables.as_ptr(), self.tables.len(), self.area.as_ptr(), self.area.len(), ct) };
        done(a.number, a.found.then_some((a.info, a.author)))
    }

    /// An anchor with its messages, 33 bytes each.
    pub fn add(&mut self, anchor: MempoolAnchor, our_exts_count: u32, messages: &[u8]) -> Result<(), Refused> {
        let number = unsafe {
            raw::ext_add(&mut self.state.transaction, self.tables.as_mut_ptr(), self.tables.len(), self.area.as_mut_ptr(), self.area.len(), anchor, our_exts_count, messages.as_ptr(), messages.len())
        };
        done(number, ())
    }

    /// An entry to the history alone.
    pub fn add_imported_anchor_info(&mut self, entry: HistoryEntry) -> Result<(), Refused> {
        let number = unsafe { raw::ext_add_imported_anchor_info(&mut self.state.transaction, self.tables.as_mut_ptr(), self.tables.len(), self.area.as_ptr(), self.area.len(), entry) };
        done(number, ())
    }

    pub fn last_imported_anchor_info(&self) -> Result<Option<(AnchorInfo, [u8; 32])>, Refused> {
        let a = unsafe { raw::ext_last_imported_anchor_info(self.tables.as_ptr(), self.tables.len(), self.state.transaction) };
        done(a.number, a.found.then_some((a.info, a.author)))
    }

    pub fn last_imported_anchor_info_at_ct(&self, ct: ChainTime) -> Result<Option<(AnchorInfo, [u8; 32])>, Refused> {
        let a = unsafe { raw::ext_last_imported_anchor_info_at_ct(self.tables.as_ptr(), self.tables.len(), self.state.transaction, ct) };
        done(a.number, a.found.then_some((a.info, a.author)))
    }

    /// The cached anchor at an index, the front at 0.
    pub fn get(&self, index: usize) -> Result<Option<(CachedAnchor, [u8; 32])>, Refused> {
        let a = unsafe { raw::ext_get(self.tables.as_ptr(), self.tables.len(), self.state.transaction, index) };
        done(a.number, a.found.then_some((a.anchor, a.author)))
    }

    pub fn cache_has_pending_externals(&self) -> Result<bool, Refused> {
        flag(unsafe { raw::ext_cache_has_pending_externals(self.tables.as_ptr(), self.tables.len(), self.state.transaction) })
    }

    pub fn check_has_pending_externals_in_range(&self, up_to: ExternalKey) -> Result<bool, Refused> {
        flag(unsafe { raw::ext_check_has_pending_externals_in_range(self.tables.as_ptr(), self.tables.len(), self.state.transaction, up_to) })
    }

    /// Reads all ranges: the counts, the free places of the last range read (none if no range was), and the used part
    /// of `out`, which holds the entries.
    pub fn read_into_buffers<'o>(&mut self, mode: Mode, routes: &[u8], out: &'o mut [u8]) -> Result<(Counts, Option<u16>, &'o [u8]), Refused> {
        let a = unsafe {
            raw::ext_read_into_buffers(&mut *self.state, out.as_mut_ptr(), out.len(), self.tables.as_ptr(), self.tables.len(), self.area.as_ptr(), self.area.len(), routes.as_ptr(), routes.len(), mode == Mode::Refill)
        };
        done(a.number, (a.counts, a.free.present.then_some(a.free.places), &out[..a.used]))
    }

    /// Reads one range, which the host holds itself; the pops are made on the cache.
    pub fn read_externals_into_buffers(&mut self, range: &mut Range, settings: RangeSettings, routes: &[u8], out: &mut [u8]) -> Result<RangeAnswer, Refused> {
        let mut e = RangeAndCache { transaction: self.state.transaction, range: *range };
        let a = unsafe {
            raw::ext_read_externals_into_buffers(&mut e, out.as_mut_ptr(), out.len(), self.tables.as_ptr(), self.tables.len(), self.area.as_ptr(), self.area.len(), routes.as_ptr(), routes.len(), settings)
        };
        self.state.transaction = e.transaction;
        *range = e.range;
        done(a.number, a)
    }

    on_reader! {
        set_buffer_limits_by_partition(limits: BufferLimits) = ext_set_buffer_limits_by_partition;
        reset_read_state() = ext_reset_read_state;
        drop_last_read_to_anchor_chain_time() = ext_drop_last_read_to_anchor_chain_time;
        finalize() = ext_finalize;
        retain_only_last_range_state() = ext_retain_only_last_range_state;
        set_from_to_current_position_in_last_range_state() = ext_set_from_to_current_position_in_last_range_state;
        increment_curr_processed_offset(par_id: u8) = ext_increment_curr_processed_offset;
        drop_processing_offset(par_id: u8, drop_skip_offset: bool) = ext_drop_processing_offset;
        set_skip_processed_offset_to_current(par_id: u8) = ext_set_skip_processed_offset_to_current;
        set_processed_to_current_position(par_id: u8) = ext_set_processed_to_current_position;
        /// The host's report: how many messages it took of a range's partition.
        messages_taken(seqno: u32, par_id: u8, taken: u32) = ext_messages_taken;
    }

    of_reader! {
        open_ranges_limit_reached() = ext_open_ranges_limit_reached;
        has_non_zero_processed_offset() = ext_has_non_zero_processed_offset;
        last_range_offset_reached(par_id: u8) = ext_last_range_offset_reached;
        last_range_offsets_reached_in_all_partitions() = ext_last_range_offsets_reached_in_all_partitions;
        has_messages_in_buffers() = ext_has_messages_in_buffers;
        has_not_fully_read_ranges() = ext_has_not_fully_read_ranges;
        all_ranges_read_and_collected() = ext_all_ranges_read_and_collected;
        check_all_ranges_read_and_collected() = ext_check_all_ranges_read_and_collected;
        all_read_externals_collected() = ext_all_read_externals_collected;
    }

    pub fn has_pending_externals(&self) -> Result<bool, Refused> {
        flag(unsafe { raw::ext_has_pending_externals(self.tables.as_ptr(), self.tables.len(), self.state.transaction, self.state.reader) })
    }

    /// Each present partition's number of messages in the buffers.
    pub fn count_messages_in_buffers_by_partitions(&self) -> Result<[Option<u32>; PARTITIONS], Refused> {
        by_partitions(unsafe { raw::ext_count_messages_in_buffers_by_partitions(self.state.reader) })
    }

    pub fn get_last_range_state_offsets_by_partitions(&self) -> Result<[Option<u32>; PARTITIONS], Refused> {
        by_partitions(unsafe { raw::ext_get_last_range_state_offsets_by_partitions(self.state.reader) })
    }

    pub fn get_partition_ids(&self) -> Result<[bool; PARTITIONS], Refused> {
        let p = unsafe { raw::ext_get_partition_ids(self.state.reader) };
        done(p.number, p.present)
    }

    pub fn create_next_externals_range_state(&self) -> Result<Range, Refused> {
        let n = unsafe { raw::ext_create_next_externals_range_state(self.state.reader) };
        done(n.number, n.range)
    }
}

fn by_partitions(b: ByPartitions) -> Result<[Option<u32>; PARTITIONS], Refused> {
    done(b.number, std::array::from_fn(|i| b.present[i].then_some(b.values[i])))
}
