//! The structs of `externals.h`, with the same layout.

/// Chain time, in milliseconds.
#[repr(C)]
#[derive(Clone, Copy, Debug, Default, PartialEq, Eq, PartialOrd, Ord)]
pub struct ChainTime(pub u64);

/// An expiry timeout, in whole seconds.
#[repr(C)]
#[derive(Clone, Copy, Debug, Default, PartialEq, Eq, PartialOrd, Ord)]
pub struct Seconds(pub u32);

pub const PARTITIONS: usize = 8;
pub const RANGES: usize = 16;
pub const TABLES_BYTES: usize = 14_912;
pub const AREA_BYTES: usize = 33_792;
pub const MESSAGE_BYTES: usize = 33;
pub const ROUTE_BYTES: usize = 34;
pub const ENTRY_BYTES: usize = 26;
/// The partition has no limit, that is no entry.
pub const NO_LIMIT: u16 = 65_535;
/// The most that a transaction's undo log takes, whatever the cache holds: the transaction without its cache.
pub const LOG_BYTES: usize = 64;

const _: () = assert!(std::mem::size_of::<Transaction>() - std::mem::size_of::<AnchorsCache>() <= LOG_BYTES);

macro_rules! plain {
    ($($(#[$m:meta])* pub struct $name:ident { $(pub $field:ident: $ty:ty,)* } $size:literal)*) => { $(
        $(#[$m])*
        #[repr(C)]
        #[derive(Clone, Copy, Debug, Default, PartialEq, Eq)]
        pub struct $name { $(pub $field: $ty,)* }
        // The layout that the library was compiled for.
        const _: () = assert!(std::mem::size_of::<$name>() == $size);
    )* };
}

plain! {
    /// The place after a message that was read.
    pub struct ExternalKey { pub anchor_id: u32, pub msgs_offset: u64, } 16
    /// The lowest set bit of the prefix ends it; workchain -1 has the prefix 0x8000000000000000 alone (else 2).
    pub struct ShardIdent { pub workchain: i32, pub prefix: u64, } 16
    /// Where the cached anchors and the history stand in the tables, in rows, and the first message in the area.
    pub struct AnchorsCache { pub first: usize, pub len: usize, pub history_first: usize, pub history_len: usize, pub base: usize, pub pending: bool, } 48
    pub struct Transaction { pub cache: AnchorsCache, pub undo: AnchorsCache, pub active: bool, pub committed: bool, } 104
    /// An anchor as it is imported.
    pub struct MempoolAnchor { pub id: u32, pub chain_time: ChainTime, pub author: [u8; 32], } 48
    /// A cached anchor; its messages stand in the area from `place` on, in messages.
    pub struct CachedAnchor { pub id: u32, pub chain_time: ChainTime, pub ours: u32, pub count: usize, pub place: usize, } 40
    /// An entry of the imported history.
    pub struct AnchorInfo { pub id: u32, pub ct: ChainTime, pub all_exts_count: u32, pub our_exts_count: u32, } 24
    /// A history entry with its author.
    pub struct HistoryEntry { pub info: AnchorInfo, pub author: [u8; 32], } 56
    pub struct RangePartition { pub count: u32, pub skip_offset: u32, pub processed_offset: u32, pub present: bool, } 16
    pub struct Range { pub seqno: u32, pub from: ExternalKey, pub to: ExternalKey, pub current_position: ExternalKey, pub chain_time: ChainTime, pub fully_read: bool, pub by_partitions: [RangePartition; PARTITIONS], } 200
    pub struct Partition { pub processed_to: ExternalKey, pub curr_processed_offset: u32, pub present: bool, } 24
    pub struct SavedTime { pub present: bool, pub time: ChainTime, } 16
    /// `len` ranges, by rising seqno. The default has no range and no partition.
    pub struct ReaderState { pub ranges: [Range; RANGES], pub len: usize, pub by_partitions: [Partition; PARTITIONS], pub last_read_to_anchor_chain_time: SavedTime, } 3416
    /// `new_is_some`: new settings wait.
    pub struct Params { pub externals_expire_timeout: Seconds, pub open_ranges_limit: u8, pub new_is_some: bool, } 8
    pub struct Reader { pub for_shard_id: ShardIdent, pub block_seqno: u32, pub next_chain_time: ChainTime, pub msgs_exec_params: Params, pub buffer_limits_by_partitions: [u16; PARTITIONS], pub reader_state: ReaderState, pub all_ranges_fully_read: bool, } 3480
    pub struct State { pub transaction: Transaction, pub reader: Reader, } 3584
    pub struct RangeAndCache { pub transaction: Transaction, pub range: Range, } 304
    pub struct ProcessedTo { pub key: ExternalKey, pub present: bool, } 24
    /// What a read of one range is told. `to_previous`: only to the end that was read to before.
    pub struct RangeSettings { pub shard: ShardIdent, pub limits: [u16; PARTITIONS], pub processed: [ProcessedTo; PARTITIONS], pub timeout: Seconds, pub to_previous: bool, } 232
    pub struct BufferLimits { pub by_partitions: [u16; PARTITIONS], } 16
    /// Messages of ours per partition.
    pub struct Counts { pub read: [u32; PARTITIONS], pub expired: [u32; PARTITIONS], pub buffered: [u32; PARTITIONS], } 96
    pub struct Flag { pub number: u8, pub flag: bool, } 2
    pub struct AnchorShown { pub number: u8, pub found: bool, pub anchor: CachedAnchor, pub author: [u8; 32], } 80
    pub struct InfoShown { pub number: u8, pub found: bool, pub info: AnchorInfo, pub author: [u8; 32], } 64
    pub struct PartitionShown { pub number: u8, pub partition: u8, } 2
    /// The free places of a range: the fewest that one of its buffers has left; 1,024 where it has no partition.
    pub struct FreeAnswer { pub number: u8, pub free: u16, } 4
    /// Those of the last range that a read of all ranges has read; not present where it read none.
    pub struct Free { pub present: bool, pub places: u16, } 4
    pub struct AllAnswer { pub number: u8, pub free: Free, pub used: usize, pub counts: Counts, } 112
    pub struct RangeAnswer { pub number: u8, pub free: u16, pub last_chain_time: SavedTime, pub pops: usize, pub used: usize, pub counts: Counts, } 136
    pub struct ByPartitions { pub number: u8, pub values: [u32; PARTITIONS], pub present: [bool; PARTITIONS], } 44
    pub struct PartitionIds { pub number: u8, pub present: [bool; PARTITIONS], } 9
    pub struct NextRange { pub number: u8, pub range: Range, } 208
}
