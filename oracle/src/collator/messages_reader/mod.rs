//! The shape of `crate::collator::messages_reader` around the original text.

use std::collections::{BTreeMap, btree_map};
use std::time::Duration;

use tycho_block_util::queue::QueuePartitionIdx;

use self::internals_reader::InternalsPartitionReader;

pub mod externals_reader;

// GetNextMessageGroupMode, MetricsTimer, MessagesReaderMetrics, MessagesReaderMetricsByPartitions
include!(concat!(env!("OUT_DIR"), "/seed/messages_reader.rs"));

pub mod state {
    use std::collections::BTreeMap;

    include!(concat!(env!("OUT_DIR"), "/seed/ext_mod.rs"));

    /// Not in the sources; only `collect_messages` calls it, and nothing here calls that.
    pub fn with_prev_map_and_current<K: Ord + Copy, V, R, E>(
        map: &mut BTreeMap<K, V>,
        key: K,
        f: impl FnOnce(&BTreeMap<K, V>, &mut V) -> Result<R, E>,
    ) -> Result<R, E> {
        let mut rest = map.split_off(&key);
        let res = f(map, rest.get_mut(&key).expect("current state should exist"));
        map.append(&mut rest);
        res
    }

    /// Not in the sources: a name for a debug view of internals.
    pub mod int {
        #[allow(dead_code)]
        pub struct DebugInternalsRangeReaderState<'a, T>(pub &'a T);
    }
}

/// Not in the sources: the internals, as far as `collect_messages` names them. Never made.
pub mod internals_range_reader {
    pub enum InternalsRangeReaderKind {
        NewMessages,
    }
    pub struct InternalsRangeReader {
        pub kind: InternalsRangeReaderKind,
        pub seqno: u32,
    }
}
/// Not in the sources, as above.
mod internals_reader {
    use std::collections::BTreeMap;
    use std::marker::PhantomData;

    use tycho_types::models::IntAddr;

    use super::internals_range_reader::InternalsRangeReader;
    use crate::collator::messages_buffer::MessagesBuffer;

    pub struct Stats;
    impl Stats {
        pub fn contains(&self, _: &IntAddr) -> bool {
            unreachable!()
        }
    }
    pub struct InternalsRangeState {
        pub buffer: MessagesBuffer,
        pub skip_offset: Box<u32>,
    }
    impl InternalsRangeState {
        pub fn contains_account_addr_in_remaning_msgs_stats(&self, _: &IntAddr) -> bool {
            unreachable!()
        }
    }
    pub struct InternalsState {
        pub ranges: BTreeMap<u32, InternalsRangeState>,
    }
    pub struct InternalsPartitionReader<'a, V> {
        pub reader_state: InternalsState,
        pub remaning_msgs_stats: Option<Stats>,
        pub _p: PhantomData<&'a V>,
    }
    impl<V> InternalsPartitionReader<'_, V> {
        pub fn range_readers(&self) -> &BTreeMap<u32, InternalsRangeReader> {
            unreachable!()
        }
    }
}
