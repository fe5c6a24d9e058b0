//! The shape of `crate::collator` around the original text.

pub mod anchors_cache;
pub mod messages_buffer {
    include!(concat!(env!("OUT_DIR"), "/seed/messages_buffer.rs"));
}
pub mod messages_reader;
pub mod types {
    use std::collections::BTreeMap;
    use std::sync::Arc;

    use anyhow::Result;
    use parking_lot::lock_api::RwLockReadGuard;
    use parking_lot::{MappedRwLockReadGuard, RwLock};
    use tycho_block_util::queue::QueuePartitionIdx;
    use tycho_types::cell::Cell;
    use tycho_types::models::{ExtInMsgInfo, IntMsgInfo, MsgInfo, MsgsExecutionParams};

    use crate::types::processed_upto::BlockSeqno;

    include!(concat!(env!("OUT_DIR"), "/seed/collator_types.rs"));
}
/// Not in the sources: only a debug view.
pub mod state {
    use super::messages_reader::state::ext::partition_range_reader::ExternalsPartitionRangeReaderState;

    pub struct DisplayRangeReaderStateByPartition<'a>(pub &'a ExternalsPartitionRangeReaderState);
    impl std::fmt::Debug for DisplayRangeReaderStateByPartition<'_> {
        fn fmt(&self, f: &mut std::fmt::Formatter<'_>) -> std::fmt::Result {
            write!(
                f,
                "{} messages, skip {}, processed {}",
                self.0.buffer.msgs_count(),
                *self.0.skip_offset,
                *self.0.processed_offset,
            )
        }
    }
}
