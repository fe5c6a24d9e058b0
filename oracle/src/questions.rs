//! What document 01 asks before a call and the original does not, and the original's types
//! made from plain values.

use std::sync::Arc;

use tycho_network::PeerId;
use tycho_types::cell::{Cell, CellName, HashBytes};
use tycho_types::models::{ExtInMsgInfo, IntAddr};

use crate::collator::anchors_cache::{AnchorsCache, hook};
use crate::mempool::{ExternalMessage, MempoolAnchor};
use crate::records::{Anchor, Message};

/// 0, or the number of the first question answered "no".
pub type Number = u8;

/// Question 1: the least number of bytes in the message area.
pub const AREA: usize = 33_792;
/// Question 2: the workchain that is never split, and the prefix of a whole workchain.
pub const MASTERCHAIN: i32 = -1;
pub const PREFIX_FULL: u64 = 0x8000_0000_0000_0000;
pub const MAX_LIMIT: u16 = 1024;
pub const MAX_OPEN_RANGES: u8 = 16;
pub const MAX_ROUTES: usize = 256;
pub const MAX_RANGES: usize = 16;
pub const MAX_HISTORY: usize = 256;
pub const MAX_CACHED: usize = 32;
pub const MAX_MESSAGES: usize = 1024;
pub const MAX_MESSAGES_IN_ANCHOR: usize = 512;

/// Questions 6 to 9 of an added anchor.
pub fn ask_add(cache: &AnchorsCache, open: bool, id: u32, ours: u32, count: usize) -> Number {
    if count > MAX_MESSAGES_IN_ANCHOR || ours as usize > count {
        6
    } else if hook::last_cached_id(cache).is_some_and(|last| id <= last) {
        7
    } else if hook::history(cache).len() >= MAX_HISTORY || ours > 0 && !has_place(cache, count) {
        8
    } else if open {
        9
    } else {
        0
    }
}

/// Has the cache a place for one more anchor with this many messages?
pub fn has_place(cache: &AnchorsCache, count: usize) -> bool {
    hook::cached_len(cache) < MAX_CACHED && hook::cached_messages(cache) + count <= MAX_MESSAGES
}

/// The original's anchor; `serial` makes the names of the messages' cells differ from those
/// of any other anchor.
pub fn mempool_anchor(serial: u64, a: &Anchor) -> Arc<MempoolAnchor> {
    let external = |(offset, (workchain, account)): (u64, &Message)| {
        Arc::new(ExternalMessage {
            cell: Cell::named(CellName { serial, anchor_id: a.id, offset }),
            info: ExtInMsgInfo { dst: IntAddr::from((*workchain, HashBytes(*account))) },
        })
    };
    Arc::new(MempoolAnchor {
        id: a.id,
        prev_id: None,
        author: PeerId(a.author),
        chain_time: a.chain_time,
        externals: (1..).zip(&a.messages).map(external).collect(),
    })
}
