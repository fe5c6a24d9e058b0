//! Looks at the private parts of the cache and of its transaction. Nothing here changes them
//! except by the original functions, apart from `put_history` and `put_cached`.

use super::*;

/// The cache, reached through the open transaction where there is one.
pub enum View<'x, 'c> {
    Closed(&'x mut AnchorsCache),
    Open(&'x mut AnchorsCacheTransaction<'c>),
}

impl View<'_, '_> {
    pub fn cache(&self) -> &AnchorsCache {
        match self {
            Self::Closed(cache) => cache,
            Self::Open(tx) => cache_of(tx),
        }
    }
    pub fn pop_front(&mut self) -> Option<(MempoolAnchorId, Arc<MempoolAnchor>)> {
        match self {
            Self::Closed(cache) => cache.pop_front(),
            Self::Open(tx) => tx.pop_front(),
        }
    }
    pub fn remove_last_imported_above(&mut self, ct: u64) {
        match self {
            Self::Closed(cache) => {
                cache.remove_last_imported_above(ct);
            }
            Self::Open(tx) => tx.remove_last_imported_above(ct),
        }
    }
}

pub fn history(c: &AnchorsCache) -> &VecDeque<AnchorInfo> {
    &c.imported_anchors_info_history
}
pub fn cached_len(c: &AnchorsCache) -> usize {
    c.cache.len()
}
pub fn last_cached_id(c: &AnchorsCache) -> Option<MempoolAnchorId> {
    c.cache.back().map(|(id, _)| *id)
}
pub fn cached_messages(c: &AnchorsCache) -> usize {
    c.cache.iter().map(|(_, ca)| ca.anchor.externals.len()).sum()
}
/// The present cache of an open transaction.
pub fn cache_of<'x>(tx: &'x AnchorsCacheTransaction<'_>) -> &'x AnchorsCache {
    tx.cache
}
pub fn committed(tx: &AnchorsCacheTransaction<'_>) -> bool {
    tx.committed
}
/// The same open transaction over a copy of its present cache.
pub fn fork<'c>(
    tx: &AnchorsCacheTransaction<'_>,
    copy: &'c mut AnchorsCache,
) -> AnchorsCacheTransaction<'c> {
    AnchorsCacheTransaction { cache: copy, undo_log: tx.undo_log.clone(), committed: tx.committed }
}
/// A message's 33 bytes, workchain first.
pub fn message_bytes(m: &crate::mempool::ExternalMessage) -> [u8; 33] {
    let dst = m.info.dst.as_std().expect("only standard addresses are made here");
    let mut bytes = [dst.workchain as u8; 33];
    bytes[1..].copy_from_slice(&dst.address.0);
    bytes
}

/// All that can be told of a cache, for comparing.
pub fn dump(c: &AnchorsCache) -> String {
    let cached: Vec<_> = c
        .cache
        .iter()
        .map(|(id, ca)| (*id, ca.anchor.chain_time, ca.anchor.externals.len(), ca.our_exts_count))
        .collect();
    let history: Vec<_> =
        history(c).iter().map(|i| (i.id, i.ct, i.all_exts_count, i.our_exts_count)).collect();
    format!("cached {cached:?} history {history:?} pending {}", c.has_pending_externals)
}

/// Bytes as a number: for each byte, times 31 plus the byte, in 32 bits.
fn digest(start: u64, bytes: &[u8]) -> u64 {
    bytes.iter().fold(start, |d, b| (d * 31 + u64::from(*b)) % (1 << 32))
}

/// The cache in lines for comparing with a port.
pub fn lines(c: &AnchorsCache) -> String {
    let mut out = String::from("S cached");
    for (id, ca) in &c.cache {
        let a = &ca.anchor;
        let author = digest(0, &a.author.0);
        let d = a.externals.iter().fold(author, |d, m| digest(d, &message_bytes(m)));
        out += &format!(" {id}:{}:{}:{}:{d}", a.chain_time, a.externals.len(), ca.our_exts_count);
    }
    out += "\nS history";
    for i in history(c) {
        let d = digest(0, &i.author.0);
        out += &format!(" {}:{}:{}:{}:{d}", i.id, i.ct, i.all_exts_count, i.our_exts_count);
    }
    out + &format!("\nS pending {}\n", u8::from(c.has_pending_externals))
}

/// A history entry or a cached anchor as it stands, without `add`: for states that are
/// handed in and not reached by calls.
pub fn put_history(c: &mut AnchorsCache, info: AnchorInfo) {
    c.imported_anchors_info_history.push_back(info);
}
pub fn put_cached(c: &mut AnchorsCache, anchor: Arc<MempoolAnchor>, our_exts_count: usize) {
    c.cache.push_back((anchor.id, CachedAnchor { anchor, our_exts_count }));
    c.has_pending_externals = true;
}
