//! Shim of `indexmap`: a map in the order of insertion, its entries in a `Vec` and their places in a
//! hash map of the standard library; the set is a `Vec` with linear search.
use std::collections::HashMap;
use std::collections::hash_map;
use std::hash::{BuildHasher, Hash};
use std::marker::PhantomData;

#[derive(Clone)]
pub struct IndexMap<K, V, S> {
    items: Vec<(K, V)>,
    places: HashMap<K, usize, S>,
}
impl<K, V, S: Default> Default for IndexMap<K, V, S> {
    fn default() -> Self {
        Self { items: Vec::new(), places: HashMap::default() }
    }
}
impl<K: Eq + Hash + Copy, V, S: BuildHasher> IndexMap<K, V, S> {
    pub fn with_capacity_and_hasher(n: usize, s: S) -> Self {
        Self { items: Vec::with_capacity(n), places: HashMap::with_capacity_and_hasher(n, s) }
    }
    fn pos(&self, k: &K) -> Option<usize> {
        self.places.get(k).copied()
    }
    pub fn len(&self) -> usize {
        self.items.len()
    }
    pub fn is_empty(&self) -> bool {
        self.items.is_empty()
    }
    pub fn keys(&self) -> impl Iterator<Item = &K> {
        self.items.iter().map(|(k, _)| k)
    }
    pub fn iter(&self) -> impl Iterator<Item = (&K, &V)> {
        self.items.iter().map(|(k, v)| (k, v))
    }
    pub fn get(&self, k: &K) -> Option<&V> {
        self.pos(k).map(|i| &self.items[i].1)
    }
    pub fn get_mut(&mut self, k: &K) -> Option<&mut V> {
        self.pos(k).map(|i| &mut self.items[i].1)
    }
    pub fn get_index(&self, i: usize) -> Option<(&K, &V)> {
        self.items.get(i).map(|(k, v)| (k, v))
    }
    pub fn insert(&mut self, k: K, v: V) -> Option<V> {
        match self.entry(k) {
            map::Entry::Occupied(o) => Some(std::mem::replace(o.v, v)),
            map::Entry::Vacant(vacant) => {
                vacant.insert(v);
                None
            }
        }
    }
    pub fn swap_remove(&mut self, k: &K) -> Option<V> {
        let i = self.places.remove(k)?;
        let (_, v) = self.items.swap_remove(i);
        if let Some((moved, _)) = self.items.get(i) {
            self.places.insert(*moved, i);
        }
        Some(v)
    }
    pub fn retain(&mut self, mut f: impl FnMut(&K, &mut V) -> bool) {
        self.items.retain_mut(|(k, v)| f(k, v));
        self.places.clear();
        self.places.extend(self.items.iter().enumerate().map(|(i, (k, _))| (*k, i)));
    }
    pub fn entry(&mut self, k: K) -> map::Entry<'_, K, V> {
        match self.places.entry(k) {
            hash_map::Entry::Occupied(o) => map::Entry::Occupied(map::OccupiedEntry {
                v: &mut self.items[*o.get()].1,
                _k: PhantomData,
            }),
            hash_map::Entry::Vacant(place) => {
                map::Entry::Vacant(map::VacantEntry { items: &mut self.items, place })
            }
        }
    }
}

pub mod map {
    use std::collections::hash_map;
    use std::marker::PhantomData;
    pub enum Entry<'a, K, V> {
        Occupied(OccupiedEntry<'a, K, V>),
        Vacant(VacantEntry<'a, K, V>),
    }
    pub struct OccupiedEntry<'a, K, V> {
        pub(crate) v: &'a mut V,
        pub(crate) _k: PhantomData<K>,
    }
    impl<K, V> OccupiedEntry<'_, K, V> {
        pub fn get(&self) -> &V {
            self.v
        }
        pub fn get_mut(&mut self) -> &mut V {
            self.v
        }
    }
    pub struct VacantEntry<'a, K, V> {
        pub(crate) items: &'a mut Vec<(K, V)>,
        pub(crate) place: hash_map::VacantEntry<'a, K, usize>,
    }
    impl<'a, K: Copy, V> VacantEntry<'a, K, V> {
        pub fn insert(self, v: V) -> &'a mut V {
            let k = *self.place.key();
            self.place.insert(self.items.len());
            self.items.push((k, v));
            &mut self.items.last_mut().unwrap().1
        }
    }
}

pub struct IndexSet<K, S> {
    items: Vec<K>,
    _s: PhantomData<S>,
}
impl<K, S> Default for IndexSet<K, S> {
    fn default() -> Self {
        Self { items: Vec::new(), _s: PhantomData }
    }
}
impl<K: std::fmt::Debug, S> std::fmt::Debug for IndexSet<K, S> {
    fn fmt(&self, f: &mut std::fmt::Formatter<'_>) -> std::fmt::Result {
        f.debug_set().entries(&self.items).finish()
    }
}
impl<K: Eq, S> IndexSet<K, S> {
    pub fn insert(&mut self, k: K) -> bool {
        let new = !self.items.contains(&k);
        if new {
            self.items.push(k);
        }
        new
    }
    pub fn is_empty(&self) -> bool {
        self.items.is_empty()
    }
    pub fn retain(&mut self, f: impl FnMut(&K) -> bool) {
        self.items.retain(f);
    }
}
impl<'a, K, S> IntoIterator for &'a IndexSet<K, S> {
    type Item = &'a K;
    type IntoIter = std::slice::Iter<'a, K>;
    fn into_iter(self) -> Self::IntoIter {
        self.items.iter()
    }
}
