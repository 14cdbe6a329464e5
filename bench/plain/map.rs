//! A map that keeps the order in which keys came, since the standard library has none: a list of entries, and a table of their indexes that is
//! probed in a line. Hashed with a key, as `HashMap` is.

use std::borrow::Borrow;
use std::collections::hash_map::RandomState;
use std::hash::{BuildHasher, Hash, Hasher};
use std::ops::Index;

const FREE: u32 = u32::MAX;

#[derive(Clone)]
pub struct Map<K, V> {
    entries: Vec<(K, V)>,
    /// Some bits of each hash, with the index of its entry; a power of two of them, or none.
    table: Vec<(u32, u32)>,
    state: RandomState,
}

impl<K, V> Default for Map<K, V> {
    fn default() -> Self {
        Map { entries: Vec::new(), table: Vec::new(), state: RandomState::new() }
    }
}

impl<K, V> Map<K, V> {
    pub fn new() -> Self {
        Self::default()
    }
    pub fn len(&self) -> usize {
        self.entries.len()
    }
    pub fn is_empty(&self) -> bool {
        self.entries.is_empty()
    }
    pub fn iter(&self) -> impl Iterator<Item = (&K, &V)> {
        self.entries.iter().map(|e| (&e.0, &e.1))
    }
    pub fn keys(&self) -> impl Iterator<Item = &K> {
        self.entries.iter().map(|e| &e.0)
    }
    pub fn values(&self) -> impl Iterator<Item = &V> {
        self.entries.iter().map(|e| &e.1)
    }
    pub fn values_mut(&mut self) -> impl Iterator<Item = &mut V> {
        self.entries.iter_mut().map(|e| &mut e.1)
    }
    pub fn get_index(&self, at: usize) -> Option<(&K, &V)> {
        self.entries.get(at).map(|e| (&e.0, &e.1))
    }
}

impl<K: Hash + Eq, V> Map<K, V> {
    fn hash<Q: Hash + ?Sized>(&self, key: &Q) -> u32 {
        let mut hasher = self.state.build_hasher();
        key.hash(&mut hasher);
        let n = hasher.finish();
        n as u32 ^ (n >> 32) as u32
    }
    /// The place in the table of an equal key, or the free place where it belongs.
    fn place<Q: Eq + ?Sized>(&self, hash: u32, key: &Q) -> usize
    where
        K: Borrow<Q>,
    {
        let mask = self.table.len() - 1;
        let mut at = hash as usize & mask;
        loop {
            let (other, entry) = self.table[at];
            if entry == FREE || other == hash && self.entries[entry as usize].0.borrow() == key {
                return at;
            }
            at = (at + 1) & mask;
        }
    }
    /// Room for one entry more: at most three quarters of the table are taken.
    fn grow(&mut self) {
        if (self.entries.len() + 1) * 4 <= self.table.len() * 3 {
            return;
        }
        let size = (self.table.len() * 2).max(4);
        let old = std::mem::replace(&mut self.table, vec![(0, FREE); size]);
        for (hash, entry) in old {
            if entry != FREE {
                let mut at = hash as usize & (size - 1);
                while self.table[at].1 != FREE {
                    at = (at + 1) & (size - 1);
                }
                self.table[at] = (hash, entry);
            }
        }
    }
    pub fn get<Q: Hash + Eq + ?Sized>(&self, key: &Q) -> Option<&V>
    where
        K: Borrow<Q>,
    {
        if self.entries.is_empty() {
            return None;
        }
        match self.table[self.place(self.hash(key), key)].1 {
            FREE => None,
            entry => Some(&self.entries[entry as usize].1),
        }
    }
    /// The place of a key's entry.
    pub fn index_of<Q: Hash + Eq + ?Sized>(&self, key: &Q) -> Option<usize>
    where
        K: Borrow<Q>,
    {
        if self.entries.is_empty() {
            return None;
        }
        match self.table[self.place(self.hash(key), key)].1 {
            FREE => None,
            entry => Some(entry as usize),
        }
    }
    pub fn contains_key<Q: Hash + Eq + ?Sized>(&self, key: &Q) -> bool
    where
        K: Borrow<Q>,
    {
        self.get(key).is_some()
    }
    /// Puts an entry last, or a new value in the place of an old one, which it answers.
    pub fn insert(&mut self, key: K, value: V) -> Option<V> {
        self.grow();
        let hash = self.hash(&key);
        let at = self.place(hash, &key);
        match self.table[at].1 {
            FREE => {
                self.table[at] = (hash, self.entries.len() as u32);
                self.entries.push((key, value));
                None
            }
            entry => Some(std::mem::replace(&mut self.entries[entry as usize].1, value)),
        }
    }
    /// Puts an entry last where the key has none.
    pub fn add(&mut self, key: K, value: V) {
        if !self.contains_key(&key) {
            self.insert(key, value);
        }
    }
}

impl<K, V> IntoIterator for Map<K, V> {
    type Item = (K, V);
    type IntoIter = std::vec::IntoIter<(K, V)>;
    fn into_iter(self) -> Self::IntoIter {
        self.entries.into_iter()
    }
}

impl<'a, K, V> IntoIterator for &'a Map<K, V> {
    type Item = (&'a K, &'a V);
    type IntoIter = std::iter::Map<std::slice::Iter<'a, (K, V)>, fn(&'a (K, V)) -> (&'a K, &'a V)>;
    fn into_iter(self) -> Self::IntoIter {
        self.entries.iter().map(|e| (&e.0, &e.1))
    }
}

impl<K: Hash + Eq, V> Extend<(K, V)> for Map<K, V> {
    fn extend<I: IntoIterator<Item = (K, V)>>(&mut self, new: I) {
        for (key, value) in new {
            self.insert(key, value);
        }
    }
}

impl<K: Hash + Eq, V> FromIterator<(K, V)> for Map<K, V> {
    fn from_iter<I: IntoIterator<Item = (K, V)>>(new: I) -> Self {
        let mut map = Self::new();
        map.extend(new);
        map
    }
}

impl<Q: Hash + Eq + ?Sized, K: Hash + Eq + Borrow<Q>, V> Index<&Q> for Map<K, V> {
    type Output = V;
    fn index(&self, key: &Q) -> &V {
        self.get(key).expect("a key of the map")
    }
}
