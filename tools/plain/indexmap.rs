//! Maps and sets in order of insertion: keys and values in a vector each, and their places in a hash table of Rust's library, by a hash of one
//! multiplication for each eight bytes, as Rattle's library has it.

use crate::alloc::{AllocError, Global};
use std::borrow::Borrow;
use std::collections::HashMap;
use std::hash::{BuildHasherDefault, Hash, Hasher};
use std::ops::{Index, IndexMut};

#[derive(Clone, Copy)]
pub struct FoldHasher(u64);

impl Default for FoldHasher {
    fn default() -> FoldHasher {
        FoldHasher(0x243f_6a88_85a3_08d3)
    }
}

impl FoldHasher {
    fn fold(&mut self, word: u64) {
        let product = u128::from(self.0 ^ word) * 0x9e37_79b9_7f4a_7c15;
        self.0 = product as u64 ^ (product >> 64) as u64;
    }
}

impl Hasher for FoldHasher {
    fn write(&mut self, bytes: &[u8]) {
        for piece in bytes.chunks(8) {
            let mut word = [0; 8];
            word[..piece.len()].copy_from_slice(piece);
            self.fold(u64::from_le_bytes(word));
        }
    }

    fn write_u8(&mut self, n: u8) {
        self.fold(u64::from(n));
    }

    fn write_u16(&mut self, n: u16) {
        self.fold(u64::from(n));
    }

    fn write_usize(&mut self, n: usize) {
        self.fold(n as u64);
    }

    fn finish(&self) -> u64 {
        self.0
    }
}

pub struct IndexMap<K, V> {
    keys: Vec<K>,
    values: Vec<V>,
    places: HashMap<K, usize, BuildHasherDefault<FoldHasher>>,
}

impl<K: Eq + Hash + Clone, V> IndexMap<K, V> {
    pub fn new(_: Global) -> IndexMap<K, V> {
        IndexMap {
            keys: Vec::new(),
            values: Vec::new(),
            places: HashMap::default(),
        }
    }

    pub fn len(&self) -> usize {
        self.keys.len()
    }

    pub fn reserve(&mut self, more: usize) -> Result<(), AllocError> {
        self.keys.try_reserve(more).map_err(|_| AllocError)?;
        self.values.try_reserve(more).map_err(|_| AllocError)?;
        self.places.try_reserve(more).map_err(|_| AllocError)
    }

    pub fn get_index_of<Q: ?Sized + Eq + Hash>(&self, key: &Q) -> Option<usize>
    where
        K: Borrow<Q>,
    {
        self.places.get(key).copied()
    }

    pub fn get<Q: ?Sized + Eq + Hash>(&self, key: &Q) -> Option<&V>
    where
        K: Borrow<Q>,
    {
        self.get_index_of(key).map(|at| &self.values[at])
    }

    pub fn get_mut<Q: ?Sized + Eq + Hash>(&mut self, key: &Q) -> Option<&mut V>
    where
        K: Borrow<Q>,
    {
        let at = self.get_index_of(key)?;
        Some(&mut self.values[at])
    }

    pub fn get_index(&self, at: usize) -> Option<(&K, &V)> {
        Some((self.keys.get(at)?, self.values.get(at)?))
    }

    pub fn values(&self) -> impl Iterator<Item = &V> {
        self.values.iter()
    }

    /// What stood there before, if anything did.
    pub fn insert(&mut self, key: K, value: V) -> Result<Option<V>, AllocError> {
        if let Some(at) = self.get_index_of(&key) {
            return Ok(Some(std::mem::replace(&mut self.values[at], value)));
        }
        self.reserve(1)?;
        self.places.insert(key.clone(), self.keys.len());
        self.keys.push(key);
        self.values.push(value);
        Ok(None)
    }

    pub fn shift_remove(&mut self, key: &K) -> Option<V> {
        let at = self.get_index_of(key)?;
        Some(self.shift_remove_index(at)?.1)
    }

    pub fn shift_remove_index(&mut self, at: usize) -> Option<(K, V)> {
        if at >= self.keys.len() {
            return None;
        }
        let entry = (self.keys.remove(at), self.values.remove(at));
        self.places.remove(&entry.0);
        for place in self.places.values_mut() {
            *place -= usize::from(*place > at);
        }
        Some(entry)
    }
}

impl<K, V> Index<usize> for IndexMap<K, V> {
    type Output = V;

    fn index(&self, at: usize) -> &V {
        &self.values[at]
    }
}

impl<K, V> IndexMut<usize> for IndexMap<K, V> {
    fn index_mut(&mut self, at: usize) -> &mut V {
        &mut self.values[at]
    }
}

pub struct IndexSet<K>(IndexMap<K, ()>);

impl<K: Eq + Hash + Clone> IndexSet<K> {
    pub fn new(alloc: Global) -> IndexSet<K> {
        IndexSet(IndexMap::new(alloc))
    }

    pub fn len(&self) -> usize {
        self.0.len()
    }

    pub fn get_index_of<Q: ?Sized + Eq + Hash>(&self, key: &Q) -> Option<usize>
    where
        K: Borrow<Q>,
    {
        self.0.get_index_of(key)
    }

    pub fn contains<Q: ?Sized + Eq + Hash>(&self, key: &Q) -> bool
    where
        K: Borrow<Q>,
    {
        self.get_index_of(key).is_some()
    }

    pub fn as_slice(&self) -> &[K] {
        &self.0.keys
    }

    pub fn retain(&mut self, stays: impl FnMut(&K) -> bool) {
        self.0.keys.retain(stays);
        self.0.values.resize(self.0.keys.len(), ());
        self.0.places = self.0.keys.iter().cloned().zip(0..).collect();
    }

    /// Whether it is new.
    pub fn insert(&mut self, key: K) -> Result<bool, AllocError> {
        Ok(self.0.insert(key, ())?.is_none())
    }
}

impl<K> Index<usize> for IndexSet<K> {
    type Output = K;

    fn index(&self, at: usize) -> &K {
        &self.0.keys[at]
    }
}
