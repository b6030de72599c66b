//! Stand-in for `ahash`: hash maps and sets with a small fixed hasher.
//!
//! Both types lend out the standard library's map or set, so every method of
//! those (entries, `extract_if`, set operations) is the standard one.

use std::{
    collections::{HashMap, HashSet},
    hash::{BuildHasherDefault, Hash, Hasher},
    ops::{Deref, DerefMut},
};

/// A multiply-and-rotate hasher: quick for short keys, the same in every run.
#[derive(Default)]
pub struct QuickHasher(u64);

const MULTIPLIER: u64 = 0x9e37_79b9_7f4a_7c15;

impl QuickHasher {
    fn mix(&mut self, word: u64) {
        self.0 = (self.0.rotate_left(5) ^ word).wrapping_mul(MULTIPLIER);
    }
}

impl Hasher for QuickHasher {
    fn finish(&self) -> u64 {
        self.0 ^ (self.0 >> 32)
    }

    fn write(&mut self, bytes: &[u8]) {
        for chunk in bytes.chunks(8) {
            let mut word = [0; 8];
            word[..chunk.len()].copy_from_slice(chunk);
            self.mix(u64::from_le_bytes(word));
        }
    }

    fn write_u16(&mut self, n: u16) {
        self.mix(n.into());
    }

    fn write_u32(&mut self, n: u32) {
        self.mix(n.into());
    }

    fn write_u64(&mut self, n: u64) {
        self.mix(n);
    }

    fn write_usize(&mut self, n: usize) {
        self.mix(n as u64);
    }
}

type State = BuildHasherDefault<QuickHasher>;

/// A hash map.
#[derive(Clone, Debug)]
pub struct AHashMap<K, V>(HashMap<K, V, State>);

impl<K, V> AHashMap<K, V> {
    pub fn new() -> Self {
        Self(HashMap::default())
    }
}

impl<K, V> Default for AHashMap<K, V> {
    fn default() -> Self {
        Self::new()
    }
}

impl<K, V> Deref for AHashMap<K, V> {
    type Target = HashMap<K, V, State>;

    fn deref(&self) -> &Self::Target {
        &self.0
    }
}

impl<K, V> DerefMut for AHashMap<K, V> {
    fn deref_mut(&mut self) -> &mut Self::Target {
        &mut self.0
    }
}

/// A hash set.
#[derive(Clone, Debug)]
pub struct AHashSet<T>(HashSet<T, State>);

impl<T> AHashSet<T> {
    pub fn new() -> Self {
        Self(HashSet::default())
    }
}

impl<T> Default for AHashSet<T> {
    fn default() -> Self {
        Self::new()
    }
}

impl<T: Eq + Hash> FromIterator<T> for AHashSet<T> {
    fn from_iter<I: IntoIterator<Item = T>>(items: I) -> Self {
        Self(items.into_iter().collect())
    }
}

impl<T> Deref for AHashSet<T> {
    type Target = HashSet<T, State>;

    fn deref(&self) -> &Self::Target {
        &self.0
    }
}

impl<T> DerefMut for AHashSet<T> {
    fn deref_mut(&mut self) -> &mut Self::Target {
        &mut self.0
    }
}
