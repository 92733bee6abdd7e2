//! Stands in for `hashconsing::hash_coll`: hash sets and maps of shared values, in the seed's order.

use crate::order::Seeded;
use std::collections::{hash_map, hash_set, HashMap, HashSet};
use std::hash::Hash;
use std::ops::{Deref, DerefMut};

#[derive(Clone)]
pub struct HConSet<T>(HashSet<T, Seeded>);

impl<T> HConSet<T> {
    pub fn new() -> Self {
        HConSet(HashSet::default())
    }
    pub fn with_capacity(capacity: usize) -> Self {
        HConSet(HashSet::with_capacity_and_hasher(capacity, Seeded::default()))
    }
}
impl<T> Deref for HConSet<T> {
    type Target = HashSet<T, Seeded>;
    fn deref(&self) -> &Self::Target {
        &self.0
    }
}
impl<T> DerefMut for HConSet<T> {
    fn deref_mut(&mut self) -> &mut Self::Target {
        &mut self.0
    }
}
impl<T: std::fmt::Debug> std::fmt::Debug for HConSet<T> {
    fn fmt(&self, f: &mut std::fmt::Formatter) -> std::fmt::Result {
        self.0.fmt(f)
    }
}
impl<T> IntoIterator for HConSet<T> {
    type Item = T;
    type IntoIter = hash_set::IntoIter<T>;
    fn into_iter(self) -> Self::IntoIter {
        self.0.into_iter()
    }
}
impl<'a, T> IntoIterator for &'a HConSet<T> {
    type Item = &'a T;
    type IntoIter = hash_set::Iter<'a, T>;
    fn into_iter(self) -> Self::IntoIter {
        self.0.iter()
    }
}

#[derive(Clone)]
pub struct HConMap<K, V>(HashMap<K, V, Seeded>);

impl<K: Hash + Eq, V> HConMap<K, V> {
    pub fn with_capacity(capacity: usize) -> Self {
        HConMap(HashMap::with_capacity_and_hasher(capacity, Seeded::default()))
    }
}
impl<K, V> Deref for HConMap<K, V> {
    type Target = HashMap<K, V, Seeded>;
    fn deref(&self) -> &Self::Target {
        &self.0
    }
}
impl<K, V> DerefMut for HConMap<K, V> {
    fn deref_mut(&mut self) -> &mut Self::Target {
        &mut self.0
    }
}
impl<'a, K, V> IntoIterator for &'a HConMap<K, V> {
    type Item = (&'a K, &'a V);
    type IntoIter = hash_map::Iter<'a, K, V>;
    fn into_iter(self) -> Self::IntoIter {
        self.0.iter()
    }
}
