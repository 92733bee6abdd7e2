//! Stands in for `common/wrappers.rs`: one index type a purpose, with a vector, hash map and hash set.

use hashconsing::order::Seeded;
use std::collections::{HashMap, HashSet};
use std::fmt;
use std::ops::{Deref, DerefMut, Index, IndexMut};

macro_rules! index {
    ($idx:ident) => {
        #[derive(Clone, Copy, Debug, PartialEq, Eq, PartialOrd, Ord, Hash)]
        pub struct $idx(usize);

        impl From<usize> for $idx {
            fn from(number: usize) -> Self {
                $idx(number)
            }
        }
        impl Deref for $idx {
            type Target = usize;
            fn deref(&self) -> &usize {
                &self.0
            }
        }
        impl PartialEq<usize> for $idx {
            fn eq(&self, other: &usize) -> bool {
                self.0 == *other
            }
        }
        impl PartialOrd<usize> for $idx {
            fn partial_cmp(&self, other: &usize) -> Option<std::cmp::Ordering> {
                self.0.partial_cmp(other)
            }
        }
        impl fmt::Display for $idx {
            fn fmt(&self, f: &mut fmt::Formatter) -> fmt::Result {
                self.0.fmt(f)
            }
        }
    };
}

macro_rules! vector {
    ($map:ident by $idx:ident) => {
        #[derive(Clone, Debug, PartialEq, Eq, Hash)]
        pub struct $map<T>(Vec<T>);

        impl<T> $map<T> {
            pub fn new() -> Self {
                $map(Vec::new())
            }
            pub fn with_capacity(capacity: usize) -> Self {
                $map(Vec::with_capacity(capacity))
            }
            pub fn len(&self) -> usize {
                self.0.len()
            }
            pub fn next_index(&self) -> $idx {
                $idx(self.0.len())
            }
            pub fn index_iter(&self) -> impl Iterator<Item = ($idx, &T)> {
                self.0.iter().enumerate().map(|(i, t)| ($idx(i), t))
            }
            pub fn into_index_iter(self) -> impl Iterator<Item = ($idx, T)> {
                self.0.into_iter().enumerate().map(|(i, t)| ($idx(i), t))
            }
        }
        impl<T> Deref for $map<T> {
            type Target = Vec<T>;
            fn deref(&self) -> &Vec<T> {
                &self.0
            }
        }
        impl<T> DerefMut for $map<T> {
            fn deref_mut(&mut self) -> &mut Vec<T> {
                &mut self.0
            }
        }
        impl<T> Index<$idx> for $map<T> {
            type Output = T;
            fn index(&self, i: $idx) -> &T {
                &self.0[i.0]
            }
        }
        impl<T> IndexMut<$idx> for $map<T> {
            fn index_mut(&mut self, i: $idx) -> &mut T {
                &mut self.0[i.0]
            }
        }
        impl<T> From<Vec<T>> for $map<T> {
            fn from(v: Vec<T>) -> Self {
                $map(v)
            }
        }
        impl<T> std::iter::FromIterator<T> for $map<T> {
            fn from_iter<I: IntoIterator<Item = T>>(items: I) -> Self {
                $map(items.into_iter().collect())
            }
        }
        impl<'a, T> IntoIterator for &'a $map<T> {
            type Item = &'a T;
            type IntoIter = std::slice::Iter<'a, T>;
            fn into_iter(self) -> Self::IntoIter {
                self.0.iter()
            }
        }
        /// The elements, one space between two.
        impl<T: fmt::Display> fmt::Display for $map<T> {
            fn fmt(&self, f: &mut fmt::Formatter) -> fmt::Result {
                for (i, t) in self.0.iter().enumerate() {
                    let space = if i == 0 { "" } else { " " };
                    write!(f, "{}{}", space, t)?
                }
                Ok(())
            }
        }
    };
}

macro_rules! hashed {
    (map $map:ident by $idx:ident) => {
        #[derive(Clone, Debug)]
        pub struct $map<T>(HashMap<$idx, T, Seeded>);

        impl<T> $map<T> {
            pub fn with_capacity(capacity: usize) -> Self {
                $map(HashMap::with_capacity_and_hasher(capacity, Seeded::default()))
            }
        }
        hashed! { deref ($map<T>) (HashMap<$idx, T, Seeded>) T }
        impl<T> IntoIterator for $map<T> {
            type Item = ($idx, T);
            type IntoIter = std::collections::hash_map::IntoIter<$idx, T>;
            fn into_iter(self) -> Self::IntoIter {
                self.0.into_iter()
            }
        }
        impl<'a, T> IntoIterator for &'a $map<T> {
            type Item = (&'a $idx, &'a T);
            type IntoIter = std::collections::hash_map::Iter<'a, $idx, T>;
            fn into_iter(self) -> Self::IntoIter {
                self.0.iter()
            }
        }
    };
    (set $set:ident by $idx:ident) => {
        #[derive(Clone, Debug)]
        pub struct $set(HashSet<$idx, Seeded>);

        impl $set {
            pub fn new() -> Self {
                $set(HashSet::default())
            }
            pub fn with_capacity(capacity: usize) -> Self {
                $set(HashSet::with_capacity_and_hasher(capacity, Seeded::default()))
            }
        }
        hashed! { deref ($set) (HashSet<$idx, Seeded>) }
        impl IntoIterator for $set {
            type Item = $idx;
            type IntoIter = std::collections::hash_set::IntoIter<$idx>;
            fn into_iter(self) -> Self::IntoIter {
                self.0.into_iter()
            }
        }
        impl<'a> IntoIterator for &'a $set {
            type Item = &'a $idx;
            type IntoIter = std::collections::hash_set::Iter<'a, $idx>;
            fn into_iter(self) -> Self::IntoIter {
                self.0.iter()
            }
        }
    };
    (deref ($outer:ty) ($inner:ty) $($param:ident)?) => {
        impl$(<$param>)? Deref for $outer {
            type Target = $inner;
            fn deref(&self) -> &$inner {
                &self.0
            }
        }
        impl$(<$param>)? DerefMut for $outer {
            fn deref_mut(&mut self) -> &mut $inner {
                &mut self.0
            }
        }
    };
}

index! { PrdIdx }
vector! { PrdMap by PrdIdx }
hashed! { map PrdHMap by PrdIdx }

index! { CstrIdx }
vector! { CstrMap by CstrIdx }
hashed! { set CstrSet by CstrIdx }

index! { VarIdx }
vector! { VarMap by VarIdx }
hashed! { map VarHMap by VarIdx }

index! { ClsIdx }
hashed! { map ClsHMap by ClsIdx }
