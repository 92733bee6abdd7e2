//! Stands in for the crate `hashconsing`: shared values equal by id, and the sets and maps of them.
//! A value's hash comes from its content, so a script and a seed alone fix every order.

use std::collections::{hash_map::DefaultHasher, HashMap};
use std::fmt;
use std::hash::{Hash, Hasher};
use std::sync::{Arc, RwLock};

pub mod hash_coll;
pub mod order;

/// A shared value; two are equal if they have the same id.
pub struct HConsed<T> {
    value: Arc<T>,
    id: u64,
    content_hash: u64,
}

impl<T> HConsed<T> {
    pub fn get(&self) -> &T {
        &self.value
    }
}

impl<T> Clone for HConsed<T> {
    fn clone(&self) -> Self {
        HConsed { value: self.value.clone(), id: self.id, content_hash: self.content_hash }
    }
}

impl<T> std::ops::Deref for HConsed<T> {
    type Target = T;
    fn deref(&self) -> &T {
        &self.value
    }
}

impl<T> PartialEq for HConsed<T> {
    fn eq(&self, other: &Self) -> bool {
        self.id == other.id
    }
}
impl<T> Eq for HConsed<T> {}
impl<T> PartialOrd for HConsed<T> {
    fn partial_cmp(&self, other: &Self) -> Option<std::cmp::Ordering> {
        Some(self.cmp(other))
    }
}
impl<T> Ord for HConsed<T> {
    fn cmp(&self, other: &Self) -> std::cmp::Ordering {
        self.id.cmp(&other.id)
    }
}
impl<T> Hash for HConsed<T> {
    fn hash<H: Hasher>(&self, state: &mut H) {
        state.write_u64(self.content_hash)
    }
}
impl<T: fmt::Display> fmt::Display for HConsed<T> {
    fn fmt(&self, f: &mut fmt::Formatter) -> fmt::Result {
        self.value.fmt(f)
    }
}
impl<T: fmt::Debug> fmt::Debug for HConsed<T> {
    fn fmt(&self, f: &mut fmt::Formatter) -> fmt::Result {
        self.value.fmt(f)
    }
}

/// Says what a shared value holds.
pub trait HashConsed {
    type Inner;
}
impl<T> HashConsed for HConsed<T> {
    type Inner = T;
}

/// All values made so far, by content.
pub struct HConsign<T> {
    made: HashMap<T, HConsed<T>>,
}

impl<T: Hash + Eq> HConsign<T> {
    pub fn with_capacity(capacity: usize) -> Self {
        HConsign { made: HashMap::with_capacity(capacity) }
    }
}

/// Makes a shared value, or finds the one made before (then `false`).
pub trait HashConsign<T> {
    fn mk_is_new(self, value: T) -> (HConsed<T>, bool);
    fn mk(self, value: T) -> HConsed<T>
    where
        Self: Sized,
    {
        self.mk_is_new(value).0
    }
}

impl<T: Hash + Eq + Clone> HashConsign<T> for &RwLock<HConsign<T>> {
    fn mk_is_new(self, value: T) -> (HConsed<T>, bool) {
        if let Some(found) = self.read().unwrap().made.get(&value) {
            return (found.clone(), false);
        }
        let mut table = self.write().unwrap();
        let mut hasher = DefaultHasher::new();
        value.hash(&mut hasher);
        let made = HConsed {
            value: Arc::new(value.clone()),
            id: table.made.len() as u64,
            content_hash: hasher.finish(),
        };
        table.made.insert(value, made.clone());
        (made, true)
    }
}

/// Declares the table of all values of one type.
#[macro_export]
macro_rules! consign {
    ($(#[$attribute:meta])* let $name:ident = consign($capacity:expr) for $ty:ty ;) => {
        #[allow(non_upper_case_globals)]
        static $name: ::std::sync::LazyLock<::std::sync::RwLock<$crate::HConsign<$ty>>> =
            ::std::sync::LazyLock::new(|| {
                ::std::sync::RwLock::new($crate::HConsign::with_capacity($capacity))
            });
    };
}
