//! Stands for the crate lru_time_cache: values by key, each kept until it expires.
//!
//! What rests on it: `entry(key).or_insert(value)` gives the key's own value, and puts the given one there only if it has none.
//! Nothing expires here and nothing is crowded out: the runs keep to calls where no entry expires, and there the real cache, which
//! is given an expiry and no capacity, drops nothing either. When it does drop an entry is not compared.

use std::collections::btree_map::{self, BTreeMap};
use std::time::Duration;

pub struct LruCache<Key, Value> {
    values: BTreeMap<Key, Value>,
}

impl<Key: Ord + Clone, Value> LruCache<Key, Value> {
    pub fn with_expiry_duration(_expiry: Duration) -> Self {
        Self { values: BTreeMap::new() }
    }

    pub fn entry(&mut self, key: Key) -> Entry<'_, Key, Value> {
        Entry(self.values.entry(key))
    }
}

pub struct Entry<'a, Key, Value>(btree_map::Entry<'a, Key, Value>);

impl<'a, Key: Ord + Clone, Value> Entry<'a, Key, Value> {
    pub fn or_insert(self, value: Value) -> &'a mut Value {
        self.0.or_insert(value)
    }
}
