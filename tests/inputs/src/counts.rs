// Counts by key: how often each number of an answer, or each of some other classes, came up.

use std::collections::BTreeMap;
use std::fmt::{self, Debug, Display};

/// How often each key came up; any key can be counted, so a refusal added later needs no change here.
#[derive(Clone, PartialEq, Eq)]
pub struct Counts<K>(BTreeMap<K, u64>);

impl<K: Ord> Counts<K> {
    pub fn new() -> Counts<K> {
        Counts(BTreeMap::new())
    }

    pub fn add(&mut self, key: K) {
        *self.0.entry(key).or_insert(0) += 1;
    }

    /// How often a key came up, 0 if never.
    pub fn of(&self, key: K) -> u64 {
        self.0.get(&key).copied().unwrap_or(0)
    }

    /// The keys that came up, ascending.
    pub fn keys(&self) -> impl Iterator<Item = &K> {
        self.0.keys()
    }
}

impl<K: Ord + Debug> Counts<K> {
    /// Each of these keys came up at least so often, and no other did.
    pub fn assert_all(&self, keys: impl IntoIterator<Item = K>, least: u64) {
        self.assert_floors(keys.into_iter().map(|key| (key, least)));
    }

    /// Each of these keys came up at least as often as its floor says, and no other did. A key may have several floors.
    pub fn assert_floors(&self, floors: impl IntoIterator<Item = (K, u64)>) {
        if let Some(fault) = self.fault(floors) {
            panic!("{fault}");
        }
    }

    /// The first of these floors that was missed, or the keys that have none; nothing if all is as it should be.
    pub fn fault(&self, floors: impl IntoIterator<Item = (K, u64)>) -> Option<String> {
        let mut others: Vec<&K> = self.0.keys().collect();
        for (key, least) in floors {
            let count = self.0.get(&key).copied().unwrap_or(0);
            if count < least {
                return Some(format!("{key:?} came up {count} times, not {least}: {self:?}"));
            }
            others.retain(|other| **other != key);
        }
        (!others.is_empty()).then(|| format!("{others:?} should not come up: {self:?}"))
    }
}

impl<K: Ord> Default for Counts<K> {
    fn default() -> Counts<K> {
        Counts::new()
    }
}

impl<K: Ord> Extend<K> for Counts<K> {
    fn extend<I: IntoIterator<Item = K>>(&mut self, keys: I) {
        keys.into_iter().for_each(|key| self.add(key));
    }
}

impl<K: Ord> FromIterator<K> for Counts<K> {
    fn from_iter<I: IntoIterator<Item = K>>(keys: I) -> Counts<K> {
        let mut counts = Counts::new();
        counts.extend(keys);
        counts
    }
}

impl<K: Debug> Debug for Counts<K> {
    fn fmt(&self, out: &mut fmt::Formatter) -> fmt::Result {
        self.0.fmt(out)
    }
}

impl<K: Display> Display for Counts<K> {
    fn fmt(&self, out: &mut fmt::Formatter) -> fmt::Result {
        self.0.iter().try_for_each(|(key, count)| write!(out, "{key}: {count}  "))
    }
}
