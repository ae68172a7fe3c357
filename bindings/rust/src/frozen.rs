//! Maps that are no longer changed.

use std::sync::Arc;

use crate::iter::{Iter, Keys, Matches, Values};
use crate::or_abort;
use crate::range::{self, KeyRange};
use crate::slots::Slots;
use crate::tree::{Bounds, FrozenTree, Source};

/// An owner of a map that is no longer changed. A clone is another owner, and the last one frees the map.
///
/// ```
/// let map = vokujin::Map::from([("10", "east"), ("10.1", "west")]).freeze();
/// let other = map.clone();
/// let answer = std::thread::spawn(move || other.longest_match("10.1.7.9").map(|(_, value)| *value));
/// assert_eq!(answer.join().unwrap(), Some("west"));
/// ```
pub struct Frozen<V> {
    tree: FrozenTree,
    values: Arc<Slots<V>>,
}

impl<V> Frozen<V> {
    pub(crate) fn new(tree: FrozenTree, values: Slots<V>) -> Frozen<V> {
        Frozen { tree, values: Arc::new(values) }
    }

    /// Returns the number of pairs.
    pub fn len(&self) -> usize {
        self.tree.len()
    }

    /// Returns whether there is no pair.
    pub fn is_empty(&self) -> bool {
        self.len() == 0
    }

    /// Returns the value of a key.
    pub fn get(&self, key: impl AsRef<[u8]>) -> Option<&V> {
        self.tree.get(key.as_ref()).map(|name| self.values.get(name))
    }

    /// Returns whether a key is stored.
    pub fn contains_key(&self, key: impl AsRef<[u8]>) -> bool {
        self.tree.get(key.as_ref()).is_some()
    }

    /// Returns the first pair.
    pub fn first_key_value(&self) -> Option<(Vec<u8>, &V)> {
        self.iter().next()
    }

    /// Returns the last pair.
    pub fn last_key_value(&self) -> Option<(Vec<u8>, &V)> {
        self.iter().next_back()
    }

    /// Returns the length and the value of the longest key that is a prefix of the query.
    pub fn longest_match(&self, query: impl AsRef<[u8]>) -> Option<(usize, &V)> {
        self.tree.longest_match(query.as_ref()).map(|(len, name)| (len, self.values.get(name)))
    }

    /// Returns the lengths and the values of all keys that are prefixes of the query, the shortest first, from both ends. It
    /// takes a lookup for each and one more.
    pub fn matches(&self, query: impl AsRef<[u8]>) -> Matches<'_, V> {
        Matches::new(&self.values, query.as_ref(), |text| self.tree.longest_match(text))
    }

    /// Returns the pairs in the order of their keys, from both ends.
    pub fn iter(&self) -> Iter<'_, V> {
        self.pairs(Bounds::ALL)
    }

    /// Returns the keys in order, from both ends.
    pub fn keys(&self) -> Keys<'_, V> {
        Keys(self.iter())
    }

    /// Returns the values in the order of their keys, from both ends.
    pub fn values(&self) -> Values<'_, V> {
        Values(self.iter())
    }

    /// Returns the pairs whose keys are in a range, from both ends; none if it runs backwards.
    pub fn range(&self, range: impl KeyRange) -> Iter<'_, V> {
        self.pairs(range::bounds(range))
    }

    /// Returns the pairs whose keys start with a prefix, from both ends.
    pub fn prefix(&self, prefix: impl AsRef<[u8]>) -> Iter<'_, V> {
        self.pairs(Bounds::of_prefix(prefix.as_ref()))
    }

    fn pairs(&self, bounds: Bounds) -> Iter<'_, V> {
        Iter::new(Source::Frozen(&self.tree), &self.values, bounds, self.len())
    }
}

impl<V> Clone for Frozen<V> {
    fn clone(&self) -> Frozen<V> {
        Frozen { tree: or_abort(self.tree.share()), values: Arc::clone(&self.values) }
    }
}

impl<'a, V> IntoIterator for &'a Frozen<V> {
    type Item = (Vec<u8>, &'a V);
    type IntoIter = Iter<'a, V>;

    fn into_iter(self) -> Iter<'a, V> {
        self.iter()
    }
}
