//! Maps that may be changed.

use crate::entry::{Entry, OccupiedEntry, VacantEntry};
use crate::iter::{Cursor, IntoIter, IntoKeys, IntoValues, Iter, IterMut, Keys, Matches, Values, ValuesMut};
use crate::range::{self, KeyRange};
use crate::slots::Slots;
use crate::tree::{Bounds, Source, Tree};
use crate::{Frozen, OutOfMemory, or_abort};

/// An ordered map of byte strings to values of any type. Any bytes are a key, also none.
///
/// Keys are ordered by their bytes, a prefix first. They are passed as anything with bytes: `&str`, `String`, `&[u8]`,
/// `[u8; 4]`. The map keeps the bytes, and returns them as `Vec<u8>`.
///
/// Where an allocation fails the program is aborted, as by std's collections. The calls whose names start with `try_`, and
/// [`compact`](Map::compact), return [`OutOfMemory`] in its place.
///
/// A lookup, an insertion and a removal take time in proportion to the length of the key at most.
pub struct Map<V> {
    // the names of the slots of the values
    pub(crate) tree: Tree,
    pub(crate) values: Slots<V>,
}

impl<V> Map<V> {
    /// Returns an empty map. It allocates nothing.
    pub fn new() -> Map<V> {
        Map { tree: Tree::new(), values: Slots::new() }
    }

    /// Returns the number of pairs.
    pub fn len(&self) -> usize {
        self.tree.len()
    }

    /// Returns whether there is no pair.
    pub fn is_empty(&self) -> bool {
        self.len() == 0
    }

    /// Returns the value of a key.
    pub fn get(&self, key: impl AsRef<[u8]>) -> Option<&V> {
        self.tree.get(key.as_ref()).map(|name| self.values.get(name))
    }

    /// Returns the value of a key, which may be changed.
    ///
    /// ```
    /// let mut map = vokujin::Map::from([("a", vec![1])]);
    /// map.get_mut("a").unwrap().push(2);
    /// assert_eq!(map["a"], [1, 2]);
    /// ```
    pub fn get_mut(&mut self, key: impl AsRef<[u8]>) -> Option<&mut V> {
        self.tree.get(key.as_ref()).map(|name| self.values.get_mut(name))
    }

    /// Returns whether a key is stored.
    pub fn contains_key(&self, key: impl AsRef<[u8]>) -> bool {
        self.tree.get(key.as_ref()).is_some()
    }

    /// Inserts a pair, and returns the value that it replaced.
    pub fn insert(&mut self, key: impl AsRef<[u8]>, value: V) -> Option<V> {
        or_abort(self.try_insert(key, value))
    }

    /// Inserts a pair, and returns the value that it replaced. If an allocation fails, the map is unchanged, and the value is
    /// dropped.
    pub fn try_insert(&mut self, key: impl AsRef<[u8]>, value: V) -> Result<Option<V>, OutOfMemory> {
        self.place(key.as_ref(), value).map(|(_, replaced)| replaced)
    }

    /// Inserts a pair, and borrows its value. Returns the value that it replaced, too.
    pub(crate) fn place(&mut self, key: &[u8], value: V) -> Result<(&mut V, Option<V>), OutOfMemory> {
        let name = self.values.reserve().ok_or(OutOfMemory)?;
        // From here on nothing fails: the new value has a slot.
        let replaced = self.tree.insert(key, name)?;
        self.values.fill(value);
        let replaced = replaced.map(|old| self.values.take(old));
        Ok((self.values.get_mut(name), replaced))
    }

    /// Removes the pair of a key, and returns its value. It allocates nothing.
    pub fn remove(&mut self, key: impl AsRef<[u8]>) -> Option<V> {
        self.tree.remove(key.as_ref()).map(|name| self.values.take(name))
    }

    /// Removes the pair of a key, and returns it.
    pub fn remove_entry(&mut self, key: impl AsRef<[u8]>) -> Option<(Vec<u8>, V)> {
        let key = key.as_ref();
        self.remove(key).map(|value| (key.to_vec(), value))
    }

    /// Moves all pairs of another map to this one, which leaves it empty. Its values replace those of the same keys.
    pub fn append(&mut self, other: &mut Map<V>) {
        self.extend(std::mem::take(other));
    }

    /// Removes the pairs from a key on, and returns them as a map.
    pub fn split_off(&mut self, key: impl AsRef<[u8]>) -> Map<V> {
        let (mut rest, mut cursor) = (Map::new(), Cursor::new(range::bounds(key.as_ref()..)));
        while let Some((key, _)) = cursor.next(Source::Tree(&self.tree)) {
            rest.extend(self.remove(key).map(|value| (key, value)));
        }
        rest
    }

    /// Removes all pairs.
    pub fn clear(&mut self) {
        self.tree.clear();
        self.values = Slots::new();
    }

    /// Moves the pairs into the order of their keys in memory, which makes iterations faster. If an allocation fails, nothing
    /// is moved. The values are not moved; those of a clone are in the order of their keys.
    pub fn compact(&mut self) -> Result<(), OutOfMemory> {
        self.tree.compact()
    }

    /// Returns the place of a key, to look at its value or to insert one.
    ///
    /// ```
    /// let mut counts = vokujin::Map::new();
    /// for word in ["to", "be", "or", "not", "to", "be"] {
    ///     *counts.entry(word).or_insert(0) += 1;
    /// }
    /// assert_eq!(counts["to"], 2);
    /// ```
    pub fn entry<K: AsRef<[u8]>>(&mut self, key: K) -> Entry<'_, K, V> {
        match self.tree.get(key.as_ref()) {
            Some(name) => Entry::Occupied(OccupiedEntry { map: self, key, name }),
            None => Entry::Vacant(VacantEntry { map: self, key }),
        }
    }

    /// Returns the first pair.
    pub fn first_key_value(&self) -> Option<(Vec<u8>, &V)> {
        self.tree.first().map(|(key, name)| (key, self.values.get(name)))
    }

    /// Returns the last pair.
    pub fn last_key_value(&self) -> Option<(Vec<u8>, &V)> {
        self.tree.last().map(|(key, name)| (key, self.values.get(name)))
    }

    /// Returns the place of the first key.
    pub fn first_entry(&mut self) -> Option<OccupiedEntry<'_, Vec<u8>, V>> {
        let (key, name) = self.tree.first()?;
        Some(OccupiedEntry { map: self, key, name })
    }

    /// Returns the place of the last key.
    pub fn last_entry(&mut self) -> Option<OccupiedEntry<'_, Vec<u8>, V>> {
        let (key, name) = self.tree.last()?;
        Some(OccupiedEntry { map: self, key, name })
    }

    /// Removes the first pair, and returns it.
    pub fn pop_first(&mut self) -> Option<(Vec<u8>, V)> {
        let (key, _) = self.tree.first()?;
        self.remove(&key).map(|value| (key, value))
    }

    /// Removes the last pair, and returns it.
    pub fn pop_last(&mut self) -> Option<(Vec<u8>, V)> {
        let (key, _) = self.tree.last()?;
        self.remove(&key).map(|value| (key, value))
    }

    /// Returns the length and the value of the longest key that is a prefix of the query.
    ///
    /// ```
    /// let routes = vokujin::Map::from([("10", "east"), ("10.1", "west")]);
    /// assert_eq!(routes.longest_match("10.1.7.9"), Some((4, &"west")));
    /// assert_eq!(routes.longest_match("192.168"), None);
    /// ```
    pub fn longest_match(&self, query: impl AsRef<[u8]>) -> Option<(usize, &V)> {
        self.tree.longest_match(query.as_ref()).map(|(len, name)| (len, self.values.get(name)))
    }

    /// Returns the lengths and the values of all keys that are prefixes of the query, the shortest first, from both ends. It
    /// takes a lookup for each and one more.
    ///
    /// ```
    /// let routes = vokujin::Map::from([("10", "east"), ("10.1", "west"), ("10.2", "north")]);
    /// assert!(routes.matches("10.1.7.9").eq([(2, &"east"), (4, &"west")]));
    /// ```
    pub fn matches(&self, query: impl AsRef<[u8]>) -> Matches<'_, V> {
        Matches::new(&self.values, query.as_ref(), |text| self.tree.longest_match(text))
    }

    /// Returns how many keys start with a prefix.
    pub fn count_prefix(&self, prefix: impl AsRef<[u8]>) -> usize {
        self.tree.count_prefix(prefix.as_ref())
    }

    /// Removes the pairs whose keys start with a prefix, and returns how many they were.
    ///
    /// ```
    /// let mut map = vokujin::Map::from([("car", 1), ("cart", 2), ("dog", 3)]);
    /// assert_eq!((map.remove_prefix("car"), map.len()), (2, 1));
    /// ```
    pub fn remove_prefix(&mut self, prefix: impl AsRef<[u8]>) -> usize {
        let before = self.len();
        self.retain_in(Bounds::of_prefix(prefix.as_ref()), |_, _| false);
        before - self.len()
    }

    /// Keeps only the pairs that a function returns `true` for. It is called in the order of the keys.
    pub fn retain(&mut self, keeps: impl FnMut(&[u8], &mut V) -> bool) {
        self.retain_in(Bounds::ALL, keeps);
    }

    fn retain_in(&mut self, bounds: Bounds, mut keeps: impl FnMut(&[u8], &mut V) -> bool) {
        let mut cursor = Cursor::new(bounds);
        while let Some((key, name)) = cursor.next(Source::Tree(&self.tree)) {
            if !keeps(key, self.values.get_mut(name)) {
                self.tree.remove(key);
                // A value that panics as it is dropped is no longer in the map.
                drop(self.values.take(name));
            }
        }
    }

    /// Returns the pairs in the order of their keys, from both ends.
    pub fn iter(&self) -> Iter<'_, V> {
        self.pairs(Bounds::ALL)
    }

    /// Returns the pairs in the order of their keys, from both ends, with values that may be changed.
    pub fn iter_mut(&mut self) -> IterMut<'_, V> {
        IterMut::new(&self.tree, &mut self.values, Bounds::ALL)
    }

    /// Returns the keys in order, from both ends.
    pub fn keys(&self) -> Keys<'_, V> {
        Keys(self.iter())
    }

    /// Returns the values in the order of their keys, from both ends.
    pub fn values(&self) -> Values<'_, V> {
        Values(self.iter())
    }

    /// Returns the values in the order of their keys, from both ends; they may be changed.
    ///
    /// ```
    /// let mut map = vokujin::Map::from([("a", 1), ("b", 2)]);
    /// map.values_mut().for_each(|value| *value *= 10);
    /// assert!(map.values().eq(&[10, 20]));
    /// ```
    pub fn values_mut(&mut self) -> ValuesMut<'_, V> {
        ValuesMut(self.iter_mut())
    }

    /// Returns the keys in order, and drops the values.
    pub fn into_keys(self) -> IntoKeys<V> {
        IntoKeys(self.into_iter())
    }

    /// Returns the values in the order of their keys.
    pub fn into_values(self) -> IntoValues<V> {
        IntoValues(self.into_iter())
    }

    /// Returns the pairs whose keys are in a range, from both ends; none if it runs backwards.
    ///
    /// ```
    /// let map = vokujin::Map::from([("a", 1), ("b", 2), ("c", 3)]);
    /// assert!(map.range("a".."c").map(|(_, value)| *value).eq([1, 2]));
    /// assert!(map.range("a"..="c").rev().map(|(_, value)| *value).eq([3, 2, 1]));
    /// ```
    pub fn range(&self, range: impl KeyRange) -> Iter<'_, V> {
        self.pairs(range::bounds(range))
    }

    /// Returns the pairs whose keys are in a range, from both ends, with values that may be changed.
    pub fn range_mut(&mut self, range: impl KeyRange) -> IterMut<'_, V> {
        IterMut::new(&self.tree, &mut self.values, range::bounds(range))
    }

    /// Returns the pairs whose keys start with a prefix, from both ends.
    pub fn prefix(&self, prefix: impl AsRef<[u8]>) -> Iter<'_, V> {
        self.pairs(Bounds::of_prefix(prefix.as_ref()))
    }

    /// Returns the pairs whose keys start with a prefix, from both ends, with values that may be changed.
    pub fn prefix_mut(&mut self, prefix: impl AsRef<[u8]>) -> IterMut<'_, V> {
        IterMut::new(&self.tree, &mut self.values, Bounds::of_prefix(prefix.as_ref()))
    }

    fn pairs(&self, bounds: Bounds) -> Iter<'_, V> {
        Iter::new(Source::Tree(&self.tree), &self.values, bounds, self.len())
    }

    /// Returns the map as one that is no longer changed. It moves no pair in memory.
    pub fn freeze(mut self) -> Frozen<V> {
        let tree = or_abort(self.tree.freeze());
        Frozen::new(tree, self.values)
    }
}

impl<V> IntoIterator for Map<V> {
    type Item = (Vec<u8>, V);
    type IntoIter = IntoIter<V>;

    fn into_iter(self) -> IntoIter<V> {
        IntoIter::new(self.tree, self.values)
    }
}

impl<'a, V> IntoIterator for &'a Map<V> {
    type Item = (Vec<u8>, &'a V);
    type IntoIter = Iter<'a, V>;

    fn into_iter(self) -> Iter<'a, V> {
        self.iter()
    }
}

impl<'a, V> IntoIterator for &'a mut Map<V> {
    type Item = (Vec<u8>, &'a mut V);
    type IntoIter = IterMut<'a, V>;

    fn into_iter(self) -> IterMut<'a, V> {
        self.iter_mut()
    }
}
