//! Iterations, by calls for many pairs at a time.

use std::fmt;
use std::iter::FusedIterator;
use std::marker::PhantomData;
use std::ops::Bound;
use std::vec;

use crate::calls::{DONE, Pair, TOO_LONG};
use crate::slots::{Slot, Slots};
use crate::tree::{Bounds, Source, Tree};

/// Pairs that a call wrote, of which some may have been taken from either end.
#[derive(Clone, Default)]
struct Chunk {
    pairs: Vec<Pair>,
    keys: Vec<u8>,
    // what is left: pairs, and the bytes of their keys
    next: usize,
    count: usize,
    start: usize,
    end: usize,
}

impl Chunk {
    fn is_empty(&self) -> bool {
        self.next == self.count
    }

    fn take_first(&mut self) -> Option<(&[u8], u64)> {
        if self.is_empty() {
            return None;
        }
        let pair = self.pairs[self.next];
        let start = self.start;
        self.next += 1;
        self.start += pair.key_len;
        Some((&self.keys[start..self.start], pair.value))
    }

    fn take_last(&mut self) -> Option<(&[u8], u64)> {
        if self.is_empty() {
            return None;
        }
        self.count -= 1;
        let pair = self.pairs[self.count];
        let end = self.end;
        self.end -= pair.key_len;
        Some((&self.keys[self.end..end], pair.value))
    }

    /// Makes space for another call: the first one is for few pairs, later ones are for more.
    fn grow(&mut self, key_len: usize) {
        let pairs = (self.pairs.len() * 4).clamp(8, 512);
        self.pairs.resize(pairs, Pair::default());
        self.keys.resize(self.keys.len().max(pairs * 32).max(key_len), 0);
    }
}

/// The keys and the names of a range, from both ends. Each call takes the tree, which is not changed between calls but by
/// removals of what was returned.
#[derive(Clone)]
pub(crate) struct Cursor {
    // the pairs between these bounds are in no chunk yet, if `is_more`
    bounds: Bounds,
    is_more: bool,
    front: Chunk,
    back: Chunk,
}

impl Cursor {
    pub fn new(bounds: Bounds) -> Cursor {
        Cursor { bounds, is_more: true, front: Chunk::default(), back: Chunk::default() }
    }

    pub fn next(&mut self, source: Source<'_>) -> Option<(&[u8], u64)> {
        if self.front.is_empty() && self.is_more {
            self.fill(source, false);
        }
        // What was fetched from the back stands there by falling keys.
        if self.front.is_empty() { self.back.take_last() } else { self.front.take_first() }
    }

    pub fn next_back(&mut self, source: Source<'_>) -> Option<(&[u8], u64)> {
        if self.back.is_empty() && self.is_more {
            self.fill(source, true);
        }
        if self.back.is_empty() { self.front.take_last() } else { self.back.take_first() }
    }

    /// Writes the pairs next to one end of the range to the chunk of that end.
    fn fill(&mut self, source: Source<'_>, is_backward: bool) {
        let chunk = if is_backward { &mut self.back } else { &mut self.front };
        let mut key_len = 0;
        let count = loop {
            chunk.grow(key_len);
            let (code, given) = source.next_pairs(&self.bounds, is_backward, &mut chunk.keys, &mut chunk.pairs);
            self.is_more = code != DONE;
            if code != TOO_LONG || given.count > 0 {
                break given.count;
            }
            key_len = given.key_len;
        };
        chunk.next = 0;
        chunk.count = count;
        chunk.start = 0;
        chunk.end = chunk.pairs[..count].iter().map(|pair| pair.key_len).sum();
        if self.is_more {
            let last = &chunk.pairs[count - 1];
            let key = chunk.keys[chunk.end - last.key_len..chunk.end].to_vec();
            *(if is_backward { &mut self.bounds.to } else { &mut self.bounds.from }) = Bound::Excluded(key);
        }
    }
}

/// How many pairs are left, at most.
#[derive(Clone, Copy)]
struct Left {
    most: usize,
    is_exact: bool,
}

impl Left {
    /// What is left of the pairs between two bounds, of a map of `len` pairs.
    fn new(bounds: &Bounds, len: usize) -> Left {
        Left { most: len, is_exact: matches!((&bounds.from, &bounds.to), (Bound::Unbounded, Bound::Unbounded)) }
    }

    fn one_less(&mut self) {
        self.most = self.most.saturating_sub(1);
    }

    fn size_hint(&self) -> (usize, Option<usize>) {
        (if self.is_exact { self.most } else { 0 }, Some(self.most))
    }
}

/// The pairs of a range in the order of their keys, from both ends. See [`Map::iter`](crate::Map::iter),
/// [`Map::range`](crate::Map::range) and [`Map::prefix`](crate::Map::prefix).
pub struct Iter<'a, V> {
    source: Source<'a>,
    values: &'a Slots<V>,
    cursor: Cursor,
    left: Left,
}

impl<'a, V> Iter<'a, V> {
    pub(crate) fn new(source: Source<'a>, values: &'a Slots<V>, bounds: Bounds, len: usize) -> Iter<'a, V> {
        let left = Left::new(&bounds, len);
        Iter { source, values, cursor: Cursor::new(bounds), left }
    }

    /// Returns the next pair, and borrows its key: nothing is copied.
    ///
    /// ```
    /// let map = vokujin::Map::from([("a", 1), ("b", 2)]);
    /// let mut pairs = map.iter();
    /// assert_eq!(pairs.next_borrowed(), Some((b"a".as_slice(), &1)));
    /// ```
    pub fn next_borrowed(&mut self) -> Option<(&[u8], &'a V)> {
        let (key, name) = self.cursor.next(self.source)?;
        self.left.one_less();
        Some((key, self.values.get(name)))
    }

    /// Returns the next pair from the back, and borrows its key.
    pub fn next_back_borrowed(&mut self) -> Option<(&[u8], &'a V)> {
        let (key, name) = self.cursor.next_back(self.source)?;
        self.left.one_less();
        Some((key, self.values.get(name)))
    }
}

impl<V> Clone for Iter<'_, V> {
    fn clone(&self) -> Self {
        Iter { cursor: self.cursor.clone(), ..*self }
    }
}

/// The slots of a map, of which each is borrowed once at most.
struct SlotsMut<'a, V> {
    slots: *mut Slot<V>,
    len: usize,
    borrowed: PhantomData<&'a mut [Slot<V>]>,
}

// SAFETY: it is a borrow of the slots, as `&mut [Slot<V>]` is.
unsafe impl<V: Send> Send for SlotsMut<'_, V> {}
unsafe impl<V: Sync> Sync for SlotsMut<'_, V> {}

impl<'a, V> SlotsMut<'a, V> {
    fn new(slots: &'a mut [Slot<V>]) -> SlotsMut<'a, V> {
        SlotsMut { slots: slots.as_mut_ptr(), len: slots.len(), borrowed: PhantomData }
    }

    /// Borrows a value.
    ///
    /// # Safety
    ///
    /// No name is passed twice.
    unsafe fn value(&self, name: u64) -> &'a mut V {
        let name = name as usize;
        assert!(name < self.len);
        // SAFETY: the slot is one of the slice that is borrowed for `'a`, and no other borrow of it was made.
        match unsafe { &mut *self.slots.add(name) } {
            Slot::Used(value) => value,
            Slot::Free(_) => unreachable!("slot {name} is free"),
        }
    }
}

/// The pairs of a range in the order of their keys, with values that may be changed, from both ends. See
/// [`Map::iter_mut`](crate::Map::iter_mut).
pub struct IterMut<'a, V> {
    tree: &'a Tree,
    values: SlotsMut<'a, V>,
    cursor: Cursor,
    left: Left,
}

impl<'a, V> IterMut<'a, V> {
    pub(crate) fn new(tree: &'a Tree, values: &'a mut Slots<V>, bounds: Bounds) -> IterMut<'a, V> {
        let left = Left::new(&bounds, tree.len());
        IterMut { tree, values: SlotsMut::new(values.as_mut_slice()), cursor: Cursor::new(bounds), left }
    }

    /// Returns the next pair, and borrows its key: nothing is copied.
    pub fn next_borrowed(&mut self) -> Option<(&[u8], &'a mut V)> {
        let (key, name) = self.cursor.next(Source::Tree(self.tree))?;
        self.left.one_less();
        // SAFETY: the tree is not changed during the iteration, so each pair is returned once, from one of the ends; and each
        // slot is that of one pair, since `Slots` names no slot that is used.
        Some((key, unsafe { self.values.value(name) }))
    }

    /// Returns the next pair from the back, and borrows its key.
    pub fn next_back_borrowed(&mut self) -> Option<(&[u8], &'a mut V)> {
        let (key, name) = self.cursor.next_back(Source::Tree(self.tree))?;
        self.left.one_less();
        // SAFETY: as from the front.
        Some((key, unsafe { self.values.value(name) }))
    }
}

/// The pairs of a map in the order of their keys, from both ends, by value.
pub struct IntoIter<V> {
    tree: Tree,
    values: Slots<V>,
    cursor: Cursor,
    left: Left,
}

impl<V> IntoIter<V> {
    pub(crate) fn new(tree: Tree, values: Slots<V>) -> IntoIter<V> {
        let left = Left::new(&Bounds::ALL, tree.len());
        IntoIter { tree, values, cursor: Cursor::new(Bounds::ALL), left }
    }

    fn next_borrowed(&mut self) -> Option<(&[u8], V)> {
        let (key, name) = self.cursor.next(Source::Tree(&self.tree))?;
        self.left.one_less();
        Some((key, self.values.take(name)))
    }

    fn next_back_borrowed(&mut self) -> Option<(&[u8], V)> {
        let (key, name) = self.cursor.next_back(Source::Tree(&self.tree))?;
        self.left.one_less();
        Some((key, self.values.take(name)))
    }
}

impl<V> ExactSizeIterator for IntoIter<V> {}

/// Implements the traits of iterators by `next_borrowed` and `next_back_borrowed`.
macro_rules! iterator {
    ([$($generics:tt)*] $name:ty, $item:ty, $pair:pat => $result:expr, $($inner:tt)*) => {
        impl<$($generics)*> Iterator for $name {
            type Item = $item;

            fn next(&mut self) -> Option<$item> {
                self.$($inner)*next_borrowed().map(|$pair| $result)
            }

            fn size_hint(&self) -> (usize, Option<usize>) {
                self.$($inner)*left.size_hint()
            }
        }

        impl<$($generics)*> DoubleEndedIterator for $name {
            fn next_back(&mut self) -> Option<$item> {
                self.$($inner)*next_back_borrowed().map(|$pair| $result)
            }
        }

        impl<$($generics)*> FusedIterator for $name {}

        impl<$($generics)*> fmt::Debug for $name {
            fn fmt(&self, f: &mut fmt::Formatter<'_>) -> fmt::Result {
                f.debug_struct(stringify!($name)).field("left_at_most", &self.$($inner)*left.most).finish_non_exhaustive()
            }
        }
    };
}

/// The keys of a map in order, from both ends. See [`Map::keys`](crate::Map::keys).
pub struct Keys<'a, V>(pub(crate) Iter<'a, V>);

/// The values of a map in the order of their keys, from both ends. See [`Map::values`](crate::Map::values).
pub struct Values<'a, V>(pub(crate) Iter<'a, V>);

/// The values of a map in the order of their keys, which may be changed. See [`Map::values_mut`](crate::Map::values_mut).
pub struct ValuesMut<'a, V>(pub(crate) IterMut<'a, V>);

/// The keys of a map in order, from both ends, of a map that is dropped. See [`Map::into_keys`](crate::Map::into_keys).
pub struct IntoKeys<V>(pub(crate) IntoIter<V>);

/// The values of a map in the order of their keys, by value. See [`Map::into_values`](crate::Map::into_values).
pub struct IntoValues<V>(pub(crate) IntoIter<V>);

iterator!(['a, V] Iter<'a, V>, (Vec<u8>, &'a V), (key, value) => (key.to_vec(), value),);
iterator!(['a, V] IterMut<'a, V>, (Vec<u8>, &'a mut V), (key, value) => (key.to_vec(), value),);
iterator!([V] IntoIter<V>, (Vec<u8>, V), (key, value) => (key.to_vec(), value),);
iterator!(['a, V] Keys<'a, V>, Vec<u8>, (key, _) => key.to_vec(), 0.);
iterator!(['a, V] Values<'a, V>, &'a V, (_, value) => value, 0.);
iterator!(['a, V] ValuesMut<'a, V>, &'a mut V, (_, value) => value, 0.);
iterator!([V] IntoKeys<V>, Vec<u8>, (key, _) => key.to_vec(), 0.);
iterator!([V] IntoValues<V>, V, (_, value) => value, 0.);

impl<V> Clone for Keys<'_, V> {
    fn clone(&self) -> Self {
        Keys(self.0.clone())
    }
}

impl<V> Clone for Values<'_, V> {
    fn clone(&self) -> Self {
        Values(self.0.clone())
    }
}

/// The pairs whose keys are prefixes of a query: the lengths of the keys, and the values. The shortest key is the first. See
/// [`Map::matches`](crate::Map::matches).
pub struct Matches<'a, V> {
    values: &'a Slots<V>,
    found: vec::IntoIter<(usize, u64)>,
}

impl<'a, V> Matches<'a, V> {
    /// Finds the matches, by a lookup of the longest match of a text.
    pub(crate) fn new(
        values: &'a Slots<V>,
        query: &[u8],
        longest_match: impl Fn(&[u8]) -> Option<(usize, u64)>,
    ) -> Matches<'a, V> {
        let mut found = Vec::new();
        let mut rest = Some(query);
        while let Some((len, name)) = rest.and_then(&longest_match) {
            found.push((len, name));
            rest = len.checked_sub(1).map(|shorter| &query[..shorter]);
        }
        found.reverse();
        Matches { values, found: found.into_iter() }
    }
}

impl<V> Clone for Matches<'_, V> {
    fn clone(&self) -> Self {
        Matches { values: self.values, found: self.found.clone() }
    }
}

impl<V> fmt::Debug for Matches<'_, V> {
    fn fmt(&self, f: &mut fmt::Formatter<'_>) -> fmt::Result {
        f.debug_struct("Matches").field("left", &self.found.len()).finish_non_exhaustive()
    }
}

impl<'a, V> Iterator for Matches<'a, V> {
    type Item = (usize, &'a V);

    fn next(&mut self) -> Option<(usize, &'a V)> {
        self.found.next().map(|(len, name)| (len, self.values.get(name)))
    }

    fn size_hint(&self) -> (usize, Option<usize>) {
        self.found.size_hint()
    }
}

impl<V> DoubleEndedIterator for Matches<'_, V> {
    fn next_back(&mut self) -> Option<Self::Item> {
        self.found.next_back().map(|(len, name)| (len, self.values.get(name)))
    }
}

impl<V> ExactSizeIterator for Matches<'_, V> {}
impl<V> FusedIterator for Matches<'_, V> {}
