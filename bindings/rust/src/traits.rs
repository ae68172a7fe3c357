//! std's traits of maps.

use std::cmp::Ordering;
use std::fmt;
use std::hash::{Hash, Hasher};
use std::ops::Index;

use crate::filling::Filling;
use crate::{Frozen, Iter, Map};

impl<V> Default for Map<V> {
    fn default() -> Map<V> {
        Map::new()
    }
}

impl<V: Clone> Clone for Map<V> {
    fn clone(&self) -> Map<V> {
        let (mut filling, mut pairs) = (Filling::new(), self.iter());
        while let Some((key, value)) = pairs.next_borrowed() {
            filling.insert(key, value.clone());
        }
        filling.finish()
    }
}

impl<K: AsRef<[u8]>, V> Extend<(K, V)> for Map<V> {
    fn extend<T: IntoIterator<Item = (K, V)>>(&mut self, pairs: T) {
        for (key, value) in pairs {
            self.insert(key, value);
        }
    }
}

/// Makes a map of pairs. It takes the least time where their keys rise.
impl<K: AsRef<[u8]>, V> FromIterator<(K, V)> for Map<V> {
    fn from_iter<T: IntoIterator<Item = (K, V)>>(pairs: T) -> Map<V> {
        let mut filling = Filling::new();
        for (key, value) in pairs {
            filling.insert(key.as_ref(), value);
        }
        filling.finish()
    }
}

impl<K: AsRef<[u8]>, V, const N: usize> From<[(K, V); N]> for Map<V> {
    fn from(pairs: [(K, V); N]) -> Map<V> {
        Map::from_iter(pairs)
    }
}

/// Compares pairs one after another, by a comparison of two of them, and what is left at last by its length.
fn compare<'a, 'b, V>(
    mut one: Iter<'a, V>,
    mut other: Iter<'b, V>,
    mut values: impl FnMut(&'a V, &'b V) -> Option<Ordering>,
) -> Option<Ordering> {
    loop {
        let (first, second) = match (one.next_borrowed(), other.next_borrowed()) {
            (None, None) => return Some(Ordering::Equal),
            (None, Some(_)) => return Some(Ordering::Less),
            (Some(_), None) => return Some(Ordering::Greater),
            (Some(first), Some(second)) => (first, second),
        };
        match first.0.cmp(second.0) {
            Ordering::Equal => match values(first.1, second.1) {
                Some(Ordering::Equal) => (),
                unequal => return unequal,
            },
            unequal => return Some(unequal),
        }
    }
}

fn show<V: fmt::Debug>(mut pairs: Iter<'_, V>, f: &mut fmt::Formatter<'_>) -> fmt::Result {
    let mut shown = f.debug_map();
    while let Some((key, value)) = pairs.next_borrowed() {
        shown.entry(&key.escape_ascii().to_string(), value);
    }
    shown.finish()
}

macro_rules! traits {
    ($map:ident) => {
        impl<V: PartialEq> PartialEq for $map<V> {
            fn eq(&self, other: &Self) -> bool {
                let same = |one: &V, other: &V| (one == other).then_some(Ordering::Equal);
                self.len() == other.len() && compare(self.iter(), other.iter(), same) == Some(Ordering::Equal)
            }
        }

        impl<V: Eq> Eq for $map<V> {}

        impl<V: PartialOrd> PartialOrd for $map<V> {
            fn partial_cmp(&self, other: &Self) -> Option<Ordering> {
                compare(self.iter(), other.iter(), V::partial_cmp)
            }
        }

        impl<V: Ord> Ord for $map<V> {
            fn cmp(&self, other: &Self) -> Ordering {
                compare(self.iter(), other.iter(), |one, other| Some(one.cmp(other))).expect("an order of all values")
            }
        }

        impl<V: Hash> Hash for $map<V> {
            fn hash<H: Hasher>(&self, state: &mut H) {
                state.write_usize(self.len());
                let mut pairs = self.iter();
                while let Some(pair) = pairs.next_borrowed() {
                    pair.hash(state);
                }
            }
        }

        impl<V: fmt::Debug> fmt::Debug for $map<V> {
            fn fmt(&self, f: &mut fmt::Formatter<'_>) -> fmt::Result {
                show(self.iter(), f)
            }
        }

        /// Returns the value of a key.
        ///
        /// # Panics
        ///
        /// If the key is not stored.
        impl<K: AsRef<[u8]> + ?Sized, V> Index<&K> for $map<V> {
            type Output = V;

            fn index(&self, key: &K) -> &V {
                self.get(key).expect("no entry found for key")
            }
        }
    };
}

traits!(Map);
traits!(Frozen);
