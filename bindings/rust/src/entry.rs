//! Places of keys. See [`Map::entry`].

use std::fmt;

use crate::{Map, OutOfMemory, or_abort};

/// The place of a key in a map: with a value, or without.
pub enum Entry<'a, K, V> {
    /// The key is stored.
    Occupied(OccupiedEntry<'a, K, V>),
    /// The key is not stored.
    Vacant(VacantEntry<'a, K, V>),
}

/// The place of a key that is stored.
pub struct OccupiedEntry<'a, K, V> {
    pub(crate) map: &'a mut Map<V>,
    pub(crate) key: K,
    // of the slot of the value
    pub(crate) name: u64,
}

/// The place of a key that is not stored.
pub struct VacantEntry<'a, K, V> {
    pub(crate) map: &'a mut Map<V>,
    pub(crate) key: K,
}

impl<'a, K: AsRef<[u8]>, V> Entry<'a, K, V> {
    /// Returns the bytes of the key.
    pub fn key(&self) -> &[u8] {
        match self {
            Entry::Occupied(entry) => entry.key(),
            Entry::Vacant(entry) => entry.key(),
        }
    }

    /// Returns the value; where there is none, this one is inserted before.
    pub fn or_insert(self, value: V) -> &'a mut V {
        self.or_insert_with(|| value)
    }

    /// Returns the value; where there is none, what the function returns is inserted before.
    pub fn or_insert_with(self, value: impl FnOnce() -> V) -> &'a mut V {
        self.or_insert_with_key(|_| value())
    }

    /// Returns the value; where there is none, what the function returns for the key is inserted before.
    pub fn or_insert_with_key(self, value: impl FnOnce(&[u8]) -> V) -> &'a mut V {
        match self {
            Entry::Occupied(entry) => entry.into_mut(),
            Entry::Vacant(entry) => {
                let value = value(entry.key());
                entry.insert(value)
            }
        }
    }

    /// Returns the value; where there is none, the default one is inserted before.
    pub fn or_default(self) -> &'a mut V
    where
        V: Default,
    {
        self.or_insert_with(V::default)
    }

    /// Changes the value if there is one, and returns the entry.
    pub fn and_modify(mut self, change: impl FnOnce(&mut V)) -> Self {
        if let Entry::Occupied(entry) = &mut self {
            change(entry.get_mut());
        }
        self
    }
}

impl<'a, K: AsRef<[u8]>, V> OccupiedEntry<'a, K, V> {
    /// Returns the bytes of the key.
    pub fn key(&self) -> &[u8] {
        self.key.as_ref()
    }

    /// Returns the value.
    pub fn get(&self) -> &V {
        self.map.values.get(self.name)
    }

    /// Returns the value, which may be changed.
    pub fn get_mut(&mut self) -> &mut V {
        self.map.values.get_mut(self.name)
    }

    /// Returns the value for as long as the map is borrowed.
    pub fn into_mut(self) -> &'a mut V {
        self.map.values.get_mut(self.name)
    }

    /// Replaces the value, and returns the old one.
    pub fn insert(&mut self, value: V) -> V {
        std::mem::replace(self.get_mut(), value)
    }

    /// Removes the pair, and returns its value.
    ///
    /// # Panics
    ///
    /// If the key returns other bytes than before.
    pub fn remove(self) -> V {
        self.map.remove(self.key).expect("a key that returns the same bytes each time")
    }

    /// Removes the pair, and returns it.
    ///
    /// # Panics
    ///
    /// If the key returns other bytes than before.
    pub fn remove_entry(self) -> (Vec<u8>, V) {
        self.map.remove_entry(self.key).expect("a key that returns the same bytes each time")
    }
}

impl<'a, K: AsRef<[u8]>, V> VacantEntry<'a, K, V> {
    /// Returns the bytes of the key.
    pub fn key(&self) -> &[u8] {
        self.key.as_ref()
    }

    /// Returns the key.
    pub fn into_key(self) -> K {
        self.key
    }

    /// Inserts a value, and borrows it.
    pub fn insert(self, value: V) -> &'a mut V {
        or_abort(self.try_insert(value))
    }

    /// Inserts a value, and borrows it. If an allocation fails, the map is unchanged, and the value is dropped.
    pub fn try_insert(self, value: V) -> Result<&'a mut V, OutOfMemory> {
        self.map.place(self.key.as_ref(), value).map(|(value, _)| value)
    }
}

fn shown(key: &[u8]) -> String {
    key.escape_ascii().to_string()
}

impl<K: AsRef<[u8]>, V: fmt::Debug> fmt::Debug for Entry<'_, K, V> {
    fn fmt(&self, f: &mut fmt::Formatter<'_>) -> fmt::Result {
        match self {
            Entry::Occupied(entry) => f.debug_tuple("Entry").field(entry).finish(),
            Entry::Vacant(entry) => f.debug_tuple("Entry").field(entry).finish(),
        }
    }
}

impl<K: AsRef<[u8]>, V: fmt::Debug> fmt::Debug for OccupiedEntry<'_, K, V> {
    fn fmt(&self, f: &mut fmt::Formatter<'_>) -> fmt::Result {
        f.debug_struct("OccupiedEntry").field("key", &shown(self.key())).field("value", self.get()).finish()
    }
}

impl<K: AsRef<[u8]>, V> fmt::Debug for VacantEntry<'_, K, V> {
    fn fmt(&self, f: &mut fmt::Formatter<'_>) -> fmt::Result {
        f.debug_tuple("VacantEntry").field(&shown(self.key())).finish()
    }
}
