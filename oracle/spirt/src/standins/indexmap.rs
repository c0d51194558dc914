//! Stands in for the crate `indexmap`: maps and sets in insertion order.
//!
//! As there: inserting a key that is present keeps its place and replaces its value, `retain`
//! keeps the order, and indexing by a key or place that is not there panics.

use std::collections::HashMap;
use std::hash::{BuildHasher, Hash};
use std::ops::{Index, IndexMut};

#[derive(Clone)]
pub struct IndexMap<K, V, S> {
    entries: Vec<(K, V)>,
    places: HashMap<K, usize, S>,
}

impl<K, V, S: Default> Default for IndexMap<K, V, S> {
    fn default() -> Self {
        Self { entries: Vec::new(), places: HashMap::default() }
    }
}

impl<K, V, S> IndexMap<K, V, S> {
    pub fn len(&self) -> usize {
        self.entries.len()
    }

    pub fn is_empty(&self) -> bool {
        self.entries.is_empty()
    }

    pub fn first(&self) -> Option<(&K, &V)> {
        self.get_index(0)
    }

    pub fn get_index(&self, place: usize) -> Option<(&K, &V)> {
        self.entries.get(place).map(|(key, value)| (key, value))
    }

    pub fn iter(&self) -> impl Iterator<Item = (&K, &V)> + Clone {
        self.entries.iter().map(|(key, value)| (key, value))
    }

    pub fn keys(&self) -> impl Iterator<Item = &K> + Clone {
        self.entries.iter().map(|(key, _)| key)
    }

    pub fn values(&self) -> impl Iterator<Item = &V> + Clone {
        self.entries.iter().map(|(_, value)| value)
    }
}

impl<K: Copy + Eq + Hash, V, S: BuildHasher> IndexMap<K, V, S> {
    pub fn get(&self, key: &K) -> Option<&V> {
        self.places.get(key).map(|&place| &self.entries[place].1)
    }

    pub fn get_mut(&mut self, key: &K) -> Option<&mut V> {
        self.places.get(key).map(|&place| &mut self.entries[place].1)
    }

    pub fn insert(&mut self, key: K, value: V) -> Option<V> {
        match self.get_mut(&key) {
            Some(old) => Some(std::mem::replace(old, value)),
            None => {
                self.places.insert(key, self.entries.len());
                self.entries.push((key, value));
                None
            }
        }
    }

    pub fn retain(&mut self, mut keep: impl FnMut(&K, &mut V) -> bool) {
        self.entries.retain_mut(|(key, value)| keep(key, value));
        self.places.clear();
        self.places.extend(self.entries.iter().enumerate().map(|(place, &(key, _))| (key, place)));
    }

    pub fn entry(&mut self, key: K) -> map::Entry<'_, K, V, S> {
        match self.places.get(&key) {
            Some(&place) => {
                map::Entry::Occupied(map::OccupiedEntry { value: &mut self.entries[place].1 })
            }
            None => map::Entry::Vacant(map::VacantEntry { map: self, key }),
        }
    }
}

impl<K: Copy + Eq + Hash, V, S: BuildHasher> Index<&K> for IndexMap<K, V, S> {
    type Output = V;
    fn index(&self, key: &K) -> &V {
        self.get(key).expect("IndexMap: key not found")
    }
}

impl<K: Copy + Eq + Hash, V, S: BuildHasher> IndexMut<&K> for IndexMap<K, V, S> {
    fn index_mut(&mut self, key: &K) -> &mut V {
        self.get_mut(key).expect("IndexMap: key not found")
    }
}

impl<K, V, S> Index<usize> for IndexMap<K, V, S> {
    type Output = V;
    fn index(&self, place: usize) -> &V {
        &self.entries[place].1
    }
}

impl<K, V, S> IndexMut<usize> for IndexMap<K, V, S> {
    fn index_mut(&mut self, place: usize) -> &mut V {
        &mut self.entries[place].1
    }
}

impl<K: Copy + Eq + Hash, V, S: BuildHasher + Default> FromIterator<(K, V)> for IndexMap<K, V, S> {
    fn from_iter<I: IntoIterator<Item = (K, V)>>(entries: I) -> Self {
        let mut map = Self::default();
        for (key, value) in entries {
            map.insert(key, value);
        }
        map
    }
}

pub mod map {
    use super::*;

    pub enum Entry<'a, K, V, S> {
        Occupied(OccupiedEntry<'a, V>),
        Vacant(VacantEntry<'a, K, V, S>),
    }

    pub struct OccupiedEntry<'a, V> {
        pub(super) value: &'a mut V,
    }

    impl<V> OccupiedEntry<'_, V> {
        pub fn get(&self) -> &V {
            self.value
        }
    }

    pub struct VacantEntry<'a, K, V, S> {
        pub(super) map: &'a mut IndexMap<K, V, S>,
        pub(super) key: K,
    }

    impl<K: Copy + Eq + Hash, V, S: BuildHasher> VacantEntry<'_, K, V, S> {
        pub fn insert(self, value: V) {
            self.map.insert(self.key, value);
        }
    }
}

#[derive(Clone)]
pub struct IndexSet<T, S>(IndexMap<T, (), S>);

impl<T, S: Default> Default for IndexSet<T, S> {
    fn default() -> Self {
        Self(IndexMap::default())
    }
}

impl<T: Copy + Eq + Hash, S: BuildHasher> IndexSet<T, S> {
    pub fn insert(&mut self, item: T) -> bool {
        self.0.insert(item, ()).is_none()
    }
}

impl<T, S> IntoIterator for IndexSet<T, S> {
    type Item = T;
    type IntoIter = std::iter::Map<std::vec::IntoIter<(T, ())>, fn((T, ())) -> T>;
    fn into_iter(self) -> Self::IntoIter {
        self.0.entries.into_iter().map(|(item, ())| item)
    }
}
