//! A map that keeps its keys in the order in which they came.

use super::asking::uncounted;
use super::{AllocFailed, Global};
use std::borrow::Borrow;
use std::cell::Cell;
use std::collections::HashMap;
use std::hash::Hash;

/// Each key's place, the pairs in order, and the place that was found last: rows ask for the same key again and again.
pub struct IndexMap<K, V> {
    places: HashMap<K, usize>,
    pairs: Vec<(K, V)>,
    last: Cell<usize>,
}

impl<K: Clone + Eq + Hash, V> IndexMap<K, V> {
    pub fn new() -> IndexMap<K, V> {
        IndexMap { places: HashMap::new(), pairs: Vec::new(), last: Cell::new(0) }
    }

    pub fn len(&self) -> usize {
        self.pairs.len()
    }

    fn place<Q: Eq + Hash + ?Sized>(&self, key: &Q) -> Option<usize>
    where
        K: Borrow<Q>,
    {
        let last = self.last.get();
        if self.pairs.get(last).map_or(false, |(had, _)| had.borrow() == key) {
            return Some(last);
        }
        let place = *self.places.get(key)?;
        self.last.set(place);
        Some(place)
    }

    pub fn get<Q: Eq + Hash + ?Sized>(&self, key: &Q) -> Option<&V>
    where
        K: Borrow<Q>,
    {
        self.place(key).map(|place| &self.pairs[place].1)
    }

    pub fn get_mut<Q: Eq + Hash + ?Sized>(&mut self, key: &Q) -> Option<&mut V>
    where
        K: Borrow<Q>,
    {
        self.place(key).map(|place| &mut self.pairs[place].1)
    }

    pub fn get_index(&self, place: usize) -> Option<(&K, &V)> {
        self.pairs.get(place).map(|(key, value)| (key, value))
    }

    /// The last stands in its place.
    pub fn swap_remove<Q: Eq + Hash + ?Sized>(&mut self, key: &Q) -> Option<V>
    where
        K: Borrow<Q>,
    {
        let place = self.places.remove(key)?;
        let (_, value) = self.pairs.swap_remove(place);
        if let Some((moved, _)) = self.pairs.get(place) {
            uncounted(|| self.places.insert(moved.clone(), place));
        }
        Some(value)
    }

    pub fn clear(&mut self) {
        self.places.clear();
        self.pairs.clear();
    }
}

impl Global {
    pub fn insert<K: Clone + Eq + Hash, V>(map: &mut IndexMap<K, V>, key: K, value: V) -> Result<Option<V>, AllocFailed<(K, V)>> {
        if let Some(place) = map.places.get(&key) {
            return Ok(Some(std::mem::replace(&mut map.pairs[*place].1, value)));
        }
        if map.pairs.try_reserve(1).is_err() || map.places.try_reserve(1).is_err() {
            return Err(AllocFailed { value: (key, value) });
        }
        uncounted(|| map.places.insert(key.clone(), map.pairs.len()));
        map.pairs.push((key, value));
        Ok(None)
    }
}
