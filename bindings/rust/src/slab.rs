//! Values under keys, which the mesh keeps as the data of its elements.

use crate::refusal::Refusal;
use std::collections::TryReserveError;
use std::mem;

/// Values, each under a key above 0. Free places are linked through
/// the list itself, so taking a value out needs no memory.
pub(crate) struct Slab<T> {
    places: Vec<Place<T>>,
    /// The key that was freed last, or 0.
    free: u64,
    filled: usize,
}

#[derive(Clone)]
enum Place<T> {
    Filled(T),
    /// With the key that is to be used again after this one, or 0.
    Free(u64),
}

impl<T> Slab<T> {
    pub(crate) const fn new() -> Self {
        Self {
            places: Vec::new(),
            free: 0,
            filled: 0,
        }
    }

    pub(crate) fn is_empty(&self) -> bool {
        self.filled == 0
    }

    /// Makes room for that many more values.
    pub(crate) fn try_reserve(&mut self, more: usize) -> Result<(), Refusal> {
        let more = more.saturating_sub(self.places.len() - self.filled);
        self.places.try_reserve(more).map_err(no_memory)
    }

    /// Makes room in one without values for so many, and returns the keys that these will have.
    pub(crate) fn try_keys(&mut self, count: usize) -> Result<Vec<u64>, Refusal> {
        debug_assert!(self.places.is_empty());
        self.try_reserve(count)?;
        let mut keys = Vec::new();
        keys.try_reserve_exact(count).map_err(no_memory)?;
        keys.extend(1..=count as u64);
        Ok(keys)
    }

    /// Takes all values out of a list, in their order.
    pub(crate) fn insert_all(&mut self, values: &mut Vec<T>) {
        for value in values.drain(..) {
            self.insert(value);
        }
    }

    /// Takes a value in, and returns its key, or the value if there is no memory for it.
    #[inline]
    pub(crate) fn try_insert(&mut self, value: T) -> Result<u64, T> {
        match self.try_reserve(1) {
            Ok(()) => Ok(self.insert(value)),
            Err(_) => Err(value),
        }
    }

    /// Takes a value in, and returns its key.
    pub(crate) fn insert(&mut self, value: T) -> u64 {
        let (key, filled) = (self.free, Place::Filled(value));
        self.filled += 1;
        if key == 0 {
            self.places.push(filled);
            return self.places.len() as u64;
        }
        match mem::replace(&mut self.places[place_of(key)], filled) {
            Place::Free(next) => self.free = next,
            Place::Filled(_) => unreachable!("a free key has no value"),
        }
        key
    }

    /// Takes the value of a key out, after which the key is free.
    pub(crate) fn remove(&mut self, key: u64) -> T {
        let free = Place::Free(self.free);
        match mem::replace(&mut self.places[place_of(key)], free) {
            Place::Filled(value) => {
                self.free = key;
                self.filled -= 1;
                value
            }
            Place::Free(_) => panic!("{FILLED}"),
        }
    }

    #[inline]
    pub(crate) fn get(&self, key: u64) -> &T {
        match &self.places[place_of(key)] {
            Place::Filled(value) => value,
            Place::Free(_) => panic!("{FILLED}"),
        }
    }

    #[inline]
    pub(crate) fn get_mut(&mut self, key: u64) -> &mut T {
        match &mut self.places[place_of(key)] {
            Place::Filled(value) => value,
            Place::Free(_) => panic!("{FILLED}"),
        }
    }
}

impl<T: Clone> Slab<T> {
    /// Clones all values, under the same keys.
    pub(crate) fn try_clone(&self) -> Result<Self, Refusal> {
        let mut places = Vec::new();
        places
            .try_reserve_exact(self.places.len())
            .map_err(no_memory)?;
        places.extend_from_slice(&self.places);
        Ok(Self { places, ..*self })
    }
}

/// Tells that a list found no memory, or would have no room in all memory.
pub(crate) fn no_memory(_: TryReserveError) -> Refusal {
    Refusal::OutOfMemory
}

const FILLED: &str = "each key of the mesh has a value";

#[inline]
fn place_of(key: u64) -> usize {
    (key - 1) as usize
}

/// Values of which those that were never written are one default value, under key 0.
pub(crate) struct Values<T> {
    written: Slab<T>,
    default: T,
    make: fn() -> T,
}

impl<T: Default> Default for Values<T> {
    fn default() -> Self {
        Self {
            written: Slab::new(),
            default: T::default(),
            make: T::default,
        }
    }
}

impl<T> Values<T> {
    pub(crate) fn is_empty(&self) -> bool {
        self.written.is_empty()
    }

    /// Makes room in one without values for so many, and returns the keys that these will have.
    pub(crate) fn try_keys(&mut self, count: usize) -> Result<Vec<u64>, Refusal> {
        self.written.try_keys(count)
    }

    /// Takes all values out of a list, in their order.
    pub(crate) fn insert_all(&mut self, values: &mut Vec<T>) {
        self.written.insert_all(values);
    }

    /// Takes a value in, and returns its key.
    pub(crate) fn insert(&mut self, value: T) -> u64 {
        self.written.insert(value)
    }

    /// Takes a default value in, and returns its key.
    pub(crate) fn insert_default(&mut self) -> u64 {
        self.written.insert((self.make)())
    }

    #[inline]
    pub(crate) fn get(&self, key: u64) -> &T {
        if key == 0 {
            &self.default
        } else {
            self.written.get(key)
        }
    }

    #[inline]
    pub(crate) fn get_mut(&mut self, key: u64) -> &mut T {
        self.written.get_mut(key)
    }

    /// Takes out what was written under the key, or makes a default value if nothing was.
    pub(crate) fn take(&mut self, key: u64) -> T {
        if key == 0 {
            (self.make)()
        } else {
            self.written.remove(key)
        }
    }

    /// Drops what was written under the keys.
    pub(crate) fn remove_all(&mut self, keys: Vec<u64>) {
        for key in keys {
            self.written.remove(key);
        }
    }

    /// Takes all written values out.
    pub(crate) fn take_all(&mut self) -> Slab<T> {
        mem::replace(&mut self.written, Slab::new())
    }
}

impl<T: Clone> Values<T> {
    /// Clones all values, under the same keys.
    pub(crate) fn try_clone(&self) -> Result<Self, Refusal> {
        Ok(Self {
            written: self.written.try_clone()?,
            default: self.default.clone(),
            make: self.make,
        })
    }
}

#[cfg(test)]
mod tests {
    use super::{Slab, Values};

    #[test]
    fn keys_start_at_one_and_are_used_again() {
        let mut slab = Slab::new();
        assert!(slab.is_empty());
        assert_eq!(
            [slab.insert('a'), slab.insert('b'), slab.insert('c')],
            [1, 2, 3]
        );
        assert_eq!(slab.remove(2), 'b');
        assert_eq!(slab.insert('d'), 2);
        *slab.get_mut(2) = 'e';
        assert_eq!([slab.get(1), slab.get(2), slab.get(3)], [&'a', &'e', &'c']);
        assert_eq!(
            [slab.remove(1), slab.remove(2), slab.remove(3)],
            ['a', 'e', 'c']
        );
        assert!(slab.is_empty());
        let again = ['f', 'g', 'h', 'i'].map(|value| slab.insert(value));
        assert_eq!(again, [3, 2, 1, 4]);
    }

    #[test]
    #[should_panic = "each key of the mesh has a value"]
    fn a_free_key_has_no_value() {
        let mut slab = Slab::new();
        let key = slab.insert('a');
        slab.remove(key);
        slab.remove(key);
    }

    #[test]
    fn key_0_is_the_default() {
        let mut values = Values::<u8>::default();
        assert_eq!(
            (values.take(0), values.get(0), values.is_empty()),
            (0, &0, true)
        );
        let key = values.insert_default();
        *values.get_mut(key) = 7;
        assert_eq!(
            (values.get(key), values.get(0), values.is_empty()),
            (&7, &0, false)
        );
        assert_eq!((values.take(key), values.is_empty()), (7, true));
    }

    #[test]
    fn a_clone_keeps_the_keys() {
        let mut values = Values::<String>::default();
        let keys = [values.insert("a".into()), values.insert("b".into())];
        values.remove_all(vec![keys[0]]);
        let mut clone = values.try_clone().unwrap();
        assert_eq!(clone.get(keys[1]), "b");
        clone.get_mut(keys[1]).push('c');
        assert_eq!(values.get(keys[1]), "b");
        assert_eq!(clone.insert("d".into()), keys[0]);
        assert!(!clone.take_all().is_empty() && clone.is_empty() && !values.is_empty());
    }
}
