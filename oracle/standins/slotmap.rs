//! A table of numbered places, each empty or with a value.

use core::ptr::NonNull;
use std::collections::BTreeMap;

use crate::testing::abandonable::Abandonable;

#[derive(Clone, Copy, Debug, PartialEq, Eq, PartialOrd, Ord)]
pub struct SlotMapKey(usize);

impl SlotMapKey {
    pub fn new(value: usize) -> Self {
        Self(value)
    }

    pub fn value(&self) -> usize {
        self.0
    }
}

/// Values are boxed, so that a change of one place leaves the values in the others where they are.
#[derive(Debug)]
pub struct SlotMap<T> {
    places: BTreeMap<usize, Box<T>>,
    capacity: usize,
}

impl<T> SlotMap<T> {
    pub fn new(capacity: usize) -> Self {
        Self { places: BTreeMap::new(), capacity }
    }

    pub fn len(&self) -> usize {
        self.places.len()
    }

    pub fn is_empty(&self) -> bool {
        self.places.is_empty()
    }

    pub fn get(&self, key: SlotMapKey) -> Option<&T> {
        self.places.get(&key.0).map(|value| &**value)
    }

    /// Puts the value in the first empty place.
    pub fn insert(&mut self, value: T) -> Option<SlotMapKey> {
        let key = (0..self.capacity).find(|place| !self.places.contains_key(place))?;
        self.places.insert(key, Box::new(value));
        Some(SlotMapKey(key))
    }

    /// Puts the value in the place of that number, whatever stood there.
    pub fn insert_at(&mut self, key: SlotMapKey, value: T) -> bool {
        if key.0 >= self.capacity {
            return false;
        }
        self.places.insert(key.0, Box::new(value));
        true
    }

    pub fn remove(&mut self, key: SlotMapKey) -> bool {
        self.places.remove(&key.0).is_some()
    }
}

impl<T: Abandonable> Abandonable for SlotMap<T> {
    unsafe fn abandon_in_place(mut this: NonNull<Self>) {
        for (_, value) in core::mem::take(unsafe { &mut this.as_mut().places }) {
            let value = NonNull::from(Box::leak(value));
            unsafe { T::abandon_in_place(value) };
        }
    }
}
