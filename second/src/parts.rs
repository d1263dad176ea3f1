//! A table with one entry for each part that was ever touched.

use crate::message::{FILES, PARTS, Place};

/// Entries by part. Untouched parts take no room but four bytes of an index, so that a new
/// table is cheap, and those that were touched can be gone through quickly.
pub struct PartTable<T> {
    /// For each part, one above its slot, or 0 where it has none.
    slot_above: Vec<u32>,
    slots: Vec<(Place, T)>,
}

impl<T: Default> PartTable<T> {
    pub fn new() -> PartTable<T> {
        PartTable { slot_above: vec![0; FILES * PARTS], slots: Vec::new() }
    }

    pub fn get(&self, place: Place) -> Option<&T> {
        let above = self.slot_above[place.index()] as usize;
        above.checked_sub(1).map(|slot| &self.slots[slot].1)
    }

    /// The part's entry, made where there was none.
    pub fn touch(&mut self, place: Place) -> &mut T {
        let above = &mut self.slot_above[place.index()];
        if *above == 0 {
            self.slots.push((place, T::default()));
            *above = self.slots.len() as u32;
        }
        &mut self.slots[*above as usize - 1].1
    }

    /// The parts that were touched.
    pub fn iter(&self) -> impl Iterator<Item = (Place, &T)> {
        self.slots.iter().map(|(place, entry)| (*place, entry))
    }
}

impl<T: Default> Default for PartTable<T> {
    fn default() -> Self {
        PartTable::new()
    }
}
