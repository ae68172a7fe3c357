//! The values of a map, each in a slot. The tree has the names of the slots.

/// Slots for values. The free ones are a list, from the one that was freed last.
#[derive(Debug)]
pub(crate) struct Slots<V> {
    slots: Vec<Slot<V>>,
    // the first free slot; the number of slots if there is none
    free: usize,
}

#[derive(Debug)]
pub(crate) enum Slot<V> {
    Used(V),
    // the next free slot
    Free(usize),
}

impl<V> Slots<V> {
    pub const fn new() -> Slots<V> {
        Slots { slots: Vec::new(), free: 0 }
    }

    /// Returns the name that the next value will have, or `None` if an allocation for it fails.
    pub fn reserve(&mut self) -> Option<u64> {
        if self.free == self.slots.len() {
            self.slots.try_reserve(1).ok()?;
        }
        Some(self.free as u64)
    }

    /// Puts a value into the slot that `reserve` named, and returns it there.
    pub fn fill(&mut self, value: V) -> &mut V {
        let name = self.free;
        match self.slots.get_mut(name) {
            None => {
                self.slots.push(Slot::Used(value));
                self.free = self.slots.len();
            }
            Some(slot) => match std::mem::replace(slot, Slot::Used(value)) {
                Slot::Free(next) => self.free = next,
                Slot::Used(_) => unreachable!("slot {name} is used"),
            },
        }
        self.get_mut(name as u64)
    }

    /// Takes a value out of its slot.
    pub fn take(&mut self, name: u64) -> V {
        // The list ends with the number of slots, which has grown where no slot was free.
        let slot = &mut self.slots[name as usize];
        match std::mem::replace(slot, Slot::Free(self.free)) {
            Slot::Used(value) => {
                self.free = name as usize;
                value
            }
            Slot::Free(_) => unreachable!("slot {name} is free"),
        }
    }

    pub fn get(&self, name: u64) -> &V {
        match &self.slots[name as usize] {
            Slot::Used(value) => value,
            Slot::Free(_) => unreachable!("slot {name} is free"),
        }
    }

    pub fn get_mut(&mut self, name: u64) -> &mut V {
        match &mut self.slots[name as usize] {
            Slot::Used(value) => value,
            Slot::Free(_) => unreachable!("slot {name} is free"),
        }
    }

    pub fn as_mut_slice(&mut self) -> &mut [Slot<V>] {
        &mut self.slots
    }
}

#[cfg(test)]
mod tests {
    use super::Slots;

    /// Freed slots are used again, the last one first, and no slot has two names.
    #[test]
    fn slots_are_used_again() {
        let mut slots = Slots::new();
        let mut names = Vec::new();
        for number in 0..10 {
            names.push(slots.reserve().unwrap());
            assert_eq!(*slots.fill(number), number);
        }
        assert_eq!(names, Vec::from_iter(0..10));
        for name in [3, 7, 0] {
            assert_eq!(slots.take(name), name);
        }
        for (name, number) in [(0, 20), (7, 21), (3, 22), (10, 23)] {
            assert_eq!(slots.reserve(), Some(name));
            slots.fill(number);
            assert_eq!(*slots.get(name), number);
        }
        assert_eq!((*slots.get(9), slots.as_mut_slice().len()), (9, 11));
    }

    /// A slot that is reserved is free until it is filled.
    #[test]
    fn a_reservation_may_be_dropped() {
        let mut slots = Slots::new();
        assert_eq!((slots.reserve(), slots.reserve()), (Some(0), Some(0)));
        slots.fill('a');
        assert_eq!((slots.reserve(), slots.take(0), slots.reserve()), (Some(1), 'a', Some(0)));
    }

    #[test]
    #[should_panic = "slot 0 is free"]
    fn a_free_slot_has_no_value() {
        let mut slots = Slots::new();
        slots.fill(1);
        slots.take(0);
        slots.get(0);
    }
}
