//! What several tests share.
#![allow(dead_code)]

use std::cell::Cell;
use std::rc::Rc;

pub struct Random(pub u64);

impl Random {
    pub fn next(&mut self) -> u64 {
        self.0 ^= self.0 << 13;
        self.0 ^= self.0 >> 7;
        self.0 ^= self.0 << 17;
        self.0
    }

    /// Returns a short key, of few bytes or of any.
    pub fn key(&mut self) -> Vec<u8> {
        let len = self.next() % 7;
        let bytes = [256, 3, 3, 3][self.next() as usize % 4];
        (0..len).map(|_| (self.next() % bytes) as u8).collect()
    }
}

/// How many values there are, and which one panics when it is dropped or cloned.
#[derive(Default)]
pub struct Counts {
    live: Cell<usize>,
    panics: Cell<Option<u64>>,
}

impl Counts {
    pub fn live(&self) -> usize {
        self.live.get()
    }

    /// Lets the next drop or clone of a value with this number panic.
    pub fn panic_at(&self, number: u64) {
        self.panics.set(Some(number));
    }

    fn may_panic(&self, number: u64) {
        if self.panics.get() == Some(number) {
            self.panics.set(None);
            panic!("value {number} panics");
        }
    }
}

/// A value that is counted. Its number is in a block of memory of its own, so that a tool sees one that is used too late.
pub struct Value {
    number: Box<u64>,
    counts: Rc<Counts>,
}

impl Value {
    pub fn new(number: u64, counts: &Rc<Counts>) -> Value {
        counts.live.set(counts.live() + 1);
        Value { number: Box::new(number), counts: Rc::clone(counts) }
    }

    pub fn number(&self) -> u64 {
        *self.number
    }

    pub fn set(&mut self, number: u64) {
        *self.number = number;
    }
}

impl Clone for Value {
    fn clone(&self) -> Value {
        self.counts.may_panic(self.number());
        Value::new(self.number(), &self.counts)
    }
}

impl Drop for Value {
    fn drop(&mut self) {
        self.counts.live.set(self.counts.live().checked_sub(1).expect("a value that was not dropped"));
        self.counts.may_panic(self.number());
    }
}

impl PartialEq for Value {
    fn eq(&self, other: &Value) -> bool {
        self.number == other.number
    }
}
