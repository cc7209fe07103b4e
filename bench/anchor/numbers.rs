//! Maps from ids and variables, and the numbers under which far variables stand in tables by
//! literal.
use std::collections::HashMap;
use std::hash::{BuildHasherDefault, Hasher};

pub type NumberMap = HashMap<u64, u32, BuildHasherDefault<Spread>>;

/// A key is spread by one multiplication.
#[derive(Default)]
pub struct Spread(u64);

impl Hasher for Spread {
    fn finish(&self) -> u64 {
        self.0
    }

    fn write(&mut self, bytes: &[u8]) {
        bytes
            .iter()
            .for_each(|&byte| self.write_u64(u64::from(byte)));
    }

    fn write_u64(&mut self, number: u64) {
        let product = (self.0 ^ number).wrapping_mul(0x9e37_79b9_7f4a_7c15);
        self.0 = product ^ (product >> 32);
    }
}

/// Numbers of variables that got one of their own, each the next free one.
#[derive(Default)]
pub struct Numbers {
    first: u32,
    given: NumberMap,
}

impl Numbers {
    pub fn starting_at(first: u32) -> Self {
        Numbers {
            first,
            given: NumberMap::default(),
        }
    }

    /// The next free number.
    pub fn free(&self) -> u32 {
        self.first + self.given.len() as u32
    }

    /// The literal with its variable's number, if that has one.
    pub fn known(&self, literal: u32) -> Option<u32> {
        self.given
            .get(&u64::from(literal >> 1))
            .map(|number| number << 1 | (literal & 1))
    }

    /// The literal with its variable's number, which it may get now.
    pub fn of(&mut self, literal: u32) -> u32 {
        let free = self.free();
        let number = *self.given.entry(u64::from(literal >> 1)).or_insert(free);
        number << 1 | (literal & 1)
    }

    /// Forgets all numbers.
    pub fn clear(&mut self) {
        self.given.clear();
    }
}
