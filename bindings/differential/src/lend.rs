//! Memory to lend, full of dirt and with watched entries on both sides.

/// Entries on either side that must never change.
const WATCHED: usize = 64;

pub struct Lent<T> {
    dirt: Vec<T>,
    memory: Vec<T>,
    length: usize,
}

impl<T: Copy + PartialEq> Lent<T> {
    /// Room to lend up to `most` entries.
    pub fn new(most: usize, entry: impl FnMut() -> T) -> Self {
        let dirt: Vec<T> = std::iter::repeat_with(entry).take(WATCHED + most + WATCHED).collect();
        Lent { memory: dirt.clone(), dirt, length: 0 }
    }

    /// Lends so many entries, all dirty.
    pub fn lend(&mut self, length: usize) -> &mut [T] {
        assert!(WATCHED + length + WATCHED <= self.memory.len(), "there is no room to lend {length} entries");
        self.length = length;
        self.memory.copy_from_slice(&self.dirt);
        &mut self.memory[WATCHED..][..length]
    }

    /// What the entries lent held before.
    pub fn before(&self) -> &[T] {
        &self.dirt[WATCHED..][..self.length]
    }

    /// What the entries lent hold now.
    pub fn now(&self) -> &[T] {
        &self.memory[WATCHED..][..self.length]
    }

    /// Whether the entries lent are as they were from this one on, and so is all memory around them.
    pub fn kept_from(&self, front: usize) -> bool {
        let rest = WATCHED + front;
        self.memory[..WATCHED] == self.dirt[..WATCHED] && self.memory[rest..] == self.dirt[rest..]
    }

    pub fn kept(&self) -> bool {
        self.memory == self.dirt
    }
}
