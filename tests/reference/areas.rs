//! The three areas of a queue, 01 §2, by guest addresses.

use crate::regions::{overlap, Memory};

/// The longest queue.
pub const LONGEST: u64 = 1024;

#[derive(Clone, Copy)]
pub struct Areas {
    pub size: u64,
    pub desc: u64,
    pub avail: u64,
    pub used: u64,
}

impl Areas {
    /// Address, bytes and alignment of descriptors, available ring and used ring.
    pub fn all(&self) -> [(u64, u64, u64); 3] {
        let q = self.size;
        [(self.desc, 16 * q, 16), (self.avail, 6 + 2 * q, 2), (self.used, 6 + 8 * q, 4)]
    }

    /// The answer with which enabling refuses these areas, tested in the order 25 to 28.
    pub fn refused(&self, memory: &Memory) -> Option<u64> {
        if !(1..=LONGEST).contains(&self.size) || !self.size.is_power_of_two() {
            return Some(25);
        }
        let [desc, avail, used] = self.all();
        let areas = [desc, avail, used];
        if areas.iter().any(|(address, _, multiple)| address % multiple != 0) {
            return Some(26);
        }
        if areas.iter().any(|(address, bytes, _)| memory.locate(*address, *bytes).is_none()) {
            return Some(27);
        }
        if overlap(used.0, used.1, avail.0, avail.1) || overlap(used.0, used.1, desc.0, desc.1) {
            return Some(28);
        }
        None
    }

    // Entry numbers count modulo 2^16, ring places modulo q.

    pub fn avail_idx(&self) -> u64 {
        self.avail + 2
    }

    pub fn avail_entry(&self, number: u16) -> u64 {
        self.avail + 4 + 2 * (number as u64 % self.size)
    }

    pub fn descriptor(&self, index: u16) -> u64 {
        self.desc + 16 * index as u64
    }

    pub fn used_idx(&self) -> u64 {
        self.used + 2
    }

    pub fn used_entry(&self, number: u16) -> u64 {
        self.used + 4 + 8 * (number as u64 % self.size)
    }
}
