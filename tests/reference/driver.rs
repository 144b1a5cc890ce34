//! The guest's half: descriptors, ring entries and idx laid into memory, on both sides alike.

use crate::areas::Areas;
use crate::compare::Pair;
use crate::random::Random;
use crate::regions::{overlap, Memory};
use crate::steps::Buffer;

pub struct Driver {
    pub areas: Areas,
    pub memory: Memory,
}

impl Driver {
    /// Writes to guest addresses; what isn't in memory can't be written.
    pub fn write(&self, pair: &mut Pair, address: u64, bytes: &[u8]) {
        if let Some(at) = self.memory.locate(address, bytes.len() as u64) {
            pair.write(at, bytes);
        }
    }

    pub fn idx(&self, pair: &mut Pair, value: u16) {
        self.write(pair, self.areas.avail_idx(), &value.to_le_bytes());
    }

    pub fn entry(&self, pair: &mut Pair, number: u16, head: u16) {
        self.write(pair, self.areas.avail_entry(number), &head.to_le_bytes());
    }

    pub fn describe(&self, pair: &mut Pair, index: u16, buffer: &Buffer, flags: u16, next: u16) {
        let mut bytes = buffer.address.to_le_bytes().to_vec();
        bytes.extend((buffer.len as u32).to_le_bytes());
        bytes.extend(flags.to_le_bytes());
        bytes.extend(next.to_le_bytes());
        self.write(pair, self.areas.descriptor(index), &bytes);
    }

    /// A chain over the descriptors `indices`; the last one's next is of no account.
    pub fn chain(&self, pair: &mut Pair, indices: &[u16], buffers: &[Buffer]) {
        for (i, buffer) in buffers.iter().enumerate() {
            let write = if buffer.writable { 2 } else { 0 };
            match indices.get(i + 1) {
                Some(next) if i + 1 < buffers.len() => self.describe(pair, indices[i], buffer, write + 1, *next),
                _ => self.describe(pair, indices[i], buffer, write, 0xffff),
            }
        }
    }

    /// The areas' places in the slice.
    pub fn area_spots(&self) -> Vec<(u64, u64)> {
        let place = |address: u64, bytes: u64| self.memory.locate(address, bytes).map(|at| (at as u64, bytes));
        let spot = |area: &(u64, u64, u64)| place(area.0, area.1);
        self.areas.all().iter().filter_map(spot).collect()
    }

    /// An address for a buffer of `len` bytes, apart from `spots` if there is such a place at hand.
    pub fn place(&self, random: &mut Random, len: u64, spots: &mut Vec<(u64, u64)>) -> Option<u64> {
        let tries = if spots.len() < 100 { 30 } else { 2 }; // in a long chain's company that would take too long
        for attempt in 0..40 {
            let region = random.pick(&self.memory.regions);
            if region.len < len {
                continue;
            }
            let rest = region.len - len;
            let skip = random.below(rest + 1);
            let address = region.guest + random.pick(&[0, rest, skip, skip, skip]);
            let at = region.offset + (address - region.guest);
            let apart = !spots.iter().any(|(other, other_len)| overlap(*other, *other_len, at, len));
            if apart || attempt >= tries {
                spots.push((at, len));
                return Some(address);
            }
        }
        None
    }
}
