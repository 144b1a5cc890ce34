//! Guest memory, 01 §1. Sums are made in 128 bits, so none of them wraps.

/// As many regions as there may be.
pub const REGIONS: usize = 32;

#[derive(Clone, Copy)]
pub struct Region {
    pub guest: u64,
    pub len: u64,
    pub offset: u64,
}

#[derive(Clone)]
pub struct Memory {
    pub regions: Vec<Region>,
    pub mem_len: u64,
}

pub fn end(start: u64, len: u64) -> u128 {
    start as u128 + len as u128
}

/// Do `a_len` bytes from `a` and `b_len` bytes from `b` share one?
pub fn overlap(a: u64, a_len: u64, b: u64, b_len: u64) -> bool {
    (a as u128) < end(b, b_len) && (b as u128) < end(a, a_len)
}

impl Memory {
    /// What hd_memory registers, or the answer with which it refuses. A number of words that is no multiple of 3 is 20 too.
    pub fn register(words: &[u64], mem_len: u64) -> Result<Memory, u64> {
        if words.len() % 3 != 0 || words.is_empty() || words.len() > 3 * REGIONS {
            return Err(20);
        }
        let mut memory = Memory { regions: Vec::new(), mem_len };
        for word in words.chunks(3) {
            let region = Region { guest: word[0], len: word[1], offset: word[2] };
            memory.accept(region)?;
            memory.regions.push(region);
        }
        Ok(memory)
    }

    fn accept(&self, new: Region) -> Result<(), u64> {
        if new.len == 0 {
            return Err(21);
        }
        if end(new.offset, new.len) > self.mem_len as u128 {
            return Err(22);
        }
        if end(new.guest, new.len) > u64::MAX as u128 {
            return Err(23);
        }
        let overlaps = |old: &Region| overlap(old.guest, old.len, new.guest, new.len);
        if self.regions.iter().any(overlaps) {
            return Err(24);
        }
        Ok(())
    }

    /// Where `n` guest bytes from `address` lie in the slice, if one region contains them all.
    pub fn locate(&self, address: u64, n: u64) -> Option<usize> {
        let contains = |region: &&Region| {
            n >= 1 && address >= region.guest && end(address, n) <= end(region.guest, region.len)
        };
        let region = self.regions.iter().find(contains)?;
        Some((region.offset + (address - region.guest)) as usize)
    }
}
