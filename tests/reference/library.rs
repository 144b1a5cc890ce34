//! The calls of the C interface, on slices lent between guard pages.

use crate::guard::Lent;
use crate::reference::{DiskWords, Enabling, Lens};

mod c {
    extern "C" {
        pub fn hd_state_words() -> u64;
        pub fn hd_chain_words(queue_size: u64) -> u64;
        pub fn hd_stage_bytes() -> u64;
        pub fn hd_memory(state: *mut u64, state_len: usize, regions: *const u64, regions_len: usize, mem_len: u64) -> u64;
        pub fn hd_disk(
            state: *mut u64, state_len: usize, start: u64, sectors: u64, read_only: u64,
            id: *const u8, id_len: usize, backing_len: u64,
        ) -> u64;
        pub fn hd_enable(
            state: *mut u64, state_len: usize, size: u64, desc: u64, avail: u64, used: u64,
            chain_len: u64, stage_len: u64,
        ) -> u64;
        pub fn hd_enable_at(
            state: *mut u64, state_len: usize, size: u64, desc: u64, avail: u64, used: u64,
            chain_len: u64, stage_len: u64, start: u64,
        ) -> u64;
        pub fn hd_reset(state: *mut u64, state_len: usize) -> u64;
        pub fn hd_step(
            state: *mut u64, state_len: usize, mem: *mut u8, mem_len: usize, backing: *mut u8, backing_len: usize,
            chain: *mut u64, chain_len: usize, stage: *mut u8, stage_len: usize,
        ) -> u64;
        pub fn hd_status(state: *const u64, state_len: usize, out: *mut u64, out_len: usize) -> u64;
    }
}

pub fn state_words() -> usize {
    unsafe { c::hd_state_words() as usize }
}

pub fn chain_words(size: u64) -> u64 {
    unsafe { c::hd_chain_words(size) }
}

pub fn stage_bytes() -> u64 {
    unsafe { c::hd_stage_bytes() }
}

/// All that the library is lent.
pub struct Slices {
    pub state: Lent<u64>,
    pub mem: Lent<u8>,
    pub backing: Lent<u8>,
    pub chain: Lent<u64>,
    pub stage: Lent<u8>,
    pub out: Lent<u64>,
    /// Where the lists of regions and identities stand, which last for one call.
    pub short_lived_at_end: bool,
}

impl Slices {
    pub fn lens(&self) -> Lens {
        Lens {
            state: self.state.len(),
            mem: self.mem.len(),
            backing: self.backing.len(),
            chain: self.chain.len(),
            stage: self.stage.len(),
            out: self.out.len(),
        }
    }

    pub fn memory(&mut self, state_len: usize, regions: &[u64], mem_len: u64) -> u64 {
        let (state, words) = self.state.lend(state_len);
        let mut regions = Lent::of(regions, self.short_lived_at_end);
        let (list, list_len) = regions.lend(regions.len());
        unsafe { c::hd_memory(state, words, list, list_len, mem_len) }
    }

    pub fn disk(&mut self, state_len: usize, disk: &DiskWords) -> u64 {
        let (state, words) = self.state.lend(state_len);
        let mut id = Lent::of(&disk.id, self.short_lived_at_end);
        let (text, text_len) = id.lend(id.len());
        let DiskWords { start, sectors, read_only, backing_len, .. } = *disk;
        unsafe { c::hd_disk(state, words, start, sectors, read_only, text, text_len, backing_len) }
    }

    pub fn enable(&mut self, state_len: usize, words: &Enabling) -> u64 {
        let (state, len) = self.state.lend(state_len);
        let Enabling { areas: a, chain_len, stage_len, start } = *words;
        match start {
            None => unsafe { c::hd_enable(state, len, a.size, a.desc, a.avail, a.used, chain_len, stage_len) },
            Some(at) => unsafe { c::hd_enable_at(state, len, a.size, a.desc, a.avail, a.used, chain_len, stage_len, at) },
        }
    }

    pub fn reset(&mut self, state_len: usize) -> u64 {
        let (state, len) = self.state.lend(state_len);
        unsafe { c::hd_reset(state, len) }
    }

    pub fn step(&mut self, lens: &Lens) -> u64 {
        let (state, state_len) = self.state.lend(lens.state);
        let (mem, mem_len) = self.mem.lend(lens.mem);
        let (backing, backing_len) = self.backing.lend(lens.backing);
        let (chain, chain_len) = self.chain.lend(lens.chain);
        let (stage, stage_len) = self.stage.lend(lens.stage);
        unsafe { c::hd_step(state, state_len, mem, mem_len, backing, backing_len, chain, chain_len, stage, stage_len) }
    }

    pub fn status(&mut self, lens: &Lens) -> u64 {
        let (state, state_len) = self.state.lend(lens.state);
        let (out, out_len) = self.out.lend(lens.out);
        unsafe { c::hd_status(state, state_len, out, out_len) }
    }

    /// The name of a slice beside which a byte changed, on the side where there is no guard page.
    pub fn touched_beside(&mut self) -> Option<&'static str> {
        let sides = [
            ("state", self.state.slack_is_untouched()),
            ("mem", self.mem.slack_is_untouched()),
            ("backing", self.backing.slack_is_untouched()),
            ("chain", self.chain.slack_is_untouched()),
            ("stage", self.stage.slack_is_untouched()),
            ("out", self.out.slack_is_untouched()),
        ];
        sides.iter().find(|(_, untouched)| !untouched).map(|(name, _)| *name)
    }
}
