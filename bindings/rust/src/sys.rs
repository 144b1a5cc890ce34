//! The functions of `include/hostiledisk.h`, as they stand there.

#[link(name = "hostiledisk", kind = "static")]
extern "C" {
    pub fn hd_state_words() -> u64;
    pub fn hd_chain_words(queue_size: u64) -> u64;
    pub fn hd_stage_bytes() -> u64;
    pub fn hd_memory(state: *mut u64, state_len: usize, regions: *const u64, regions_len: usize, mem_len: u64) -> u64;
    pub fn hd_disk(
        state: *mut u64,
        state_len: usize,
        start: u64,
        sectors: u64,
        read_only: u64,
        id: *const u8,
        id_len: usize,
        backing_len: u64,
    ) -> u64;
    pub fn hd_enable_at(
        state: *mut u64,
        state_len: usize,
        size: u64,
        desc: u64,
        avail: u64,
        used: u64,
        chain_len: u64,
        stage_len: u64,
        start: u64,
    ) -> u64;
    pub fn hd_reset(state: *mut u64, state_len: usize) -> u64;
    pub fn hd_step(
        state: *mut u64,
        state_len: usize,
        mem: *mut u8,
        mem_len: usize,
        backing: *mut u8,
        backing_len: usize,
        chain: *mut u64,
        chain_len: usize,
        stage: *mut u8,
        stage_len: usize,
    ) -> u64;
    pub fn hd_status(state: *const u64, state_len: usize, out: *mut u64, out_len: usize) -> u64;
}
