//! The device: it owns what the library is lent beside guest memory and backing slice.

use crate::answers::done;
use crate::status::WORDS;
use crate::{sys, Disk, DiskError, EnableError, MemoryError, Queue, Reason, Region, Status, Step};
use std::fmt;

/// A block device with one queue. It owns its state, chain and staging memory (about 1 MiB); guest memory and backing
/// slice are lent to each step.
///
/// The order is [`memory`](Device::memory), [`disk`](Device::disk), [`enable`](Device::enable), then steps. A refused call
/// changes nothing.
pub struct Device {
    state: Vec<u64>,
    chain: Vec<u64>,
    stage: Vec<u8>,
}

impl Device {
    /// A device with nothing set up.
    pub fn new() -> Device {
        // SAFETY: neither function has a condition, or takes a pointer.
        let (words, bytes) = unsafe { (sys::hd_state_words(), sys::hd_stage_bytes()) };
        Device { state: vec![0; words as usize], chain: Vec::new(), stage: vec![0; bytes as usize] }
    }

    /// Registers guest memory: 1 to 32 regions of a slice of `mem_len` bytes. All that was set up before is forgotten, an
    /// enabled queue too; a request at hand is dropped without an answer.
    pub fn memory(&mut self, regions: &[Region], mem_len: usize) -> Result<(), MemoryError> {
        let words: Vec<u64> = regions.iter().flat_map(|r| [r.guest, r.len, r.offset]).collect();
        let state = &mut self.state;
        // SAFETY: both pointers are those of vectors, with their lengths; the vectors are two.
        let code =
            unsafe { sys::hd_memory(state.as_mut_ptr(), state.len(), words.as_ptr(), words.len(), mem_len as u64) };
        done(code, MemoryError::of)
    }

    /// Registers the disk, a range of a backing slice of `backing_len` bytes. A second call before enabling replaces the
    /// first.
    pub fn disk(&mut self, disk: &Disk, backing_len: usize) -> Result<(), DiskError> {
        let Disk { start, sectors, read_only, id } = *disk;
        let state = &mut self.state;
        // SAFETY: both pointers are valid for their lengths, and the identity isn't part of the state.
        let code = unsafe {
            sys::hd_disk(
                state.as_mut_ptr(),
                state.len(),
                start,
                sectors,
                read_only.into(),
                id.as_ptr(),
                id.len(),
                backing_len as u64,
            )
        };
        done(code, DiskError::of)
    }

    /// Enables the queue with both counters 0. Touches no guest memory.
    pub fn enable(&mut self, queue: &Queue) -> Result<(), EnableError> {
        self.enable_at(queue, 0)
    }

    /// Enables a queue that is in use already (after a restart of the host): both counters begin at `start`, which is
    /// what used idx holds.
    pub fn enable_at(&mut self, queue: &Queue, start: u16) -> Result<(), EnableError> {
        let Queue { size, desc, avail, used } = *queue;
        // SAFETY: the function has no condition, and takes no pointer.
        let wanted = unsafe { sys::hd_chain_words(size) } as usize; // at most 2 * 1,024; 0 for a size that is refused
        if self.chain.len() < wanted {
            self.chain.resize(wanted, 0);
        }
        let (chain_len, stage_len) = (self.chain.len() as u64, self.stage.len() as u64);
        let state = &mut self.state;
        // SAFETY: the pointer is the vector's, with its length.
        let code = unsafe {
            sys::hd_enable_at(
                state.as_mut_ptr(),
                state.len(),
                size,
                desc,
                avail,
                used,
                chain_len,
                stage_len,
                start.into(),
            )
        };
        done(code, EnableError::of)
    }

    /// Ends the queue, broken or not; a request at hand is dropped without an answer. Memory and disk stay registered, so
    /// [`enable`](Device::enable) may follow.
    pub fn reset(&mut self) {
        // SAFETY: the pointer is the vector's, with its length. (It answers 0: the state is as long as it must be.)
        unsafe { sys::hd_reset(self.state.as_mut_ptr(), self.state.len()) };
    }

    /// One step, over memory that nobody else touches during the call: a guest that stands still, or one in the same
    /// thread. The slices must be at least as long as set-up was told, else the step is [`Step::Refused`].
    pub fn step(&mut self, mem: &mut [u8], backing: &mut [u8]) -> Step {
        // SAFETY: the slices are valid for their lengths, and the borrows say that nobody else has them.
        unsafe { self.step_raw(mem.as_mut_ptr(), mem.len(), backing.as_mut_ptr(), backing.len()) }
    }

    /// One step, over memory that a running guest shares (and other devices' disks in the same backing slice).
    ///
    /// # Safety
    ///
    /// * `mem` is not null and valid for reads and writes of `mem_len` bytes during the call, `backing` likewise for
    ///   `backing_len` bytes, and the two don't overlap each other or this device.
    /// * No reference of Rust's to bytes of `mem`, and none to bytes of this disk in `backing`, is live during the call.
    /// * While the call runs, bytes of `mem` may change at any time, by a guest or through another mapping; threads of
    ///   this process that touch them use volatile or atomic accesses. Bytes of this disk in `backing` are touched by
    ///   nobody else; those outside it are never touched by the call.
    ///
    /// # Barriers
    ///
    /// A driver on another processor needs an order that only the caller can give, between two calls:
    /// `fence(Ordering::Release)` before the step that publishes ([`NextStep::Publish`](crate::NextStep::Publish)), else
    /// it sees the new idx before the used entry and the data; `fence(Ordering::Acquire)` after the step that reads idx
    /// ([`NextStep::Poll`](crate::NextStep::Poll)), else that step's successor reads an entry that the driver hasn't written
    /// yet. One of each around every call is simplest, and on x86-64 neither is an instruction.
    pub unsafe fn step_raw(&mut self, mem: *mut u8, mem_len: usize, backing: *mut u8, backing_len: usize) -> Step {
        let Device { state, chain, stage } = self;
        // SAFETY: state, chain and staging memory are this device's vectors with their lengths; for the two others the
        // caller answers. The library loads no byte of guest memory twice, so what changes there meanwhile harms nothing.
        let answer = unsafe {
            sys::hd_step(
                state.as_mut_ptr(),
                state.len(),
                mem,
                mem_len,
                backing,
                backing_len,
                chain.as_mut_ptr(),
                chain.len(),
                stage.as_mut_ptr(),
                stage.len(),
            )
        };
        match answer {
            0 => Step::Idle,
            1 => Step::WentOn,
            2 => Step::Answered,
            3 => Step::Broken(Reason::of(self.status_words()[1])),
            _ => Step::Refused,
        }
    }

    /// What the queue is at.
    pub fn status(&self) -> Status {
        Status::of(&self.status_words())
    }

    fn status_words(&self) -> [u64; WORDS] {
        let mut out = [0; WORDS];
        // SAFETY: both pointers are valid for their lengths; out isn't part of the state.
        unsafe { sys::hd_status(self.state.as_ptr(), self.state.len(), out.as_mut_ptr(), out.len()) };
        out
    }
}

impl Default for Device {
    fn default() -> Device {
        Device::new()
    }
}

impl fmt::Debug for Device {
    fn fmt(&self, f: &mut fmt::Formatter<'_>) -> fmt::Result {
        f.debug_struct("Device").field("status", &self.status()).finish_non_exhaustive()
    }
}
