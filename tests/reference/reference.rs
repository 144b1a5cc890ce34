//! The device of documents 01 and 03 and of the step schedule once more, written from them alone: set-up, reset, status.
//! The steps are in steps.rs. What the documents left open is taken from docs/DECISIONS.md (D11, D14).

use crate::areas::Areas;
use crate::regions::Memory;
use crate::request::{Disk, MOST};
use crate::steps::{Queue, Request};

/// The words of hd_status, and what one of them holds where a queue is in order or broke at no descriptor.
pub const WORDS: usize = 10;
pub const NO_DESCRIPTOR: u64 = 65_536;

/// How long the slices are that a call is lent.
#[derive(Clone, Copy)]
pub struct Lens {
    pub state: usize,
    pub mem: usize,
    pub backing: usize,
    pub chain: usize,
    pub stage: usize,
    pub out: usize,
}

/// What hd_enable and hd_enable_at are told.
#[derive(Clone, Copy)]
pub struct Enabling {
    pub areas: Areas,
    pub chain_len: u64,
    pub stage_len: u64,
    pub start: Option<u64>,
}

/// What hd_disk is told.
#[derive(Clone)]
pub struct DiskWords {
    pub start: u64,
    pub sectors: u64,
    pub read_only: u64,
    pub id: Vec<u8>,
    pub backing_len: u64,
}

#[derive(Clone)]
pub struct Device {
    state_words: usize,
    pub memory: Option<Memory>,
    pub disk: Option<Disk>,
    pub queue: Option<Queue>,
    /// The request that was answered last, for the account of what was seen.
    pub done: Option<Request>,
}

impl Device {
    /// "A state of zeros has nothing set up"; nor have words that set-up and steps don't make.
    pub fn nothing(state_words: usize) -> Device {
        Device { state_words, memory: None, disk: None, queue: None, done: None }
    }

    fn too_short(&self, state_len: usize) -> bool {
        state_len < self.state_words
    }

    /// Works on any state, an enabled one too, and forgets everything that was set up before.
    pub fn memory(&mut self, state_len: usize, regions: &[u64], mem_len: u64) -> u64 {
        if self.too_short(state_len) {
            return 40;
        }
        match Memory::register(regions, mem_len) {
            Err(answer) => answer,
            Ok(memory) => {
                *self = Device { memory: Some(memory), ..Device::nothing(self.state_words) };
                0
            }
        }
    }

    pub fn disk(&mut self, state_len: usize, words: &DiskWords) -> u64 {
        if self.too_short(state_len) {
            return 40;
        }
        if self.memory.is_none() || self.queue.is_some() {
            return 41;
        }
        if words.id.len() != 20 {
            return 44;
        }
        if let Some(answer) = Disk::refused(words.start, words.sectors, words.backing_len) {
            return answer;
        }
        let mut id = [0; 20];
        id.copy_from_slice(&words.id);
        let read_only = words.read_only != 0;
        let (start, sectors, backing_len) = (words.start, words.sectors, words.backing_len);
        self.disk = Some(Disk { start, sectors, read_only, id, backing_len });
        0
    }

    /// `chain_words` is what hd_chain_words answers for this size: how much it needs is the implementation's own affair.
    pub fn enable(&mut self, state_len: usize, words: &Enabling, chain_words: u64) -> u64 {
        if self.too_short(state_len) {
            return 40;
        }
        let memory = match (&self.memory, &self.disk, &self.queue) {
            (Some(memory), Some(_), None) => memory,
            _ => return 41,
        };
        if let Some(answer) = words.areas.refused(memory) {
            return answer;
        }
        if words.chain_len < chain_words {
            return 42;
        }
        if words.stage_len < MOST {
            return 43;
        }
        let start = words.start.unwrap_or(0);
        if start >= 65_536 {
            return 46;
        }
        self.queue = Some(Queue::new(words, start as u16));
        0
    }

    pub fn reset(&mut self, state_len: usize) -> u64 {
        if self.too_short(state_len) {
            return 40;
        }
        self.queue = None;
        0
    }

    /// The answer of a step that touches nothing, tested in the order of the interface; None if the step will be done.
    pub fn untouched(&self, lens: &Lens) -> Option<u64> {
        let (memory, disk, queue) = match (&self.memory, &self.disk, &self.queue) {
            (Some(memory), Some(disk), Some(queue)) if !self.too_short(lens.state) => (memory, disk, queue),
            _ => return Some(4), // D11: a state that is too short is 4 as well
        };
        if queue.broken != 0 {
            return Some(3);
        }
        let short = (lens.mem as u64) < memory.mem_len
            || (lens.backing as u64) < disk.backing_len
            || (lens.chain as u64) < queue.chain_len
            || (lens.stage as u64) < queue.stage_len;
        if short { Some(4) } else { None }
    }

    pub fn step(&mut self, lens: &Lens, mem: &mut [u8], backing: &mut [u8]) -> u64 {
        if let Some(answer) = self.untouched(lens) {
            return answer;
        }
        match (&self.memory, &self.disk, &mut self.queue) {
            (Some(memory), Some(disk), Some(queue)) => {
                let answer = queue.step(memory, disk, mem, backing);
                if answer == 2 {
                    self.done = queue.request.take();
                }
                answer
            }
            _ => unreachable!("untouched answers 4"),
        }
    }

    /// The ten words of hd_status.
    pub fn status(&self) -> [u64; WORDS] {
        self.queue.as_ref().map_or([0; WORDS], Queue::status)
    }

    /// Answer and words of hd_status with an out of this length: fewer than eight are refused, and fewer than ten get eight.
    pub fn status_in(&self, out_len: usize) -> (u64, Vec<u64>) {
        let words = self.status();
        match out_len {
            0..=7 => (45, Vec::new()),
            8 | 9 => (0, words[..8].to_vec()),
            _ => (0, words.to_vec()),
        }
    }
}
