//! The library and the reference side by side: each call goes to both, and after each one answer, guest memory, backing
//! slice and status words are compared, all of them. A refused call must leave every lent word and byte as it was.

use crate::fail::{all_same, count_call, difference, same};
use crate::library::{chain_words, state_words, Slices};
use crate::random::Random;
use crate::reference::{Device, DiskWords, Enabling, Lens, NO_DESCRIPTOR, WORDS};
use crate::seen::Seen;

const UNWRITTEN: u64 = 0x5a5a_5a5a_5a5a_5a5a;

pub struct Pair<'a> {
    pub device: Device,
    pub mem: Vec<u8>,
    pub backing: Vec<u8>,
    pub lent: Slices,
    /// How much of each slice the next call is lent.
    pub lens: Lens,
    pub seen: &'a mut Seen,
    before: Vec<u64>,
    random: Random,
}

/// A moment of a device: everything private, of the library and of the reference.
pub struct Moment {
    device: Device,
    state: Vec<u64>,
    chain: Vec<u64>,
    stage: Vec<u8>,
}

impl<'a> Pair<'a> {
    /// Nothing set up; memory and backing as the slices have them.
    pub fn new(lent: Slices, seen: &'a mut Seen, random: Random) -> Pair<'a> {
        let (mem, backing) = (lent.mem.all().to_vec(), lent.backing.all().to_vec());
        let (lens, before) = (lent.lens(), Vec::new());
        Pair { device: Device::nothing(state_words()), mem, backing, lent, lens, seen, before, random }
    }

    fn begin(&mut self) {
        self.before.clear();
        self.before.extend_from_slice(self.lent.state.all());
    }

    fn end(&mut self, call: &'static str, want: u64, got: u64, touches_state: bool) -> u64 {
        count_call(call == "hd_step");
        self.seen.add(call, want);
        same(call, want, got);
        let own = if touches_state { state_words() } else { 0 };
        all_same("a state word that must stay", &self.before[own..], &self.lent.state.all()[own..]);
        all_same("guest memory", &self.mem, self.lent.mem.all());
        all_same("backing", &self.backing, self.lent.backing.all());
        self.compare_status();
        want
    }

    /// All words, then an out of any length.
    fn compare_status(&mut self) {
        self.compare_status_in(WORDS);
        let any = self.random.range(7, 12) as usize;
        self.compare_status_in(any);
    }

    fn compare_status_in(&mut self, out_len: usize) {
        let lens = Lens { out: out_len, ..self.lent.lens() };
        self.lent.out.all_mut().fill(UNWRITTEN);
        self.begin();
        let got = self.lent.status(&lens);
        let (want, words) = self.device.status_in(out_len);
        same("hd_status", want, got);
        all_same("state after hd_status", &self.before, self.lent.state.all());
        let out = self.lent.out.lent(out_len);
        all_same("status word", &words, &out[..words.len()]);
        all_same("out", &self.lent.out.with(UNWRITTEN, out_len, &words), self.lent.out.all());
        self.seen.add("hd_status", want);
        self.seen.add("hd_status, words of out", out_len as u64);
    }

    pub fn memory(&mut self, regions: &[u64], mem_len: u64) -> u64 {
        self.begin();
        let got = self.lent.memory(self.lens.state, regions, mem_len);
        let want = self.device.memory(self.lens.state, regions, mem_len);
        if want == 0 {
            self.seen.add("regions", regions.len() as u64 / 3);
        }
        self.end("hd_memory", want, got, want == 0)
    }

    pub fn disk(&mut self, words: &DiskWords) -> u64 {
        self.begin();
        let got = self.lent.disk(self.lens.state, words);
        let want = self.device.disk(self.lens.state, words);
        self.end("hd_disk", want, got, want == 0)
    }

    pub fn enable(&mut self, words: &Enabling) -> u64 {
        self.begin();
        let got = self.lent.enable(self.lens.state, words);
        let want = self.device.enable(self.lens.state, words, chain_words(words.areas.size));
        let call = if words.start.is_some() { "hd_enable_at" } else { "hd_enable" };
        if want == 0 {
            self.seen.add("queue size", words.areas.size);
        }
        self.end(call, want, got, want == 0)
    }

    pub fn reset(&mut self) -> u64 {
        self.begin();
        let got = self.lent.reset(self.lens.state);
        let want = self.device.reset(self.lens.state);
        self.end("hd_reset", want, got, want == 0)
    }

    pub fn step(&mut self) -> u64 {
        if let Some(want) = self.device.untouched(&self.lens) {
            return self.step_untouched(want);
        }
        self.begin();
        let before = self.device.status();
        let got = self.lent.step(&self.lens);
        let want = self.device.step(&self.lens, &mut self.mem, &mut self.backing);
        self.end("hd_step", want, got, true);
        if want == 3 {
            self.broke(before);
        }
        if let (2, Some(queue), Some(request)) = (want, &self.device.queue, &self.device.done) {
            self.seen.answered(request, queue.areas.size, queue.answered);
        }
        want
    }

    /// A queue that broke just now; `before` is its status before that step.
    fn broke(&mut self, before: [u64; WORDS]) {
        let now = self.device.status();
        let (reason, at, place) = (now[1], now[8], now[6].wrapping_sub(1));
        self.seen.add("broken, reason", reason);
        self.seen.add("broken, step", before[4]);
        if let (3, Some(queue)) = (reason, &self.device.queue) {
            self.seen.add("broken, a chain longer than the queue, of size", queue.areas.size);
        }
        match at {
            NO_DESCRIPTOR => self.seen.add("broken at no descriptor, reason", reason),
            at if at != place => self.seen.add("broken at a descriptor whose number isn't its place, reason", reason),
            _ => (),
        }
        if reason != 8 && before[9] != 0 {
            self.seen.add("broken after a chain that was complete, step", before[4]);
        }
        if reason == 8 && before[9] != now[9] {
            self.seen.add("broken by a chain that was complete, of another length, reason", reason);
        }
    }

    /// A step that is refused or finds the queue broken: chain and staging memory stay as well.
    fn step_untouched(&mut self, want: u64) -> u64 {
        let name = match (want, &self.device.queue) {
            (3, _) if self.lens.mem < self.mem.len() => "hd_step on a broken queue with a short slice",
            (3, _) => "hd_step on a broken queue",
            (_, None) => "hd_step not enabled",
            _ => "hd_step with a short slice",
        };
        self.seen.add(name, want);
        self.begin();
        let (chain, stage) = (self.lent.chain.all().to_vec(), self.lent.stage.all().to_vec());
        let got = self.lent.step(&self.lens);
        self.end("hd_step", want, got, false);
        all_same("chain memory", &chain, self.lent.chain.all());
        all_same("staging memory", &stage, self.lent.stage.all());
        want
    }

    /// hd_status with too little lent: 40, 45, and not a word is written.
    pub fn status_refused(&mut self) {
        let want = if self.lens.state < state_words() { 40 } else { 45 };
        self.begin();
        self.lent.out.all_mut().fill(UNWRITTEN);
        let got = self.lent.status(&self.lens);
        let out = self.lent.out.all();
        all_same("out", &vec![UNWRITTEN; out.len()], out);
        self.end("hd_status", want, got, false);
    }

    /// The guest writes to its memory, on both sides alike.
    pub fn write(&mut self, at: usize, bytes: &[u8]) {
        self.mem[at..at + bytes.len()].copy_from_slice(bytes);
        self.lent.mem.all_mut()[at..at + bytes.len()].copy_from_slice(bytes);
    }

    pub fn moment(&self) -> Moment {
        let (state, chain) = (self.lent.state.all().to_vec(), self.lent.chain.all().to_vec());
        Moment { device: self.device.clone(), state, chain, stage: self.lent.stage.all().to_vec() }
    }

    /// All private words as they were at that moment; memory and backing stay as they are now.
    pub fn go_back(&mut self, moment: &Moment) {
        self.device = moment.device.clone();
        self.lent.state.all_mut().copy_from_slice(&moment.state);
        self.lent.chain.all_mut().copy_from_slice(&moment.chain);
        self.lent.stage.all_mut().copy_from_slice(&moment.stage);
    }

    pub fn end_case(&mut self) {
        if let Some(name) = self.lent.touched_beside() {
            difference(&format!("bytes beside the slice {} were written", name));
        }
    }
}
