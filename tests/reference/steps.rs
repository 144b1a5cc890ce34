//! The steps S1 to S7 of the schedule, each as documents 01 §3 and 03 §3 have it. Private copies are plain vectors.

use crate::areas::Areas;
use crate::reference::{Enabling, NO_DESCRIPTOR, WORDS};
use crate::regions::Memory;
use crate::request::{header, reported, status, Disk, GET_ID, IN, OUT};

const NEXT: u16 = 1;
const WRITE: u16 = 2;

#[derive(Clone, Copy)]
pub struct Buffer {
    pub address: u64,
    pub len: u64,
    pub writable: bool,
}

/// The request at hand.
#[derive(Clone)]
pub struct Request {
    pub head: u16,
    /// The descriptor that the next S3 fetches.
    descriptor: u16,
    /// Descriptors fetched, a refused one included (D14).
    pub fetched: u64,
    pub chain: Vec<Buffer>,
    pub header: Vec<u8>,
    pub payload: Vec<u8>,
    /// Where the next fetch of header or payload begins: a buffer of the chain, and a byte within it.
    buffer: usize,
    within: u64,
    pub status: u8,
}

impl Request {
    fn new(head: u16) -> Request {
        let (header, payload) = (Vec::new(), Vec::new());
        Request { head, descriptor: head, fetched: 0, chain: Vec::new(), header, payload, buffer: 0, within: 0, status: 0 }
    }

    fn bytes(&self, writable: bool) -> u64 {
        self.chain.iter().filter(|buffer| buffer.writable == writable).map(|buffer| buffer.len).sum()
    }

    pub fn r(&self) -> u64 {
        self.bytes(false)
    }

    pub fn w(&self) -> u64 {
        self.bytes(true)
    }

    /// At most `most` bytes of the buffer that is next, and the place behind them.
    fn fetch(&mut self, most: u64, memory: &Memory, mem: &[u8]) -> Vec<u8> {
        let buffer = self.chain[self.buffer];
        let n = most.min(buffer.len - self.within);
        let bytes = guest(memory, mem, buffer.address + self.within, n).to_vec();
        self.within += n;
        if self.within == buffer.len {
            self.buffer += 1;
            self.within = 0;
        }
        bytes
    }
}

#[derive(Clone, Copy, PartialEq)]
pub enum Next {
    Poll = 1,
    Head = 2,
    Descriptor = 3,
    Header = 4,
    Payload = 5,
    Answer = 6,
    Publish = 7,
}

#[derive(Clone)]
pub struct Queue {
    pub areas: Areas,
    pub chain_len: u64,
    pub stage_len: u64,
    pub taken: u16,
    pub answered: u16,
    pub broken: u64,
    /// The descriptor at which the chain was refused.
    pub broken_at: Option<u16>,
    /// How many descriptors the last chain had that was complete.
    pub last_chain: u64,
    pub next: Next,
    pub request: Option<Request>,
}

fn guest<'a>(memory: &Memory, mem: &'a [u8], address: u64, n: u64) -> &'a [u8] {
    let at = memory.locate(address, n).expect("tested when it was set up or fetched");
    &mem[at..at + n as usize]
}

fn guest_u16(memory: &Memory, mem: &[u8], address: u64) -> u16 {
    let bytes = guest(memory, mem, address, 2);
    u16::from_le_bytes([bytes[0], bytes[1]])
}

fn put(memory: &Memory, mem: &mut [u8], address: u64, bytes: &[u8]) {
    let at = memory.locate(address, bytes.len() as u64).expect("tested when it was set up or fetched");
    mem[at..at + bytes.len()].copy_from_slice(bytes);
}

impl Queue {
    pub fn new(words: &Enabling, start: u16) -> Queue {
        let Enabling { areas, chain_len, stage_len, .. } = *words;
        let (taken, answered, next) = (start, start, Next::Poll);
        Queue { areas, chain_len, stage_len, taken, answered, broken: 0, broken_at: None, last_chain: 0, next, request: None }
    }

    pub fn status(&self) -> [u64; WORDS] {
        let next = if self.broken != 0 { 0 } else { self.next as u64 };
        let at = self.broken_at.map_or(NO_DESCRIPTOR, u64::from);
        let mut words = [1, self.broken, self.taken as u64, self.answered as u64, next, 0, 0, 0, at, self.last_chain];
        if let Some(request) = &self.request {
            words[5] = request.head as u64;
            words[6] = request.fetched;
            words[7] = (request.header.len() + request.payload.len()) as u64;
        }
        words
    }

    pub fn step(&mut self, memory: &Memory, disk: &Disk, mem: &mut [u8], backing: &mut [u8]) -> u64 {
        let done = match self.next {
            Next::Poll => self.poll(memory, mem),
            Next::Head => self.head(memory, mem),
            Next::Descriptor => self.descriptor(memory, mem),
            Next::Header => Ok(self.header(memory, disk, mem)),
            Next::Payload => Ok(self.payload(memory, disk, mem, backing)),
            Next::Answer => Ok(self.answer(memory, disk, mem, backing)),
            Next::Publish => Ok(self.publish(memory, mem)),
        };
        done.unwrap_or_else(|reason| {
            self.broken = reason;
            3
        })
    }

    fn go_on(&mut self, next: Next) -> u64 {
        self.next = next;
        1
    }

    fn at_hand(&mut self) -> &mut Request {
        self.request.as_mut().expect("S3 to S7 have a request at hand")
    }

    /// S1. 01 §3.1: pending = (idx - taken) modulo 2^16.
    fn poll(&mut self, memory: &Memory, mem: &[u8]) -> Result<u64, u64> {
        let idx = guest_u16(memory, mem, self.areas.avail_idx());
        let pending = idx.wrapping_sub(self.taken) as u64;
        if pending == 0 {
            return Ok(0);
        }
        if pending > self.areas.size {
            return Err(1);
        }
        Ok(self.go_on(Next::Head))
    }

    /// S2. 01 §3.2.
    fn head(&mut self, memory: &Memory, mem: &[u8]) -> Result<u64, u64> {
        let head = guest_u16(memory, mem, self.areas.avail_entry(self.taken));
        if head as u64 >= self.areas.size {
            return Err(2);
        }
        self.request = Some(Request::new(head));
        Ok(self.go_on(Next::Descriptor))
    }

    /// S3. Whatever is wrong, it is with the descriptor that this step fetches.
    fn descriptor(&mut self, memory: &Memory, mem: &[u8]) -> Result<u64, u64> {
        let fetched = self.at_hand().descriptor;
        let done = self.follow(memory, mem);
        if done.is_err() {
            self.broken_at = Some(fetched);
        }
        done
    }

    /// 01 §3.3 and §3.4.
    fn follow(&mut self, memory: &Memory, mem: &[u8]) -> Result<u64, u64> {
        let areas = self.areas;
        let request = self.at_hand();
        let bytes = guest(memory, mem, areas.descriptor(request.descriptor), 16);
        request.fetched += 1;
        let (buffer, following) = judge(bytes, request, memory, areas.size)?;
        request.chain.push(buffer);
        if let Some(next) = following {
            request.descriptor = next;
            return Ok(1);
        }
        let complete = request.chain.len() as u64;
        self.last_chain = complete;
        let request = self.at_hand();
        if !request.chain.iter().any(|buffer| buffer.writable) {
            return Err(8);
        }
        if request.r() < 16 {
            request.status = 1;
            return Ok(self.go_on(Next::Answer));
        }
        Ok(self.go_on(Next::Header))
    }

    /// S4. The first 16 readable bytes, whatever buffers they are cut into; then the verdict.
    fn header(&mut self, memory: &Memory, disk: &Disk, mem: &[u8]) -> u64 {
        let request = self.at_hand();
        let lacking = 16 - request.header.len() as u64;
        let bytes = request.fetch(lacking, memory, mem);
        request.header.extend(bytes);
        if request.header.len() < 16 {
            return 1;
        }
        let (kind, sector) = header(&request.header);
        request.status = status(disk, kind, sector, request.r(), request.w());
        let to_disk = request.status == 0 && kind == OUT && request.r() > 16;
        self.go_on(if to_disk { Next::Payload } else { Next::Answer })
    }

    /// S5. All that one buffer still has; with the last one the whole payload goes to the disk.
    fn payload(&mut self, memory: &Memory, disk: &Disk, mem: &[u8], backing: &mut [u8]) -> u64 {
        let request = self.at_hand();
        let bytes = request.fetch(u64::MAX, memory, mem);
        request.payload.extend(bytes);
        let n = request.payload.len();
        if (n as u64) < request.r() - 16 {
            return 1;
        }
        let (_, sector) = header(&request.header);
        backing[disk.range(sector, n)].copy_from_slice(&request.payload);
        self.go_on(Next::Answer)
    }

    /// S6. 01 §5: payload in chain order, then status, then the used entry; later writes win.
    fn answer(&mut self, memory: &Memory, disk: &Disk, mem: &mut [u8], backing: &[u8]) -> u64 {
        let (areas, answered) = (self.areas, self.answered);
        let request = self.at_hand();
        let w = request.w();
        let data = from_disk(request, disk, backing);
        let mut given = 0;
        let writable = || request.chain.iter().filter(|buffer| buffer.writable);
        for buffer in writable() {
            let n = (data.len() - given).min(buffer.len as usize);
            if n > 0 {
                put(memory, mem, buffer.address, &data[given..given + n]);
            }
            given += n;
        }
        if let Some(last) = writable().last() {
            put(memory, mem, last.address + last.len - 1, &[request.status]);
        }
        let entry = areas.used_entry(answered);
        put(memory, mem, entry, &(request.head as u32).to_le_bytes());
        put(memory, mem, entry + 4, &(reported(request.status, w) as u32).to_le_bytes());
        self.go_on(Next::Publish)
    }

    /// S7.
    fn publish(&mut self, memory: &Memory, mem: &mut [u8]) -> u64 {
        self.taken = self.taken.wrapping_add(1);
        self.answered = self.answered.wrapping_add(1);
        put(memory, mem, self.areas.used_idx(), &self.answered.to_le_bytes());
        self.next = Next::Poll;
        2
    }
}

/// The tests of a fetched descriptor in their order: its buffer and the descriptor that follows, or the reason.
fn judge(bytes: &[u8], request: &Request, memory: &Memory, q: u64) -> Result<(Buffer, Option<u16>), u64> {
    let number = |from: usize, to: usize| bytes[from..to].iter().rev().fold(0, |sum, byte| sum << 8 | *byte as u64);
    let (address, len, flags, next) = (number(0, 8), number(8, 12), number(12, 14) as u16, number(14, 16));
    let writable = flags & WRITE != 0;
    if request.fetched > q {
        return Err(3);
    }
    if flags & !(NEXT | WRITE) != 0 {
        return Err(4);
    }
    if len == 0 {
        return Err(5);
    }
    if memory.locate(address, len).is_none() {
        return Err(6);
    }
    if !writable && request.chain.iter().any(|earlier| earlier.writable) {
        return Err(7);
    }
    if flags & NEXT != 0 && next >= q {
        return Err(2);
    }
    let following = if flags & NEXT != 0 { Some(next as u16) } else { None };
    Ok((Buffer { address, len, writable }, following))
}

/// The data bytes of the answer: sectors, the identity, or none.
fn from_disk(request: &Request, disk: &Disk, backing: &[u8]) -> Vec<u8> {
    if request.status != 0 {
        return Vec::new();
    }
    match header(&request.header) {
        (IN, sector) => backing[disk.range(sector, request.w() as usize - 1)].to_vec(),
        (GET_ID, _) => disk.id.to_vec(),
        _ => Vec::new(),
    }
}
