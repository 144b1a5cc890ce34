//! A host in Rust, over the binding: it registers guest memory, a disk and a queue, then steps the device while a guest on
//! another thread reads a sector, and after that breaks its queue with a buffer that isn't in its memory. The guest stands in
//! for a virtual machine.

use hostiledisk::{identity, Device, Disk, Queue, Reason, Region, Step, SECTOR_BYTES};
use std::alloc::{alloc_zeroed, handle_alloc_error, Layout};
use std::error::Error;
use std::sync::atomic::{fence, AtomicBool, AtomicU16, Ordering};
use std::thread;
use std::time::Duration;

const MEMORY: usize = 65_536;
const SECTORS: usize = 64;
const STEPS_A_TURN: usize = 64; // the host's bounds: how long one device may keep it,
const TURNS: usize = 10_000; // and how long this example runs
const GUEST: u64 = 0x8000_0000; // the guest address of the first byte of memory
const QUEUE: Queue = Queue { size: 8, desc: GUEST + 0x1000, avail: GUEST + 0x2000, used: GUEST + 0x3000 };

/// Memory that guest and host share: a raw pointer, since neither has it for itself.
#[derive(Clone, Copy)]
struct Shared(*mut u8);

// SAFETY: both threads touch it only by volatile and atomic accesses, and by step_raw.
unsafe impl Send for Shared {}

impl Shared {
    /// It begins at a page, so both idx lie at even addresses. It is never freed.
    fn new() -> Shared {
        let layout = Layout::from_size_align(MEMORY, 4096).expect("4096 is a power of two");
        // SAFETY: the layout isn't empty.
        let first = unsafe { alloc_zeroed(layout) };
        if first.is_null() {
            handle_alloc_error(layout);
        }
        Shared(first)
    }

    fn place(self, address: u64, len: usize) -> *mut u8 {
        let offset = (address - GUEST) as usize;
        assert!(offset + len <= MEMORY);
        // SAFETY: the offset lies inside the memory.
        unsafe { self.0.add(offset) }
    }

    fn put(self, address: u64, bytes: &[u8]) {
        let first = self.place(address, bytes.len());
        for (i, byte) in bytes.iter().enumerate() {
            // SAFETY: place has tested the range.
            unsafe { first.add(i).write_volatile(*byte) };
        }
    }

    fn get(self, address: u64, len: usize) -> Vec<u8> {
        let first = self.place(address, len);
        // SAFETY: place has tested the range.
        (0..len).map(|i| unsafe { first.add(i).read_volatile() }).collect()
    }

    fn idx(self, ring: u64) -> &'static AtomicU16 {
        // SAFETY: place has tested the range, the address is even, and the memory is never freed.
        unsafe { &*(self.place(ring + 2, 2) as *const AtomicU16) }
    }
}

/// Flags are 1 NEXT, 2 WRITE.
fn describe(memory: Shared, number: u64, address: u64, len: u32, flags: u16, next: u16) {
    let at = QUEUE.desc + 16 * number;
    memory.put(at, &address.to_le_bytes());
    memory.put(at + 8, &len.to_le_bytes());
    memory.put(at + 12, &flags.to_le_bytes());
    memory.put(at + 14, &next.to_le_bytes());
}

/// The guest: reads sector 3. Answers the status and the first data bytes, or nothing if the host has given up.
fn guest(memory: Shared, given_up: &AtomicBool) -> Option<(u8, Vec<u8>)> {
    let (header, data, status) = (GUEST + 0x4000, GUEST + 0x5000, GUEST + 0x6000);
    describe(memory, 0, header, 16, 1, 1);
    describe(memory, 1, data, 512, 3, 2);
    describe(memory, 2, status, 1, 2, 0);
    memory.put(header, &[0, 0, 0, 0, 0, 0, 0, 0, 3]); // IN, sector 3
    memory.put(status, &[0xff]);
    memory.put(QUEUE.avail + 4, &[0, 0]); // entry 0: head 0
    memory.idx(QUEUE.avail).store(1, Ordering::Release); // the entry is seen before idx
    while memory.idx(QUEUE.used).load(Ordering::Acquire) != 1 {
        if given_up.load(Ordering::Relaxed) {
            return None;
        }
        thread::yield_now();
    }
    let read = (memory.get(status, 1)[0], memory.get(data, SECTOR_BYTES));
    describe(memory, 6, header, 16, 1, 4);
    describe(memory, 4, GUEST + MEMORY as u64 - 100, 512, 3, 2); // and now it leaves the rules
    memory.put(QUEUE.avail + 6, &[6, 0]); // entry 1: head 6
    memory.idx(QUEUE.avail).store(2, Ordering::Release);
    Some(read)
}

fn set_up(backing: &[u8]) -> Result<Device, Box<dyn Error>> {
    let mut device = Device::new();
    device.memory(&[Region { guest: GUEST, len: MEMORY as u64, offset: 0 }], MEMORY)?;
    let id = identity("EXAMPLE-0001").ok_or("an identity of more than 20 bytes")?;
    device.disk(&Disk { start: 0, sectors: SECTORS as u64, read_only: false, id }, backing.len())?;
    device.enable(&QUEUE)?;
    Ok(device)
}

/// At most STEPS_A_TURN steps, then it is another device's turn. False when this queue has ended.
fn turn(device: &mut Device, memory: Shared, backing: &mut [u8]) -> Result<bool, Box<dyn Error>> {
    for _ in 0..STEPS_A_TURN {
        // Before S7: what S6 wrote (data, status, used entry) is seen before used idx, and all fetches are done.
        fence(Ordering::Release);
        // SAFETY: memory is there for its length and never freed, backing is ours alone, and the two are apart.
        let step = unsafe { device.step_raw(memory.0, MEMORY, backing.as_mut_ptr(), backing.len()) };
        // After S1: entry and descriptors are read after the idx that covers them.
        fence(Ordering::Acquire); // on x86-64 neither fence is an instruction, so every step has both
        match step {
            Step::Idle => break,
            Step::WentOn => {}
            Step::Answered => {} // a real host notifies the guest here
            Step::Broken(_) => {
                println!("host: {}", device.status());
                return Ok(false); // until Device::reset this queue does nothing more
            }
            Step::Refused => return Err("a step was refused: a mistake of this host".into()),
        }
    }
    Ok(true)
}

fn main() -> Result<(), Box<dyn Error>> {
    static GIVEN_UP: AtomicBool = AtomicBool::new(false);
    let memory = Shared::new();
    let mut backing = vec![0; SECTORS * SECTOR_BYTES];
    backing[3 * SECTOR_BYTES..][..23].copy_from_slice(b"hello from sector three");
    let mut device = set_up(&backing)?;
    let driver = thread::spawn(move || guest(memory, &GIVEN_UP));
    for _ in 0..TURNS {
        if !turn(&mut device, memory, &mut backing)? {
            break;
        }
        // a real host serves its other devices here, and waits for a notification if all are idle
        thread::sleep(Duration::from_millis(1));
    }
    GIVEN_UP.store(true, Ordering::Relaxed); // a guest that still waits ends
    let came_back = driver.join().map_err(|_| "the guest panicked")?;
    let (status, data) = came_back.ok_or("no answer")?;
    println!("guest: status {status}, sector 3 reads {:?}", String::from_utf8_lossy(&data[..23]));
    let ended = device.status();
    println!("host: {} answered", ended.answered);
    if status != 0 || data != backing[3 * SECTOR_BYTES..4 * SECTOR_BYTES] {
        return Err("that is not sector 3".into());
    }
    if (ended.answered, ended.broken, ended.broken_at) != (1, Some(Reason::Memory), Some(4)) {
        return Err(format!("not how this guest breaks its queue: {ended}").into());
    }
    Ok(())
}
