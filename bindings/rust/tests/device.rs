//! The binding over the archive: the setting of 01 §6 and 03 §6, each answer as its enum, slices of every length.

use hostiledisk::*;

const GUEST: u64 = 0x8000_0000;
const MEM: usize = 65_536;
const QUEUE: Queue = Queue { size: 8, desc: GUEST + 0x1000, avail: GUEST + 0x2000, used: GUEST + 0x3000 };
const WHOLE: Region = Region { guest: GUEST, len: MEM as u64, offset: 0 };
const START: usize = 1537;
const BACKING: usize = START + 64 * SECTOR_BYTES + 999;

fn disk() -> Disk {
    Disk { start: START as u64, sectors: 64, read_only: false, id: identity("SCRATCH-0007").unwrap() }
}

/// A device, the guest's memory, the backing slice.
struct Bench {
    device: Device,
    mem: Vec<u8>,
    backing: Vec<u8>,
}

impl Bench {
    /// Memory and disk are registered, V1 is laid, no queue is enabled.
    fn set_up(disk: &Disk) -> Bench {
        let mut backing = vec![0xee; BACKING];
        for i in 0..64 * SECTOR_BYTES {
            backing[START + i] = (7 * i + i / 512) as u8; // 03 §6
        }
        let mut bench = Bench { device: Device::new(), mem: vec![0; MEM], backing };
        bench.device.memory(&[WHOLE], MEM).unwrap();
        bench.device.disk(disk, BACKING).unwrap();
        bench.describe(0, 0x4000, 16, 1, 1);
        bench.describe(1, 0x5000, 512, 3, 2);
        bench.describe(2, 0x6000, 1, 2, 0);
        bench.put(0x4008, &[3]);
        bench.put(0x2000, &[0, 0, 1, 0, 0, 0]);
        bench
    }

    fn enabled() -> Bench {
        let mut bench = Bench::set_up(&disk());
        bench.device.enable(&QUEUE).unwrap();
        bench
    }

    fn put(&mut self, at: usize, bytes: &[u8]) {
        self.mem[at..at + bytes.len()].copy_from_slice(bytes);
    }

    fn describe(&mut self, i: usize, offset: u64, len: u32, flags: u16, next: u16) {
        self.describe_at(0x1000 + 16 * i, offset, len, flags, next);
    }

    fn describe_at(&mut self, at: usize, offset: u64, len: u32, flags: u16, next: u16) {
        self.put(at, &(GUEST + offset).to_le_bytes());
        self.put(at + 8, &len.to_le_bytes());
        self.put(at + 12, &flags.to_le_bytes());
        self.put(at + 14, &next.to_le_bytes());
    }

    fn step(&mut self) -> Step {
        self.device.step(&mut self.mem, &mut self.backing)
    }

    /// Steps while they go on, at most 100.
    fn run(&mut self) -> Step {
        (0..100).map(|_| self.step()).find(|s| *s != Step::WentOn).expect("a request of at most 100 steps")
    }
}

#[test]
fn v1_step_by_step() {
    use NextStep::*;
    let mut bench = Bench::enabled();
    for next in [Poll, Head, Descriptor, Descriptor, Descriptor, Header, Answer, Publish] {
        assert_eq!(bench.device.status().next, Some(next));
        let want = if next == Publish { Step::Answered } else { Step::WentOn };
        assert_eq!(bench.step(), want);
    }
    assert_eq!(bench.mem[0x5000..0x5200], bench.backing[START + 3 * 512..START + 4 * 512]);
    assert_eq!(bench.mem[0x3000..0x300c], [0, 0, 1, 0, 0, 0, 0, 0, 1, 2, 0, 0]);
    assert_eq!(bench.step(), Step::Idle);
    let want = Status { enabled: true, taken: 1, answered: 1, next: Some(Poll), last_chain: 3, ..Status::default() };
    assert_eq!(bench.device.status(), want);
    assert_eq!(want.to_string(), "queue in order");
}

#[test]
fn status_of_a_write() {
    let mut bench = Bench::enabled();
    bench.put(0x4000, &[1]);
    bench.describe(1, 0x5000, 512, 1, 2);
    bench.put(0x5000, &[0x77; 512]);
    for n in 0..6 {
        assert_eq!(bench.device.status().last_chain, if n < 5 { 0 } else { 3 });
        assert_eq!(bench.step(), Step::WentOn);
    }
    let next = Some(NextStep::Payload);
    let at_payload = Status { enabled: true, next, descriptors: 3, bytes: 16, last_chain: 3, ..Status::default() };
    assert_eq!(bench.device.status(), at_payload);
    assert_eq!(bench.run(), Step::Answered);
    assert_eq!(bench.backing[START + 3 * 512..START + 4 * 512], [0x77; 512]);
    assert_eq!(bench.mem[0x3008], 1);
}

#[test]
fn read_only_refuses_a_write() {
    let mut bench = Bench::set_up(&Disk { read_only: true, ..disk() });
    bench.device.enable(&QUEUE).unwrap();
    bench.put(0x4000, &[1]);
    bench.describe(1, 0x5000, 512, 1, 2);
    let before = bench.backing.clone();
    assert_eq!(bench.run(), Step::Answered);
    assert_eq!((bench.mem[0x6000], bench.backing == before), (1, true));
}

#[test]
fn identity_as_text() {
    assert_eq!(identity(""), Some([0; 20]));
    assert_eq!(identity("twenty bytes of text"), Some(*b"twenty bytes of text"));
    assert_eq!(identity("twenty bytes of text."), None);
    let mut bench = Bench::enabled();
    bench.put(0x4000, &[8]);
    bench.describe(1, 0x5000, 20, 3, 2);
    assert_eq!(bench.run(), Step::Answered);
    assert_eq!(&bench.mem[0x5000..0x5014], b"SCRATCH-0007\0\0\0\0\0\0\0\0");
}

#[test]
fn every_reason() {
    type Deed = fn(&mut Bench);
    // the reason, at which descriptor, as which of its chain, and how long the last chain was then
    let rows: [(Reason, Option<u16>, u64, u64, Deed); 11] = [
        (Reason::Idx, None, 0, 0, |b| b.put(0x2002, &[9])),
        (Reason::Index, None, 0, 0, |b| b.put(0x2004, &[8])),
        (Reason::Index, Some(1), 2, 0, |b| b.describe(1, 0x5000, 512, 3, 8)),
        (Reason::ChainLong, Some(0), 9, 0, |b| b.describe(0, 0x4000, 16, 1, 0)),
        (Reason::Flags, Some(0), 1, 0, |b| b.describe(0, 0x4000, 16, 5, 1)),
        (Reason::Empty, Some(1), 2, 0, |b| b.describe(1, 0x5000, 0, 3, 2)),
        (Reason::Memory, Some(1), 2, 0, |b| b.describe(1, 0xfe01, 512, 3, 2)),
        (Reason::ReadableLate, Some(2), 3, 0, |b| b.describe(2, 0x6000, 1, 0, 0)),
        (Reason::NoStatus, Some(0), 1, 1, |b| b.describe(0, 0x4000, 16, 0, 0)),
        (Reason::Memory, Some(7), 2, 0, |b| {
            b.describe(0, 0x4000, 16, 1, 7);
            b.describe(7, 0xffff, 2, 2, 0);
        }),
        (Reason::NoStatus, Some(7), 2, 2, |b| {
            b.describe(0, 0x4000, 16, 1, 7);
            b.describe(7, 0x5000, 512, 0, 0);
        }),
    ];
    for (reason, broken_at, descriptors, last_chain, spoil) in rows {
        let mut bench = Bench::enabled();
        spoil(&mut bench);
        let (mem, backing) = (bench.mem.clone(), bench.backing.clone());
        assert_eq!(bench.run(), Step::Broken(reason));
        let want =
            Status { enabled: true, broken: Some(reason), broken_at, descriptors, last_chain, ..Status::default() };
        assert_eq!(bench.device.status(), want);
        assert_eq!(bench.device.step(&mut [], &mut []), Step::Broken(reason)); // nothing is touched any more
        assert!(mem == bench.mem && backing == bench.backing);
        assert_eq!(bench.device.enable(&QUEUE), Err(EnableError::Order));
        bench.device.reset();
        assert_eq!((bench.device.status(), bench.step()), (Status::default(), Step::Refused));
        assert_eq!(bench.device.enable(&QUEUE), Ok(()));
        let anew = Status { enabled: true, next: Some(NextStep::Poll), ..Status::default() };
        assert_eq!(bench.device.status(), anew);
    }
}

#[test]
fn a_break_in_words() {
    let rows: [(Option<u16>, u64, Reason, &str); 6] = [
        (Some(17), 3, Reason::Memory, "reason 6, buffer not in memory, at descriptor 17, the 3rd of its chain"),
        (Some(0), 1, Reason::Empty, "reason 5, buffer of length 0, at descriptor 0, the 1st of its chain"),
        (None, 0, Reason::Idx, "reason 1, available idx too far ahead"),
        (None, 0, Reason::Index, "reason 2, index past the table, in the available ring"),
        (Some(1023), 2, Reason::Index, "reason 2, index past the table, at descriptor 1023, the 2nd of its chain"),
        (None, 0, Reason::Other(9), "reason 9, unknown code"),
    ];
    for (broken_at, descriptors, reason, words) in rows {
        let status = Status { enabled: true, broken: Some(reason), broken_at, descriptors, ..Status::default() };
        assert_eq!(status.to_string(), format!("queue broken: {words}"));
    }
    let ordinals =
        "1st 2nd 3rd 4th 10th 11th 12th 13th 14th 20th 21st 22nd 23rd 101st 111th 112th 113th 121st 212th 257th 1013th 1025th";
    for ordinal in ordinals.split(' ') {
        let descriptors = ordinal[..ordinal.len() - 2].parse().unwrap();
        let broken = Some(Reason::ChainLong);
        let status = Status { enabled: true, broken, broken_at: Some(4), descriptors, ..Status::default() };
        assert!(status.to_string().ends_with(&format!("at descriptor 4, the {ordinal} of its chain")), "{status}");
    }
    assert_eq!(Status::default().to_string(), "queue not enabled");
}

/// The words of the C header, which are the ones that hosts in C log.
#[test]
fn reasons_in_the_words_of_the_header() {
    use Reason::*;
    let header = include_str!("../../../include/hostiledisk_text.h");
    let said: Vec<&str> = header
        .lines()
        .filter(|line| line.contains("case HD_REASON_"))
        .map(|line| line.split('"').nth(1).unwrap())
        .collect();
    let reasons = [Idx, Index, ChainLong, Flags, Empty, Memory, ReadableLate, NoStatus];
    assert_eq!(said[1..], reasons.map(|reason| reason.words()));
    assert_eq!(reasons.map(|reason| reason.code()), [1, 2, 3, 4, 5, 6, 7, 8]);
}

#[test]
fn every_memory_error() {
    let at = |guest, len, offset| Region { guest, len, offset };
    let rows = [
        (vec![], MemoryError::Count),
        (vec![at(0, 1, 0); REGIONS_MAX + 1], MemoryError::Count),
        (vec![at(GUEST, 0, 0)], MemoryError::Empty),
        (vec![at(GUEST, 2, MEM as u64 - 1)], MemoryError::LeavesSlice),
        (vec![at(GUEST, 2, u64::MAX)], MemoryError::LeavesSlice),
        (vec![at(u64::MAX, 1, 0)], MemoryError::LeavesAddresses),
        (vec![WHOLE, at(GUEST + MEM as u64 - 1, 1, 0)], MemoryError::Overlap),
    ];
    for (regions, error) in rows {
        let mut bench = Bench::enabled();
        assert_eq!(bench.device.memory(&regions, MEM), Err(error));
        assert_eq!(bench.run(), Step::Answered); // the refusal changed nothing
        assert_eq!(bench.device.memory(&[WHOLE], MEM), Ok(()));
        assert_eq!(bench.step(), Step::Refused); // disk and queue are forgotten
    }
}

#[test]
fn every_disk_error() {
    assert_eq!(Device::new().disk(&disk(), BACKING), Err(DiskError::Order));
    let mut bench = Bench::set_up(&disk());
    let with = |start, sectors| Disk { start, sectors, ..disk() };
    assert_eq!(bench.device.disk(&with(0, 0), BACKING), Err(DiskError::Sectors));
    assert_eq!(bench.device.disk(&with(0, SECTORS_MAX + 1), usize::MAX), Err(DiskError::Sectors));
    assert_eq!(bench.device.disk(&with(u64::MAX, 1), BACKING), Err(DiskError::LeavesBacking));
    assert_eq!(bench.device.disk(&with(BACKING as u64 - 511, 1), BACKING), Err(DiskError::LeavesBacking));
    assert_eq!(bench.device.enable(&QUEUE), Ok(()));
    assert_eq!(bench.device.disk(&disk(), BACKING), Err(DiskError::Order));
    assert_eq!(bench.run(), Step::Answered);
}

#[test]
fn every_enable_error() {
    assert_eq!(Device::new().enable(&QUEUE), Err(EnableError::Order));
    let mut bench = Bench::set_up(&disk());
    let rows = [
        (Queue { size: 0, ..QUEUE }, EnableError::Size),
        (Queue { size: 2 * QUEUE_SIZE_MAX, ..QUEUE }, EnableError::Size),
        (Queue { size: u64::MAX, ..QUEUE }, EnableError::Size),
        (Queue { desc: QUEUE.desc + 8, ..QUEUE }, EnableError::Alignment),
        (Queue { avail: GUEST - 2, ..QUEUE }, EnableError::Memory),
        (Queue { used: QUEUE.desc, ..QUEUE }, EnableError::Overlap),
    ];
    for (queue, error) in rows {
        assert_eq!(bench.device.enable(&queue), Err(error));
    }
    assert_eq!(bench.device.enable(&QUEUE), Ok(()));
    assert_eq!(bench.device.enable(&QUEUE), Err(EnableError::Order));
    assert_eq!(bench.run(), Step::Answered);
}

#[test]
fn sizes_one_after_the_other() {
    let mut bench = Bench::set_up(&disk());
    for size in [1, 256, 2, 128, 8] {
        assert_eq!(bench.device.enable(&Queue { size, ..QUEUE }), Ok(()));
        let want = if size < 3 { Step::Broken(Reason::Index) } else { Step::Answered }; // V1's next are 1 and 2
        assert_eq!(bench.run(), want, "size {size}");
        bench.device.reset();
    }
}

/// A read of two sectors by a chain of 1,024: header, 1,021 bytes and a buffer of three, status; everything lies in the
/// last of 32 regions. With NEXT on its last descriptor it is too long.
#[test]
fn the_longest_chain() {
    let mut bench = Bench::set_up(&disk());
    let mut regions: Vec<Region> =
        (1..REGIONS_MAX as u64).map(|i| Region { guest: i, len: 1, offset: i }).chain([WHOLE]).collect();
    assert_eq!(bench.device.memory(&regions, MEM), Ok(()));
    bench.device.disk(&disk(), BACKING).unwrap();
    let wide = Queue { size: QUEUE_SIZE_MAX, desc: GUEST + 0x8000, avail: GUEST + 0x2000, used: GUEST + 0xc000 };
    for size in [512, QUEUE_SIZE_MAX] {
        assert_eq!(bench.device.enable(&Queue { size, ..wide }), Ok(()));
        bench.device.reset();
    }
    let last = QUEUE_SIZE_MAX as usize - 1;
    bench.put(0x4008, &[3]);
    for i in 0..=last {
        let (offset, len, flags) = match i {
            0 => (0x4000, 16, 1),
            i if i == last => (0x6000, 1, 2),
            i => (0x5000 + i as u64 - 1, if i == last - 1 { 3 } else { 1 }, 3),
        };
        bench.describe_at(0x8000 + 16 * i, offset, len, flags, ((i + 1) % (last + 1)) as u16);
    }
    for (flags, want) in [(2, Step::Answered), (3, Step::Broken(Reason::ChainLong))] {
        bench.put(0x8000 + 16 * last + 12, &[flags]);
        bench.device.enable(&wide).unwrap();
        let answer = (0..1100).map(|_| bench.step()).find(|s| *s != Step::WentOn).unwrap();
        assert_eq!(answer, want);
        if answer == Step::Answered {
            assert_eq!(bench.device.status().last_chain, QUEUE_SIZE_MAX);
            assert_eq!(bench.mem[0x5000..0x5400], bench.backing[START + 3 * 512..START + 5 * 512]);
            assert_eq!(bench.mem[0xc002..0xc00c], [1, 0, 0, 0, 0, 0, 1, 4, 0, 0]);
            assert_eq!(bench.mem[0x6000], 0);
        } else {
            let words = "reason 3, chain longer than the queue, at descriptor 0, the 1025th of its chain";
            assert_eq!(bench.device.status().to_string(), format!("queue broken: {words}"));
        }
        bench.device.reset();
    }
    regions.push(Region { guest: 0, len: 1, offset: 0 });
    assert_eq!(bench.device.memory(&regions, MEM), Err(MemoryError::Count));
}

#[test]
fn a_queue_taken_over() {
    let mut bench = Bench::set_up(&disk());
    bench.put(0x2002, &[0, 0]); // idx 0 follows 65,535: the wrap of 01 §6
    bench.device.enable_at(&QUEUE, 65_535).unwrap();
    assert_eq!(bench.device.status().answered, 65_535);
    assert_eq!(bench.run(), Step::Answered);
    assert_eq!((bench.device.status().taken, bench.device.status().answered), (0, 0));
    assert_eq!(bench.mem[0x303c..0x3044], [0, 0, 0, 0, 1, 2, 0, 0]);
}

#[test]
fn short_slices_are_refused_before_each_step() {
    let mut bench = Bench::enabled();
    for n in 0..8 {
        assert_eq!(bench.device.step(&mut bench.mem[1..], &mut bench.backing), Step::Refused);
        assert_eq!(bench.device.step(&mut bench.mem, &mut bench.backing[1..]), Step::Refused);
        assert_eq!(bench.device.step(&mut [], &mut []), Step::Refused);
        let want = if n == 7 { Step::Answered } else { Step::WentOn };
        assert_eq!(bench.step(), want);
    }
}

#[test]
fn a_device_moves_to_another_thread() {
    let mut bench = Bench::enabled();
    assert_eq!(bench.step(), Step::WentOn);
    let answer = std::thread::spawn(move || bench.run()).join().unwrap();
    assert_eq!(answer, Step::Answered);
}

#[test]
fn errors_speak() {
    let said: Box<dyn std::error::Error> = EnableError::Size.into();
    assert_eq!(said.to_string(), "queue refused: the size is not a power of two from 1 to 1,024 (25)");
    assert_eq!(Reason::Empty.to_string(), "queue broken: buffer of length 0 (5)");
    assert_eq!(MemoryError::Other(99).to_string(), "memory refused: unknown code 99");
    let shown = format!("{:?}", Device::new());
    assert!(shown.starts_with("Device { status: Status { enabled: false") && shown.len() < 300, "{shown}");
}
