//! One case: a device set up from its seed through the calls themselves, and what every kind of case does with it.

use crate::areas::LONGEST;
use crate::compare::Pair;
use crate::driver::Driver;
use crate::events::short_slice;
use crate::guard::Lent;
use crate::layout::{layout, Layout};
use crate::library::{chain_words, state_words, Slices};
use crate::random::Random;
use crate::reference::{DiskWords, Enabling};
use crate::regions::{Memory, REGIONS};
use crate::request::MOST;
use crate::seen::Seen;

/// How large a case is: queue size, bytes of memory beside the areas, sectors.
pub struct Scale {
    pub size: u64,
    pub room: u64,
    pub sectors: u64,
}

impl Scale {
    pub fn small(random: &mut Random) -> Scale {
        let size = 1 << random.below(11);
        Scale { size, room: random.pick(&[700, 1600, 4000, 9000]), sectors: random.range(1, 12) }
    }

    /// Room for a request of 1 MiB and more, on a disk that could take two of them.
    pub fn large(random: &mut Random) -> Scale {
        Scale { size: 1 << random.pick(&[2, 3, 4, 5, 6, 7, 8, 10]), room: 5 << 19, sectors: random.pick(&[2048, 2049, 4500]) }
    }

    /// Room for a buffer of which a queue's whole length of them is more than 4 GiB.
    pub fn wide() -> Scale {
        Scale { size: LONGEST, room: 5 << 20, sectors: 4 }
    }

    /// A queue that is one of the longest, and a disk for requests that use all its descriptors.
    pub fn long(random: &mut Random) -> Scale {
        Scale { size: random.pick(&[LONGEST / 4, LONGEST / 2, LONGEST, LONGEST]), room: 45_000, sectors: random.range(3, 70) }
    }
}

pub struct Case<'a> {
    pub random: Random,
    pub pair: Pair<'a>,
    pub driver: Driver,
    pub regions: Vec<u64>,
    /// Regions that were registered before these, and are forgotten.
    pub former: Vec<u64>,
    pub disk: DiskWords,
    pub enabling: Enabling,
    pub room: u64,
}

impl<'a> Case<'a> {
    /// Everything lent and nothing set up.
    pub fn new(mut random: Random, scale: Scale, seen: &'a mut Seen) -> Case<'a> {
        let Layout { regions, mem_len, areas } = layout(&mut random, scale.size, scale.room);
        let disk = disk(&mut random, scale.sectors);
        let chain_len = chain_words(areas.size) + random.pick(&[0, 0, 1, 5]);
        let stage_len = MOST + random.pick(&[0, 0, 3]);
        let enabling = Enabling { areas, chain_len, stage_len, start: None };
        let lent = lend(&mut random, mem_len, &disk, &enabling);
        let memory = Memory::register(&regions, mem_len).expect("the layout is one that set-up takes");
        let driver = Driver { areas, memory };
        let former = former(&mut random, mem_len);
        let outs = Random::new(!random.clone().next()); // what a seed makes stays as it was
        Case { random, pair: Pair::new(lent, seen, outs), driver, regions, former, disk, enabling, room: scale.room }
    }

    pub fn set_up(&mut self) {
        if self.random.one_in(2) {
            self.pair.memory(&self.former, self.driver.memory.mem_len);
        }
        let answers = [self.pair.memory(&self.regions, self.driver.memory.mem_len), self.pair.disk(&self.disk)];
        assert!(answers == [0, 0], "the generator's set-up is refused: {:?}", answers);
        self.enable();
    }

    /// Counters that begin at 0, or where they soon wrap.
    pub fn enable(&mut self) {
        let soon = 65_535 - self.random.below(5);
        let anywhere = self.random.below(65_536);
        self.enabling.start = self.random.pick(&[None, Some(0), Some(soon), Some(soon), Some(anywhere)]);
        let answer = self.pair.enable(&self.enabling.clone());
        assert!(answer == 0, "the generator's queue is refused: {}", answer);
    }

    pub fn taken(&self) -> u16 {
        self.pair.device.queue.as_ref().map_or(0, |queue| queue.taken)
    }

    /// A broken queue stays broken whatever is called, until it is reset.
    pub fn recover(&mut self) {
        self.pair.step();
        if self.random.one_in(4) {
            short_slice(self);
        }
        if self.random.one_in(3) {
            self.pair.enable(&self.enabling.clone());
            self.pair.disk(&self.disk.clone());
        }
        self.pair.reset();
        if self.random.one_in(3) {
            self.pair.step();
        }
        self.enable();
    }
}

/// As many regions as there may be, any of which a device might wrongly remember.
fn former(random: &mut Random, mem_len: u64) -> Vec<u64> {
    let len = mem_len.min(600);
    (0..REGIONS as u64).flat_map(|k| [(1 << 50) + 4096 * k, len, random.below(mem_len - len + 1)]).collect()
}

/// A disk somewhere inside a larger backing slice.
fn disk(random: &mut Random, sectors: u64) -> DiskWords {
    let start = random.pick(&[0, 1, 511, 512, 777]);
    let backing_len = start + 512 * sectors + random.pick(&[0, 1, 600]);
    let any = random.edge();
    let read_only = random.pick(&[0, 0, 0, 0, 0, 0, 0, any]);
    DiskWords { start, sectors, read_only, id: random.bytes(20), backing_len }
}

/// All slices as long as they are told, or a little longer, with random contents, each flush with one of its guard pages.
fn lend(random: &mut Random, mem_len: u64, disk: &DiskWords, enabling: &Enabling) -> Slices {
    let mixed = random.next();
    let ends = random.pick(&[0, u64::MAX, mixed]);
    let mut more = || random.pick(&[0, 0, 1, 30]) as usize;
    let mut lent = Slices {
        state: Lent::new(state_words() + more(), ends & 1 != 0),
        mem: Lent::new(mem_len as usize + more(), ends & 2 != 0),
        backing: Lent::new(disk.backing_len as usize + more(), ends & 4 != 0),
        chain: Lent::new(enabling.chain_len as usize + more(), ends & 8 != 0),
        stage: Lent::new(enabling.stage_len as usize + more(), ends & 16 != 0),
        out: Lent::new(12 + more(), ends & 32 != 0),
        short_lived_at_end: ends & 64 != 0,
    };
    random.fill(lent.mem.all_mut());
    random.fill(lent.backing.all_mut());
    lent
}
