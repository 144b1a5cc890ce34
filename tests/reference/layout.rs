//! Where a case's guest has its memory: 1 to 32 regions at guest addresses from 0 to the very top, adjoining or far apart,
//! some sharing slice bytes, and the three areas somewhere in them, at a region's border too.

use crate::areas::Areas;
use crate::random::Random;
use crate::regions::REGIONS;

pub struct Layout {
    /// Three words for each region, as hd_memory takes them.
    pub regions: Vec<u64>,
    pub mem_len: u64,
    pub areas: Areas,
}

/// Guest address and length of a region, and whether an area lies in it.
struct Stretch {
    guest: u64,
    len: u64,
    has_area: bool,
}

/// `room` bytes and more beside the areas, in one region, and little in the others.
pub fn layout(random: &mut Random, size: u64, room: u64) -> Layout {
    let (few, many) = (random.index(8) + 1, random.range(9, REGIONS as u64) as usize);
    let count = random.pick(&[few, few, few, many, many, REGIONS]);
    let mut areas = Areas { size, desc: 0, avail: 0, used: 0 };
    let mut stretches = stretches(random, &mut areas, count, room);
    let base = base(random, &mut stretches);
    for stretch in &mut stretches {
        stretch.guest += base;
    }
    areas = Areas { size, desc: areas.desc + base, avail: areas.avail + base, used: areas.used + base };
    let (regions, mem_len) = offsets(random, &stretches);
    Layout { regions, mem_len, areas }
}

/// The regions one behind the other, from an address near 0, and the areas in them.
fn stretches(random: &mut Random, areas: &mut Areas, count: usize, room: u64) -> Vec<Stretch> {
    let homes = [random.index(count), random.index(count), random.index(count)];
    let roomy = random.index(count);
    let mut order = [0, 1, 2];
    random.shuffle(&mut order);
    let mut at = random.pick(&[0, 0, 1, 7, 16, 4096]);
    let mut stretches = Vec::new();
    for k in 0..count {
        at += random.pick(&[0, 0, 1, 13, 4096, 1 << 20, 1 << 40]);
        let guest = at;
        for area in order.iter().filter(|area| homes[**area] == k) {
            at = put_area(random, areas, *area, at);
        }
        let has_area = homes.contains(&k);
        let small = if has_area { random.pick(&[0, 0, 1, 300]) } else { random.pick(&[1, 17, 513, 700]) };
        at += if k == roomy { room } else { small };
        stretches.push(Stretch { guest, len: at - guest, has_area });
    }
    stretches
}

/// Puts one area at or behind `at`, and answers its end.
fn put_area(random: &mut Random, areas: &mut Areas, which: usize, at: u64) -> u64 {
    let (_, bytes, multiple) = areas.all()[which];
    let from = at + random.pick(&[0, 0, 0, 5, 100]);
    let address = (from + multiple - 1) / multiple * multiple;
    match which {
        0 => areas.desc = address,
        1 => areas.avail = address,
        _ => areas.used = address,
    }
    address + bytes
}

/// A multiple of 16 to add to all addresses. The highest makes the last region end at 2^64 - 1 exactly.
fn base(random: &mut Random, stretches: &mut [Stretch]) -> u64 {
    match random.below(5) {
        0 => 0,
        1 => 0x8000_0000,
        2 => (1 << 32) - 16 * random.below(300),
        3 => random.below(1 << 59) * 16,
        _ => {
            let last = stretches.last_mut().expect("at least one region");
            last.len += 15 - (last.guest + last.len) % 16;
            u64::MAX - (last.guest + last.len)
        }
    }
}

/// The regions' places in the slice, in another order than their addresses. They may share bytes, seldom those of an area.
fn offsets(random: &mut Random, stretches: &[Stretch]) -> (Vec<u64>, u64) {
    let mut order: Vec<usize> = (0..stretches.len()).collect();
    random.shuffle(&mut order);
    let mut offset = vec![0; stretches.len()];
    let mut end = 0;
    for k in order {
        end += random.pick(&[0, 0, 1, 40]);
        offset[k] = end;
        end += stretches[k].len;
    }
    let mem_len = end + random.pick(&[0, 0, 1, 9]);
    for (k, stretch) in stretches.iter().enumerate() {
        if random.one_in(if stretch.has_area { 20 } else { 3 }) {
            offset[k] = random.below(mem_len - stretch.len + 1);
        }
    }
    let words = stretches.iter().zip(&offset).flat_map(|(stretch, offset)| [stretch.guest, stretch.len, *offset]);
    (words.collect(), mem_len)
}
