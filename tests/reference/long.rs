//! Chains of exactly as many descriptors as a long queue has: served; and, with NEXT on the last one, refused as too long.

use crate::case::Case;
use crate::honest::serve;
use crate::random::Random;
use crate::request::{IN, OUT};
use crate::steps::Buffer;

/// `total` bytes in so many pieces of at least one byte.
fn pieces(random: &mut Random, total: u64, count: usize) -> Vec<u64> {
    let mut lens = vec![1; count];
    for _ in count as u64..total {
        lens[random.index(count)] += 1;
    }
    lens
}

/// Places for buffers of these lengths, side by side in any order at the end of the longest region; now and then elsewhere.
fn places(case: &mut Case, lens: &[u64]) -> Vec<u64> {
    let longest = *case.driver.memory.regions.iter().max_by_key(|region| region.len).expect("at least one region");
    let mut order: Vec<usize> = (0..lens.len()).collect();
    case.random.shuffle(&mut order);
    let mut spots = case.driver.area_spots();
    let mut end = longest.guest + longest.len;
    let mut places = vec![0; lens.len()];
    for i in order {
        let elsewhere = if case.random.one_in(16) { case.driver.place(&mut case.random, lens[i], &mut spots) } else { None };
        places[i] = elsewhere.unwrap_or_else(|| {
            end -= lens[i];
            end
        });
    }
    places
}

/// A read or a write whose chain has every descriptor of the queue, and its last descriptor.
fn lay(case: &mut Case, kind: u32) -> u16 {
    let size = case.enabling.areas.size;
    let random = &mut case.random;
    let bytes = 512 * random.range(size / 512 + 1, case.disk.sectors.min(40));
    let mut readable = kind.to_le_bytes().to_vec();
    readable.extend([0; 4]);
    readable.extend(random.below(case.disk.sectors - bytes / 512 + 1).to_le_bytes());
    let header = if kind == OUT { size as usize - 1 } else { random.range(1, 16) as usize };
    if kind == OUT {
        readable.extend(random.bytes(bytes as usize));
    }
    let mut lens = pieces(random, readable.len() as u64, header);
    lens.extend(pieces(random, if kind == IN { bytes + 1 } else { 1 }, size as usize - header));
    let mut indices: Vec<u16> = (0..size as u16).collect();
    random.shuffle(&mut indices);
    let places = places(case, &lens);
    let mut given = 0;
    let mut buffers = Vec::new();
    for (i, (address, len)) in places.into_iter().zip(lens).enumerate() {
        let writable = i >= header;
        if !writable {
            case.driver.write(&mut case.pair, address, &readable[given..given + len as usize]);
            given += len as usize;
        }
        buffers.push(Buffer { address, len, writable });
    }
    let taken = case.taken();
    case.driver.chain(&mut case.pair, &indices, &buffers);
    case.driver.entry(&mut case.pair, taken, indices[0]);
    case.driver.idx(&mut case.pair, taken.wrapping_add(1));
    indices[size as usize - 1]
}

/// The last descriptor gets NEXT, and goes on to any.
fn too_long(case: &mut Case, last: u16) {
    let at = case.driver.areas.descriptor(last);
    let next = case.random.below(case.enabling.areas.size) as u16;
    case.driver.write(&mut case.pair, at + 12, &[3, 0]);
    case.driver.write(&mut case.pair, at + 14, &next.to_le_bytes());
}

pub fn run(case: &mut Case) {
    case.set_up();
    for kind in [IN, OUT] {
        lay(case, kind);
        serve(case, 1);
    }
    let kind = case.random.pick(&[IN, OUT]);
    let last = lay(case, kind);
    too_long(case, last);
    serve(case, 1);
}
