//! Requests of 4 GiB and more: many long buffers over the same bytes. A sum of lengths in 32 bits takes them for small.

use crate::case::Case;
use crate::honest::serve;
use crate::request::{IN, OUT};
use crate::steps::Buffer;

const FOUR_GIB: u64 = 1 << 32;

/// Buffers of `total` bytes in all, each over the whole of the longest region or over less of it.
fn over_and_over(case: &mut Case, total: u64, writable: bool) -> Vec<Buffer> {
    let longest = *case.driver.memory.regions.iter().max_by_key(|region| region.len).expect("at least one region");
    let mut buffers = Vec::new();
    let mut left = total;
    while left > 0 {
        let len = left.min(longest.len);
        buffers.push(Buffer { address: longest.guest, len, writable });
        left -= len;
    }
    case.random.shuffle(&mut buffers);
    buffers
}

/// 2^32 + n data bytes where n would be taken.
fn lay(case: &mut Case, kind: u32) {
    let mut spots = case.driver.area_spots();
    let place = case.driver.place(&mut case.random, 16, &mut spots).expect("room for a header");
    let mut header = kind.to_le_bytes().to_vec();
    header.extend([0; 12]);
    let first = Buffer { address: place, len: 16, writable: false };
    let mut buffers = vec![first];
    let total = FOUR_GIB + 512 * case.random.below(2);
    buffers.extend(over_and_over(case, if kind == IN { total + 1 } else { total }, kind == IN));
    if kind == OUT {
        buffers.push(Buffer { address: place, len: 1, writable: true });
    }
    let indices: Vec<u16> = (0..buffers.len() as u16).collect();
    let taken = case.taken();
    case.driver.chain(&mut case.pair, &indices, &buffers);
    case.driver.write(&mut case.pair, place, &header);
    case.driver.entry(&mut case.pair, taken, 0);
    case.driver.idx(&mut case.pair, taken.wrapping_add(1));
}

pub fn run(case: &mut Case) {
    case.set_up();
    let kind = case.random.pick(&[IN, OUT]);
    lay(case, kind);
    serve(case, 1);
}
