//! Guests that leave the rules: every field random or at an edge, buffers over each other and over the rings, and memory
//! that is replaced, wholly or in part, before any step.

use crate::case::Case;
use crate::events::disturb;
use crate::honest::lay;
use crate::random::Random;
use crate::regions::REGIONS;
use crate::steps::Buffer;

/// An address at the edge of a region or of an area, or any.
fn address(case: &mut Case, len: u64) -> u64 {
    let region = case.random.pick(&case.driver.memory.regions);
    let (area, bytes, _) = case.random.pick(&case.driver.areas.all());
    let inside = region.guest + case.random.below(region.len);
    let any = case.random.edge();
    let end = region.guest + region.len;
    let last = end.wrapping_sub(len); // the last place where a buffer of this length ends in the region
    let edges = [region.guest, region.guest.wrapping_sub(1), last, last.wrapping_add(1), end];
    let edge = case.random.pick(&edges);
    let ring = area + case.random.below(bytes);
    let former = 3 * case.random.index(REGIONS);
    case.random.pick(&[inside, inside, edge, edge, ring, ring, any, case.former[former]])
}

fn length(random: &mut Random) -> u64 {
    let few = random.range(1, 64);
    let any = random.next();
    let edges = [0, 1, 1, 15, 16, 17, 21, 511, 512, 513, 528, 1024, 1025, 0x8000_0000, 0xffff_ffff];
    let edge = random.pick(&edges);
    random.pick(&[edge, edge, edge, edge, few, any]) & 0xffff_ffff
}

/// A descriptor whose every field is plausible, at an edge or random.
fn descriptor(case: &mut Case) {
    let size = case.enabling.areas.size;
    let index = case.random.below(size) as u16;
    let len = length(&mut case.random);
    let buffer = Buffer { address: address(case, len), len, writable: false };
    let any = case.random.next() as u16;
    let flags = case.random.pick(&[0, 1, 1, 2, 2, 3, 3, 3, 4, 5, 8, 1 << 15, any]);
    let next = case.random.below(size) as u16;
    let next = case.random.pick(&[next, next, next, next, index, size as u16 - 1, size as u16, any]);
    case.driver.describe(&mut case.pair, index, &buffer, flags, next);
}

/// One field of one descriptor, at an edge; the others stay.
fn field(case: &mut Case) {
    let size = case.enabling.areas.size;
    let at = case.driver.areas.descriptor(case.random.below(size) as u16);
    let any = case.random.next() as u16;
    let len = length(&mut case.random);
    match case.random.below(4) {
        0 => {
            let address = address(case, len);
            case.driver.write(&mut case.pair, at, &address.to_le_bytes());
        }
        1 => case.driver.write(&mut case.pair, at + 8, &(len as u32).to_le_bytes()),
        2 => {
            let flags = case.random.pick(&[0, 1, 2, 3, 4, 7, 8, any]);
            case.driver.write(&mut case.pair, at + 12, &flags.to_le_bytes());
        }
        _ => {
            let next = case.random.pick(&[0, size as u16 - 1, size as u16, any]);
            case.driver.write(&mut case.pair, at + 14, &next.to_le_bytes());
        }
    }
}

pub fn idx(case: &mut Case) {
    let (size, taken, any) = (case.enabling.areas.size as u16, case.taken(), case.random.next() as u16);
    let ahead = case.random.pick(&[0, 1, 1, 1, 2, size, size, size + 1, 0xffff, 0x8000, any]);
    case.driver.idx(&mut case.pair, taken.wrapping_add(ahead));
}

pub fn entry(case: &mut Case) {
    let (size, any) = (case.enabling.areas.size as u16, case.random.next() as u16);
    let number = case.taken().wrapping_add(case.random.pick(&[0, 0, 0, 1, any]));
    let inside = any % size;
    let head = case.random.pick(&[inside, inside, inside, inside, size - 1, size, 0xffff, any]);
    case.driver.entry(&mut case.pair, number, head);
}

/// Bytes of the slice, in regions or not: random, all ones, or zeros.
fn stretch(case: &mut Case, len: usize) {
    let whole = case.pair.mem.len();
    let len = len.min(whole);
    let at = case.random.index(whole - len + 1);
    let bytes = match case.random.below(4) {
        0 => vec![0; len],
        1 => vec![0xff; len],
        _ => case.random.bytes(len),
    };
    case.pair.write(at, &bytes);
}

/// All of memory is new: descriptors, entries and idx with plausible and implausible fields, everything else random.
fn everything(case: &mut Case) {
    stretch(case, usize::MAX);
    for _ in 0..case.random.range(0, 2 * case.enabling.areas.size.min(40)) {
        descriptor(case);
    }
    entry(case);
    idx(case);
}

pub fn mischief(case: &mut Case) {
    match case.random.below(14) {
        0 => idx(case),
        1 => entry(case),
        2 | 3 | 4 => descriptor(case),
        5 | 6 | 7 => field(case),
        8 | 9 => {
            let len = case.random.range(1, 64) as usize;
            stretch(case, len);
        }
        10 => everything(case),
        11 => stretch(case, usize::MAX),
        _ => _ = lay(case, 1),
    }
}

/// After a break: mostly a request by the book on the new queue, else whatever memory now has.
fn again(case: &mut Case) {
    case.recover();
    if !case.random.one_in(8) {
        lay(case, 1);
    }
}

/// A round begins with a request by the book or with random memory; then the guest does what it likes before each step.
pub fn run(case: &mut Case, rounds: u64) {
    case.set_up();
    let mut moment = None;
    for _ in 0..rounds {
        let pending = case.random.range(1, 4);
        match case.random.below(3) {
            0 => everything(case),
            _ => _ = lay(case, pending),
        }
        for _ in 0..case.random.below(3) {
            mischief(case);
        }
        let seldom = case.random.pick(&[1, 4, 20]);
        for _ in 0..case.random.range(1, 60) {
            match case.pair.step() {
                3 => again(case),
                0 => _ = lay(case, 1),
                _ => (),
            }
            if case.random.one_in(seldom) {
                mischief(case);
            }
            if case.random.one_in(40) {
                disturb(case, &mut moment);
            }
        }
    }
}
