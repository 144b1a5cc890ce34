//! Requests by the book, and requests of a wrong form: header, data and status cut into buffers anywhere, several pending.

use crate::case::Case;
use crate::events::disturb;
use crate::random::Random;
use crate::reference::DiskWords;
use crate::request::{FLUSH, GET_ID, IN, MOST, OUT};
use crate::seen::SEVERAL_PENDING;
use crate::steps::Buffer;

/// A request before it is cut: its readable bytes and the number of its writable ones.
pub struct Wish {
    pub readable: Vec<u8>,
    pub writable: u64,
}

const OTHER_TYPES: [u32; 9] = [2, 3, 5, 11, 13, 256, 1 << 24, 1 << 31, u32::MAX];

/// How many bytes of data: mostly sectors, at most `most`.
fn amount(random: &mut Random, sectors: u64, most: u64) -> u64 {
    let whole = sectors.min(most / 512);
    let some = 512 * random.below(whole + 1);
    let few = 512 * random.range(0, 3).min(whole);
    let edge = random.pick(&[0, 1, 511, 513, 512 * sectors, 512 * sectors + 512]);
    let large = random.pick(&[MOST, MOST, MOST + 512, MOST + 512, MOST - 512]);
    let choice = if most > MOST { [large, large, large, some, few] } else { [few, few, some, some, edge] };
    random.pick(&choice).min(most)
}

/// A sector from which `n` bytes fit, or one at an edge.
fn sector(random: &mut Random, sectors: u64, n: u64) -> u64 {
    let count = n / 512;
    let last = sectors.saturating_sub(count);
    let edge = random.edge();
    let edges = [last, last + 1, sectors, sectors + 1, 0u64.wrapping_sub(count), (1 << 32) + last, edge];
    if random.one_in(6) { random.pick(&edges) } else { random.below(last + 1) }
}

pub fn wish(random: &mut Random, disk: &DiskWords, most: u64) -> Wish {
    let other = random.pick(&OTHER_TYPES);
    let kind = random.pick(&[IN, IN, IN, IN, OUT, OUT, OUT, OUT, FLUSH, GET_ID, other]);
    let n = amount(random, disk.sectors, most);
    let mut readable = kind.to_le_bytes().to_vec();
    readable.extend(random.bytes(4)); // reserved
    readable.extend(sector(random, disk.sectors, n).to_le_bytes());
    let mut writable = 1;
    match kind {
        IN => writable += n,
        OUT => readable.extend(random.bytes(n as usize)),
        GET_ID => writable += 20,
        _ => (),
    }
    if random.one_in(8) {
        leave_form(random, &mut readable, &mut writable);
    }
    Wish { readable, writable }
}

/// A byte too few or too many, or too short a header.
fn leave_form(random: &mut Random, readable: &mut Vec<u8>, writable: &mut u64) {
    match random.below(5) {
        0 => readable.truncate(random.index(16)),
        1 => readable.push(0),
        2 => *writable += 1,
        3 => *writable = (*writable - 1).max(1),
        _ => {
            *writable += random.below(40);
            readable.extend(vec![0; random.index(40)]);
        }
    }
}

/// Cuts `total` bytes into at most `most` pieces of at least one byte; often right at `favourite`.
fn cut(random: &mut Random, total: u64, most: u64, favourite: u64) -> Vec<u64> {
    let few = random.range(1, 4);
    let many = random.range(1, most.max(1));
    let pieces = random.pick(&[1, 2, few, few, many, most]).min(most).min(total);
    let mut cuts: Vec<u64> = (1..pieces).map(|_| random.range(1, total - 1)).collect();
    if let Some(first) = cuts.first_mut() {
        if random.one_in(2) && favourite > 0 && favourite < total {
            *first = favourite;
        }
    }
    cuts.extend([0, total]);
    cuts.sort_unstable();
    cuts.dedup();
    cuts.windows(2).map(|pair| pair[1] - pair[0]).collect()
}

/// The buffers of a request, at most `most`, apart from `spots`; its readable bytes are written into them.
pub fn buffers(case: &mut Case, wish: &Wish, most: u64, spots: &mut Vec<(u64, u64)>) -> Vec<Buffer> {
    let r = wish.readable.len() as u64;
    let for_readable = if r == 0 { 0 } else { (most - 1).max(1) };
    let readable = if for_readable == 0 { Vec::new() } else { cut(&mut case.random, r, for_readable, 16) };
    let left = most - readable.len() as u64;
    let writable = if left == 0 { Vec::new() } else { cut(&mut case.random, wish.writable, left, wish.writable - 1) };
    let mut buffers = Vec::new();
    let mut given = 0;
    for (i, len) in readable.iter().chain(&writable).enumerate() {
        let address = case.driver.place(&mut case.random, *len, spots).unwrap_or(0);
        let is_writable = i >= readable.len();
        if !is_writable {
            case.driver.write(&mut case.pair, address, &wish.readable[given..given + *len as usize]);
            given += *len as usize;
        }
        buffers.push(Buffer { address, len: *len, writable: is_writable });
    }
    buffers
}

/// Lays up to `pending` requests and publishes them.
pub fn lay(case: &mut Case, pending: u64) -> u16 {
    let size = case.enabling.areas.size;
    let pending = pending.min(size);
    let mut free: Vec<u16> = (0..size as u16).collect();
    case.random.shuffle(&mut free);
    let mut spots = case.driver.area_spots();
    let most = if case.room > MOST { MOST + 512 } else { case.room / 2 / pending };
    let taken = case.taken();
    let mut laid = 0;
    for _ in 0..pending {
        let wish = wish(&mut case.random, &case.disk, most);
        let buffers = buffers(case, &wish, size / pending, &mut spots);
        let indices: Vec<u16> = free.drain(..buffers.len()).collect();
        case.driver.chain(&mut case.pair, &indices, &buffers);
        case.driver.entry(&mut case.pair, taken.wrapping_add(laid), indices[0]);
        laid += 1;
    }
    case.driver.idx(&mut case.pair, taken.wrapping_add(laid));
    laid
}

/// Steps until there is nothing to do or the queue is broken; now and then something else in between.
pub fn serve(case: &mut Case, laid: u16) {
    let mut moment = None;
    let mut answered = 0;
    let seldom = if case.room > MOST || case.enabling.areas.size >= 256 { 300 } else { 30 };
    for _ in 0..3000 {
        match case.pair.step() {
            0 => break,
            2 => answered += 1,
            3 => return case.recover(),
            _ => (),
        }
        if case.random.one_in(seldom) {
            disturb(case, &mut moment);
        }
    }
    if laid > 1 && answered >= laid {
        case.pair.seen.add("form", SEVERAL_PENDING);
    }
}

pub fn run(case: &mut Case, rounds: u64) {
    case.set_up();
    for _ in 0..rounds {
        let many = case.random.range(1, 16);
        let pending = if case.room > MOST { 1 } else { case.random.pick(&[1, 1, 2, 3, many]) };
        let laid = lay(case, pending);
        serve(case, laid);
    }
}
