//! Set-up calls at the edges: arguments that would be taken, with one or more of them moved to an edge, in any order of
//! calls. The tests' order shows where two of them are wrong.

use crate::areas::LONGEST;
use crate::case::Case;
use crate::events::short_slice;
use crate::fail::same;
use crate::hostile::{entry, idx};
use crate::library::{chain_words, stage_bytes};
use crate::random::Random;
use crate::reference::{DiskWords, Enabling};
use crate::request::MOST;

/// A number beside `n`, or `n` itself, or an edge.
fn beside(random: &mut Random, n: u64) -> u64 {
    let edge = random.edge();
    random.pick(&[n, n.wrapping_add(1), n.wrapping_sub(1), edge])
}

/// Regions of which some words are moved, and a length.
fn memory(case: &mut Case) {
    let mut words = case.regions.clone();
    let mut mem_len = case.driver.memory.mem_len;
    let random = &mut case.random;
    if random.one_in(8) {
        words = case.former.clone(); // as many as there may be, perhaps one more
        words.extend([1 << 51, 1, 0].iter().take(random.pick(&[0, 3])));
    }
    for _ in 0..random.below(4) {
        let region = 3 * random.index(words.len() / 3);
        match random.below(10) {
            9 => words[region..region + 3].copy_from_slice(&all_wrong(random, mem_len)),
            0 => words[region + 1] = random.pick(&[0, 1]),
            1 => words[region + 2] = mem_len.wrapping_sub(words[region + 1]).wrapping_add(random.below(2)),
            2 => words[region] = u64::MAX.wrapping_sub(words[region + 1]).wrapping_add(random.below(2)),
            3 => words[region] = touching(random, &words),
            4 => words[region] = beside(random, words[region]),
            5 => words[region + 1] = beside(random, words[region + 1]),
            6 => words[region + 2] = beside(random, words[region + 2]),
            7 => mem_len = beside(random, mem_len),
            _ => mem_len = u64::MAX,
        }
    }
    if random.one_in(4) {
        words.extend(random.bytes(99).iter().map(|byte| *byte as u64)); // 33 regions more
        words.truncate(random.index(words.len() + 1));
    }
    case.pair.memory(&words, mem_len);
}

/// A region that may be wrong in two or three ways at once: which answer comes first is the documents' order.
fn all_wrong(random: &mut Random, mem_len: u64) -> [u64; 3] {
    let len = random.pick(&[0, 2, 2, mem_len]);
    [random.pick(&[u64::MAX, u64::MAX - 1, 0]), len, random.pick(&[0, mem_len, mem_len.wrapping_sub(1), u64::MAX])]
}

/// The end of some region, or its last byte.
fn touching(random: &mut Random, words: &[u64]) -> u64 {
    let other = 3 * random.index(words.len() / 3);
    words[other].wrapping_add(words[other + 1]).wrapping_sub(random.below(2))
}

fn disk(case: &mut Case) {
    let random = &mut case.random;
    let mut words: DiskWords = case.disk.clone();
    for _ in 0..random.below(3) {
        let (edge, space, id_len) = (random.edge(), words.backing_len / 512, random.pick(&[0, 1, 19, 21, 40]));
        match random.below(6) {
            0 => words.id = random.bytes(id_len),
            1 => words.sectors = random.pick(&[0, 1, 1 << 32, (1 << 32) + 1, space, space + 1, 1 << 55, edge]),
            2 => words.start = beside(random, words.backing_len.wrapping_sub(words.sectors.wrapping_mul(512))),
            3 => words.start = edge,
            4 => words.backing_len = beside(random, words.backing_len),
            _ => words.backing_len = random.pick(&[u64::MAX, 1 << 41, (1 << 41) + 1]),
        }
    }
    case.pair.disk(&words);
}

/// An address for an area: beside its own, at the border of a region or of another area. The borders are taken at the
/// area's own alignment, so that it is too long by a byte or two and nothing else is wrong.
fn area(case: &mut Case, (own, bytes, multiple): (u64, u64, u64)) -> u64 {
    let region = case.random.pick(&case.driver.memory.regions);
    let (other, other_bytes, _) = case.random.pick(&case.driver.areas.all());
    let (edge, skip) = (case.random.edge(), case.random.pick(&[1, 2, 4, 8, 16]));
    let before = |end: u64| end.wrapping_sub(bytes) / multiple * multiple;
    let (in_region, in_front) = (before(region.guest + region.len), before(other));
    let places = [
        own.wrapping_add(skip), own.wrapping_sub(skip), region.guest, in_region, in_region.wrapping_add(multiple), other,
        other + other_bytes, in_front, in_front.wrapping_add(multiple), other + other_bytes - skip.min(other_bytes), edge,
    ];
    let place = case.random.pick(&places);
    case.random.pick(&[place, place, place & !3, place & !15])
}

fn enable(case: &mut Case) {
    let mut words: Enabling = case.enabling;
    let [desc, avail, used] = case.driver.areas.all();
    let edge = case.random.edge();
    words.start = case.random.pick(&[None, None, Some(0), Some(65_535), Some(65_536), Some(edge)]);
    for _ in 0..case.random.below(3) {
        let power = 1 << case.random.below(12);
        match case.random.below(6) {
            0 => words.areas.size = case.random.pick(&[0, 3, LONGEST - 1, LONGEST + 1, 2 * LONGEST, power, edge]),
            1 => words.areas.desc = area(case, desc),
            2 => words.areas.avail = area(case, avail),
            3 => words.areas.used = area(case, used),
            4 => words.chain_len = beside(&mut case.random, chain_words(words.areas.size)),
            _ => words.stage_len = beside(&mut case.random, MOST),
        }
    }
    case.pair.enable(&words);
}

/// hd_chain_words is 0 exactly for a size that enabling refuses; hd_stage_bytes is 1 MiB.
fn sizes(random: &mut Random) {
    let (edge, small, power) = (random.edge(), random.below(LONGEST + 50), 1 << random.below(64));
    let size = random.pick(&[edge, small, power]);
    let refused = !(1..=LONGEST).contains(&size) || size & (size - 1) != 0;
    same(&format!("hd_chain_words({}) is 0", size), refused, chain_words(size) == 0);
    same("hd_stage_bytes", MOST, stage_bytes());
}

/// A few steps; what is set up may want longer slices than there are, then they are refused.
fn steps(case: &mut Case) {
    for _ in 0..case.random.below(6) {
        idx(case);
        entry(case);
        case.pair.step();
    }
}

pub fn run(case: &mut Case, rounds: u64) {
    for _ in 0..rounds {
        sizes(&mut case.random);
        match case.random.below(12) {
            0 | 1 | 2 => memory(case),
            3 | 4 | 5 => disk(case),
            6 | 7 | 8 => enable(case),
            9 => steps(case),
            10 => _ = case.pair.reset(),
            _ => short_slice(case),
        }
        if case.random.one_in(3) {
            case.pair.memory(&case.regions, case.driver.memory.mem_len);
            case.pair.disk(&case.disk);
        }
    }
}
