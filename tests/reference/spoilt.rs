//! State words that set-up and steps did not make.
//!
//! Words that are no state have fixed answers (41, 4, zeros), so they are compared with a reference that has nothing set
//! up: random words, and a good state in which the one word that holds an argument of set-up (found by its value) is
//! changed to what set-up refuses. Any other changed word of a good state may or may not be a state, and what each word
//! means is the library's own affair; so the reference can't follow. What can be checked then, from the interface alone:
//! - the call returns a known answer, and the guard pages hold;
//! - what hd_status says of the words is what the step does: not enabled is answered 4, broken 3, and nothing is touched;
//!   S1 to S5 write no guest memory, S7 at most the two bytes of an idx, only S5 writes the backing slice;
//! - no byte of the backing slice outside the disk's range changes, unless the word is one that hd_disk writes;
//! - a refused set-up call changes no word, hd_reset leaves nothing enabled, and hd_memory makes a good state again:
//!   from there on the reference follows once more.

use crate::areas::LONGEST;
use crate::case::Case;
use crate::fail::{all_same, count_call, difference, same};
use crate::hostile;
use crate::honest;
use crate::library::{chain_words, state_words};
use crate::random::Random;
use crate::reference::{Device, Lens, NO_DESCRIPTOR, WORDS};
use crate::regions::REGIONS;
use crate::request::{Disk, MOST, SECTOR};
use crate::seen::{BROKEN, BROKEN_NO_MORE, BROKEN_STILL, IMPOSSIBLE, ONE_WORD, RANDOM_WORDS, REFUSED, WENT_ON};

/// All that is lent, as it was before a call.
struct Before {
    state: Vec<u64>,
    mem: Vec<u8>,
    backing: Vec<u8>,
    chain: Vec<u64>,
    stage: Vec<u8>,
    status: [u64; WORDS],
}

impl Before {
    fn now(case: &mut Case) -> Before {
        let status = status(case);
        let lent = &case.pair.lent;
        let (mem, backing, stage) = (lent.mem.all().to_vec(), lent.backing.all().to_vec(), lent.stage.all().to_vec());
        Before { state: lent.state.all().to_vec(), mem, backing, chain: lent.chain.all().to_vec(), stage, status }
    }

    fn nothing_touched(&self, case: &Case) {
        all_same("state", &self.state, case.pair.lent.state.all());
        all_same("guest memory", &self.mem, case.pair.lent.mem.all());
        all_same("backing", &self.backing, case.pair.lent.backing.all());
        all_same("chain memory", &self.chain, case.pair.lent.chain.all());
        all_same("staging memory", &self.stage, case.pair.lent.stage.all());
    }
}

/// The library's status words, which are always within their limits, and where it broke fits what was fetched: a
/// descriptor if there was one, else none.
fn status(case: &mut Case) -> [u64; WORDS] {
    let lens = Lens { out: WORDS, ..case.pair.lent.lens() };
    same("hd_status", 0, case.pair.lent.status(&lens));
    let mut words = [0; WORDS];
    words.copy_from_slice(case.pair.lent.out.lent(WORDS));
    let limits = [1, 8, 65_535, 65_535, 7, LONGEST - 1, LONGEST + 1, u64::MAX, NO_DESCRIPTOR, LONGEST];
    if words.iter().zip(&limits).any(|(word, limit)| word > limit) {
        difference(&format!("a status word beyond its limit: {:?}", words));
    }
    if words[0] == 0 {
        all_same("status of what isn't enabled", &[0; WORDS], &words);
    } else if words[1] == 0 || words[6] == 0 {
        same(&format!("status {:?}: at no descriptor", words), NO_DESCRIPTOR, words[8]);
    } else {
        same(&format!("status {:?}: at one of the table", words), true, words[8] < LONGEST);
    }
    words
}

/// The words that hd_disk writes: those that change when random words with memory registered get a disk.
fn disk_words(case: &mut Case) -> Vec<usize> {
    let before = case.pair.lent.state.all().to_vec();
    let mut changed = Vec::new();
    for _ in 0..4 {
        random_words(case);
        let lens = case.pair.lens.state;
        same("hd_memory on random words", 0, case.pair.lent.memory(lens, &case.regions, case.driver.memory.mem_len));
        let registered = case.pair.lent.state.all().to_vec();
        case.disk.id = case.random.bytes(20);
        same("hd_disk after it", 0, case.pair.lent.disk(lens, &case.disk));
        let with_disk = case.pair.lent.state.all();
        changed.extend((0..registered.len()).filter(|i| registered[*i] != with_disk[*i]));
    }
    case.pair.lent.state.all_mut().copy_from_slice(&before);
    changed
}

fn random_words(case: &mut Case) {
    for word in case.pair.lent.state.all_mut() {
        *word = case.random.next();
    }
}

/// An argument of set-up and a value in its place that set-up refuses, the other arguments being as they are.
fn impossible(case: &mut Case) -> (u64, u64) {
    let (disk, mem_len) = (&case.disk, case.driver.memory.mem_len);
    let region = case.random.pick(&case.driver.memory.regions);
    let disk_end = disk.start + SECTOR * disk.sectors;
    let lowest = chain_words(case.enabling.areas.size);
    let pairs = [
        (region.guest, u64::MAX - region.len + 1), // 23
        (region.len, 0),                           // 21
        (region.len, mem_len - region.offset + 1), // 22
        (region.offset, mem_len - region.len + 1),
        (region.offset, u64::MAX),
        (mem_len, region.offset + region.len - 1),
        (case.enabling.areas.size, 2 * LONGEST), // 25
        (disk.sectors, 0),                       // 29
        (disk.sectors, (1 << 32) + 1),
        (disk.start, disk.backing_len - SECTOR * disk.sectors + 1), // 30
        (disk.start, u64::MAX),
        (disk.backing_len, disk_end - 1),
        (case.enabling.chain_len, lowest.saturating_sub(1)), // 42
        (case.enabling.stage_len, MOST - 1),                 // 43
    ];
    case.random.pick(&pairs)
}

/// Puts such a value where the argument is held, if exactly one word has the argument's value and that is no small number
/// that something else may have by chance.
fn put_impossible(case: &mut Case) -> bool {
    let (argument, refused) = impossible(case);
    let words = case.pair.lent.state.all_mut();
    let holders: Vec<usize> = (0..state_words()).filter(|i| words[*i] == argument).collect();
    if argument < 64 || holders.len() != 1 {
        return false;
    }
    words[holders[0]] = refused;
    case.pair.seen.add("spoilt state", IMPOSSIBLE);
    true
}

/// Words that are no state: all random, all ones, zeros but for one word, or with one that set-up would have refused.
fn no_state(case: &mut Case) {
    let (one, edge) = (case.random.index(state_words()), case.random.edge());
    match case.random.below(8) {
        3..=7 if put_impossible(case) => (),
        0 => case.pair.lent.state.all_mut().fill(u64::MAX),
        1 => {
            case.pair.lent.state.all_mut().fill(0);
            case.pair.lent.state.all_mut()[one] = edge;
        }
        _ => random_words(case),
    }
    case.pair.device = Device::nothing(state_words());
    case.pair.seen.add("spoilt state", RANDOM_WORDS);
    case.pair.step();
    case.pair.disk(&case.disk);
    case.pair.enable(&case.enabling);
    case.pair.reset();
    case.pair.step();
}

fn other_value(random: &mut Random, word: u64, another: u64) -> u64 {
    let (edge, bit) = (random.edge(), 1 << random.below(64));
    let small = random.below(LONGEST + 100);
    let limit = random.pick(&[LONGEST, REGIONS as u64]) - 1 + random.below(4);
    random.pick(&[word.wrapping_add(1), word.wrapping_sub(1), 0, u64::MAX, edge, word ^ bit, another, small, limit])
}

/// Changes one word, and answers which: of the state, every other time one that the last step `wrote` if it wrote any,
/// or (then None) of chain or staging memory.
fn spoil(case: &mut Case, wrote: &[usize]) -> Option<usize> {
    let random = &mut case.random;
    let lent = &mut case.pair.lent;
    if random.one_in(6) {
        let (word, byte) = (random.index(lent.chain.len()), random.index(64));
        lent.chain.all_mut()[word] = random.edge();
        lent.stage.all_mut()[byte] ^= 1;
        return None;
    }
    let (any, other) = (random.index(state_words()), random.index(state_words()));
    let i = if wrote.is_empty() || random.one_in(2) { any } else { random.pick(wrote) };
    let another = lent.state.all()[other];
    let word = &mut lent.state.all_mut()[i];
    *word = other_value(random, *word, another);
    case.pair.seen.add("spoilt state", ONE_WORD);
    Some(i)
}

/// A step on words that may or may not be a state.
fn step(case: &mut Case, range_stands: bool) {
    let before = Before::now(case);
    let lens = case.pair.lens;
    let answer = case.pair.lent.step(&lens);
    count_call(true);
    let next = before.status[4];
    let possible: &[u64] = match (before.status[0], before.status[1], next) {
        (0, _, _) => &[4],
        (_, reason, _) if reason != 0 => &[3],
        (_, _, 1) => &[0, 1, 3, 4],
        (_, _, 2) | (_, _, 3) => &[1, 3, 4],
        (_, _, 7) => &[2, 4],
        _ => &[1, 4],
    };
    if !possible.contains(&answer) {
        difference(&format!("hd_step answers {} where hd_status says {:?}", answer, before.status));
    }
    if answer == 4 || before.status[1] != 0 {
        before.nothing_touched(case);
        case.pair.seen.add("spoilt state", REFUSED);
    } else {
        case.pair.seen.add("spoilt state", WENT_ON);
    }
    check_memory(case, &before.mem, next);
    check_backing(case, &before.backing, next, range_stands);
    check_status(case, answer);
}

/// S1 to S5 write no guest memory, S7 two bytes.
fn check_memory(case: &Case, before: &[u8], next: u64) {
    let after = case.pair.lent.mem.all();
    if next <= 5 {
        all_same("guest memory", before, after);
    }
    let changed: Vec<usize> = (0..after.len()).filter(|i| next == 7 && before[*i] != after[*i]).collect();
    if let (Some(first), Some(last)) = (changed.first(), changed.last()) {
        same("S7 writes two bytes", true, last - first <= 1);
    }
}

/// Only S5 writes to the backing slice, and only in the disk's range.
fn check_backing(case: &Case, before: &[u8], next: u64, range_stands: bool) {
    let after = case.pair.lent.backing.all();
    let (start, end) = (case.disk.start as usize, (case.disk.start + SECTOR * case.disk.sectors) as usize);
    if next != 5 {
        all_same("backing", before, after);
    } else if range_stands {
        all_same("backing below the disk", &before[..start], &after[..start]);
        all_same("backing above the disk", &before[end..], &after[end..]);
    }
}

/// What hd_status says after a step fits the step's answer. Or the words have just ceased to be a state: not everything
/// about a chain is tested before it is used up (D9: r and w need not be the very sums of the lengths).
fn check_status(case: &mut Case, answer: u64) {
    let words = status(case);
    let fits = match answer {
        0 | 2 => words[..2] == [1, 0] && words[4..9] == [1, 0, 0, 0, NO_DESCRIPTOR],
        1 => words[..2] == [1, 0] && words[4] >= 2,
        3 => words[0] == 1 && words[1] != 0 && words[4] == 0,
        _ => true,
    };
    same(&format!("after the answer {} status {:?} fits", answer, words), true, fits || words == [0; WORDS]);
}

/// Set-up on such words: where a queue is enabled 41; a refusal changes nothing.
fn set_up_calls(case: &mut Case) {
    let lens = case.pair.lens;
    for _ in 0..2 {
        let before = Before::now(case);
        let enabled = before.status[0] == 1;
        let answer = match case.random.below(2) {
            0 => case.pair.lent.disk(lens.state, &case.disk),
            _ => case.pair.lent.enable(lens.state, &case.enabling),
        };
        count_call(false);
        same("set-up answers 41 where a queue is enabled", true, !enabled || answer == 41);
        if answer != 0 {
            before.nothing_touched(case);
        }
    }
}

/// Back to a good state: reset leaves nothing enabled, hd_memory works on any words.
fn mend(case: &mut Case) {
    let lens = case.pair.lens;
    same("hd_reset", 0, case.pair.lent.reset(lens.state));
    all_same("status after hd_reset", &[0; WORDS], &status(case));
    let before = Before::now(case);
    same("hd_step after hd_reset", 4, case.pair.lent.step(&lens));
    before.nothing_touched(case);
    case.pair.mem = case.pair.lent.mem.all().to_vec();
    case.pair.backing = case.pair.lent.backing.all().to_vec();
    case.pair.device = Device::nothing(state_words());
    // for the status that is compared with every call, the words have nothing enabled, as the reference has
    case.set_up();
}

/// Some steps, until the queue breaks; answers which words the last one wrote.
fn some_steps(case: &mut Case) -> Vec<usize> {
    let mut wrote = Vec::new();
    for _ in 0..case.random.below(12) {
        let before = case.pair.lent.state.all().to_vec();
        let answer = case.pair.step();
        let after = case.pair.lent.state.all();
        wrote = (0..state_words()).filter(|i| before[*i] != after[*i]).collect();
        if answer == 3 {
            break;
        }
    }
    wrote
}

/// What has become of a broken queue.
fn broken_then(case: &mut Case) {
    let words = status(case);
    case.pair.seen.add("spoilt state", BROKEN);
    case.pair.seen.add("spoilt state", if words[0] == 0 { BROKEN_NO_MORE } else { BROKEN_STILL });
}

pub fn run(case: &mut Case, rounds: u64) {
    let of_disk = disk_words(case);
    assert!(Disk::refused(case.disk.start, case.disk.sectors, case.disk.backing_len).is_none());
    case.set_up();
    for _ in 0..rounds {
        honest::lay(case, 1);
        if case.random.one_in(2) {
            hostile::mischief(case);
        }
        let wrote = some_steps(case);
        if case.random.one_in(2) {
            no_state(case);
        } else {
            let mut range_stands = true;
            let broken = case.pair.device.status()[1] != 0;
            for _ in 0..case.random.range(1, 2) {
                range_stands &= spoil(case, &wrote).map_or(true, |word| !of_disk.contains(&word));
            }
            if broken {
                broken_then(case);
            }
            for _ in 0..case.random.below(16) {
                step(case, range_stands);
            }
            set_up_calls(case);
        }
        mend(case);
    }
    hostile::run(case, 1);
}
