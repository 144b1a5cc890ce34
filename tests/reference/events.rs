//! Calls in the midst of a request that must change nothing, and moments to which the host goes back.

use crate::case::Case;
use crate::compare::Moment;
use crate::library::state_words;

/// A length that is shorter than `told`: by one, by all, or by any number.
fn shorter(case: &mut Case, told: u64) -> usize {
    let any = case.random.below(told);
    case.random.pick(&[told.saturating_sub(1), told.saturating_sub(1), 0, any]) as usize
}

/// A step, a status or a reset with one slice too short.
pub fn short_slice(case: &mut Case) {
    let whole = case.pair.lens;
    let words = state_words() as u64;
    match case.random.below(6) {
        0 => case.pair.lens.mem = shorter(case, case.driver.memory.mem_len),
        1 => case.pair.lens.backing = shorter(case, case.disk.backing_len),
        2 => case.pair.lens.chain = shorter(case, case.enabling.chain_len),
        3 => case.pair.lens.stage = shorter(case, case.enabling.stage_len),
        4 => case.pair.lens.state = shorter(case, words),
        _ => case.pair.lens.out = shorter(case, 8),
    }
    if case.pair.lens.out < 8 {
        case.pair.status_refused();
    } else if case.pair.lens.state < words as usize && case.random.one_in(2) {
        with_short_state(case);
    } else {
        case.pair.step();
    }
    case.pair.lens = whole;
}

/// 40, before anything else is looked at: the other arguments are good, or wrong too.
fn with_short_state(case: &mut Case) {
    let wrong = case.random.one_in(2);
    let regions = if wrong { &case.regions[..2] } else { &case.regions[..] };
    let (mut disk, mut enabling) = (case.disk.clone(), case.enabling);
    if wrong {
        disk.id.pop();
        enabling.areas.size = 3;
        case.pair.lens.out = 7;
    }
    match case.random.below(5) {
        0 => _ = case.pair.memory(regions, case.driver.memory.mem_len),
        1 => _ = case.pair.disk(&disk),
        2 => _ = case.pair.enable(&enabling),
        3 => _ = case.pair.reset(),
        _ => case.pair.status_refused(),
    }
}

/// One thing that a host may do between two steps of a queue.
pub fn disturb(case: &mut Case, moment: &mut Option<Moment>) {
    match case.random.below(8) {
        0 => _ = case.pair.disk(&case.disk),
        1 => _ = case.pair.enable(&case.enabling),
        2 => _ = case.pair.memory(&case.regions[..2], 1 << 20),
        3 => *moment = Some(case.pair.moment()),
        4 => {
            if let Some(earlier) = moment {
                case.pair.go_back(earlier);
            }
        }
        5 if case.random.one_in(3) => {
            case.pair.reset();
            case.enable();
        }
        _ => short_slice(case),
    }
}
