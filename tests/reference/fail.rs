//! The report of a difference: the case's seed, which call it was, and what differed. The first difference ends the run.

use std::arch::asm;
use std::sync::atomic::{AtomicU64, Ordering::Relaxed};

extern "C" {
    fn signal(number: i32, handler: extern "C" fn(i32)) -> usize;
    fn alarm(seconds: u32) -> u32;
}

static SEED: AtomicU64 = AtomicU64::new(0);
static CALLS: AtomicU64 = AtomicU64::new(0);
static STEPS: AtomicU64 = AtomicU64::new(0);

const SIGNALS: [i32; 4] = [4, 7, 8, 11]; // SIGILL, SIGBUS, SIGFPE, SIGSEGV
const SIGALRM: i32 = 14;
const PATIENCE: u32 = 300; // seconds for one case

pub fn difference(what: &str) -> ! {
    let (seed, calls, steps) = (SEED.load(Relaxed), CALLS.load(Relaxed), STEPS.load(Relaxed));
    println!("reference: DIFFERENT: seed {}, call {}, of these steps {}: {}", seed, calls, steps, what);
    println!("reference: once more: tests/reference/run {}", seed);
    std::process::exit(1);
}

/// Some emulators enter a handler with a stack that isn't aligned as calls want it (the library, and so this, is x86-64).
extern "C" fn fault(number: i32) {
    unsafe { asm!("and rsp, -16", "call {}", in(reg) report as extern "C" fn(i32) -> !, in("edi") number, options(noreturn)) }
}

/// Signals come only from inside a call of the library, so nothing else is half done then.
extern "C" fn report(number: i32) -> ! {
    match number {
        SIGALRM => difference("the case doesn't come to an end"),
        _ => difference(&format!("signal {}: a byte outside the lent slices was touched", number)),
    }
}

pub fn watch() {
    for number in SIGNALS.iter().chain(&[SIGALRM]) {
        unsafe { signal(*number, fault) };
    }
}

pub fn begin_case(seed: u64) {
    SEED.store(seed, Relaxed);
    CALLS.store(0, Relaxed);
    STEPS.store(0, Relaxed);
    unsafe { alarm(PATIENCE) };
}

pub fn count_call(step: bool) {
    CALLS.fetch_add(1, Relaxed);
    STEPS.fetch_add(step as u64, Relaxed);
}

pub fn same<T: PartialEq + std::fmt::Display>(what: &str, expected: T, got: T) {
    if expected != got {
        difference(&format!("{}: expected {}, got {}", what, expected, got));
    }
}

/// The first element that differs, by its number.
pub fn all_same<T: PartialEq + std::fmt::LowerHex>(what: &str, expected: &[T], got: &[T]) {
    if expected == got {
        return;
    }
    same(&format!("{}, length", what), expected.len(), got.len());
    let differs = (0..got.len()).find(|i| expected[*i] != got[*i]);
    if let Some(i) = differs {
        difference(&format!("{}, number {:#x}: expected {:#x}, got {:#x}", what, i, expected[i], got[i]));
    }
}
