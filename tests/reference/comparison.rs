//! The library beside an independent reference: cases from seeds, compared after every call.

mod areas;
mod case;
mod compare;
mod driver;
mod events;
mod fail;
mod guard;
mod honest;
mod hostile;
mod layout;
mod library;
mod long;
mod random;
mod reference;
mod regions;
mod request;
mod seen;
mod setup;
mod spoilt;
mod steps;
mod wide;

use case::{Case, Scale};
use random::Random;
use seen::Seen;

/// Seeds 1 to FIXED are run each time, and must come to every row of the account.
const FIXED: u64 = 300;
const SHORT: u64 = 80;

struct Wanted {
    fixed: u64,
    fresh: u64,
    base: u64,
    one: Option<u64>,
}

fn arguments() -> Option<Wanted> {
    let clock = std::time::SystemTime::now().duration_since(std::time::UNIX_EPOCH).ok()?;
    let base = Random::new(clock.as_nanos() as u64).next() >> 16;
    let mut wanted = Wanted { fixed: FIXED, fresh: 60, base, one: None };
    let mut words = std::env::args().skip(1);
    while let Some(word) = words.next() {
        match word.as_str() {
            "--cases" => wanted.fresh = words.next()?.parse().ok()?,
            "--seed" => wanted.base = words.next()?.parse().ok()?,
            "--short" => wanted = Wanted { fixed: SHORT, fresh: 0, ..wanted },
            seed => wanted.one = Some(seed.parse().ok()?),
        }
    }
    Some(wanted)
}

/// What kind of case a seed makes goes by the seed itself, so that every long enough stretch of seeds has all kinds.
fn one_case(seed: u64, seen: &mut Seen) {
    fail::begin_case(seed);
    let mut random = Random::new(seed);
    let (wide, large, long, kind) = (seed % 400 == 7, seed % 40 == 3, seed % 20 == 12, seed % 10);
    let mut scale = match () {
        _ if wide => Scale::wide(),
        _ if large => Scale::large(&mut random),
        _ if long => Scale::long(&mut random),
        _ => Scale::small(&mut random),
    };
    if kind == 9 {
        scale.sectors += 64; // a number that no other word has by chance
    }
    let mut case = Case::new(random, scale, seen);
    match kind {
        _ if wide => wide::run(&mut case),
        _ if large => honest::run(&mut case, 8),
        _ if long => long::run(&mut case),
        0..=3 => honest::run(&mut case, 12),
        4..=7 => hostile::run(&mut case, 12),
        8 => setup::run(&mut case, 200),
        _ => spoilt::run(&mut case, 20),
    }
    case.pair.end_case();
}

/// The account, and whether every row came up; only the whole fixed list promises that.
fn close(wanted: &Wanted, seen: &Seen) -> bool {
    seen.print();
    let missing = if wanted.one.is_none() && wanted.fixed == FIXED { seen.missing() } else { Vec::new() };
    for (name, number) in &missing {
        println!("reference: never seen: {} {}", name, number);
    }
    missing.is_empty()
}

pub fn main() {
    let wanted = arguments().unwrap_or_else(|| {
        eprintln!("usage: run [--cases N] [--seed S] [--short] | run SEED");
        std::process::exit(2);
    });
    fail::watch();
    let mut seen = Seen::new();
    let seeds: Vec<u64> = match wanted.one {
        Some(seed) => vec![seed],
        None => (1..=wanted.fixed).chain((0..wanted.fresh).map(|i| wanted.base + i)).collect(),
    };
    if wanted.one.is_none() {
        println!("reference: seeds 1 to {}, and {} from seed {} on", wanted.fixed, wanted.fresh, wanted.base);
    }
    for (i, seed) in seeds.iter().enumerate() {
        one_case(*seed, &mut seen);
        if (i + 1) % 1000 == 0 {
            println!("reference: {} cases so far", i + 1);
        }
    }
    let complete = close(&wanted, &seen);
    println!("reference: {} cases, no difference{}", seeds.len(), if complete { "" } else { ", but rows were never seen" });
    std::process::exit(if complete { 0 } else { 1 });
}
