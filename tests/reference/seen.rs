//! The account of what the cases came to. A row of the documents that never came up means that a generator went blind.

use crate::request::{header, FLUSH, GET_ID, IN, MOST, OUT};
use crate::steps::Request;
use std::collections::BTreeMap;

type Row = (&'static str, u64);

pub struct Seen {
    rows: BTreeMap<Row, u64>,
}

/// What must have been seen: answers of each call (the interface's table), reasons (01 §3), statuses of each type
/// (03 §3), sizes and forms that the cuts have to reach.
const WANTED: [(&str, &[u64]); 33] = [
    ("hd_memory", &[0, 20, 21, 22, 23, 24, 40]),
    ("hd_disk", &[0, 29, 30, 40, 41, 44]),
    ("hd_enable", &[0, 25, 26, 27, 28, 40, 41, 42, 43]),
    ("hd_enable_at", &[0, 25, 26, 27, 28, 40, 41, 42, 43, 46]),
    ("hd_reset", &[0, 40]),
    ("hd_status", &[0, 40, 45]),
    ("hd_status, words of out", &[7, 8, 9, 10, 11, 12]),
    ("hd_step", &[0, 1, 2, 3, 4]),
    ("hd_step not enabled", &[4]),
    ("hd_step on a broken queue", &[3]),
    ("hd_step on a broken queue with a short slice", &[3]),
    ("hd_step with a short slice", &[4]),
    ("broken, reason", &[1, 2, 3, 4, 5, 6, 7, 8]),
    ("broken, step", &[1, 2, 3]),
    ("broken at no descriptor, reason", &[1, 2]),
    ("broken at a descriptor whose number isn't its place, reason", &[2, 3, 4, 5, 6, 7, 8]),
    ("broken after a chain that was complete, step", &[1, 2, 3]),
    ("broken by a chain that was complete, of another length, reason", &[8]),
    ("IN, status", &[0, 1]),
    ("OUT, status", &[0, 1]),
    ("FLUSH, status", &[0, 1]),
    ("GET_ID, status", &[0, 1]),
    ("other type, status", &[2]),
    ("fewer than 16 readable bytes, status", &[1]),
    ("IN of 1 MiB, of 1 MiB + 512, status", &[0, 1]),
    ("OUT of 1 MiB, of 1 MiB + 512, status", &[0, 1]),
    ("4 GiB and more, status", &[1]),
    ("queue size", &[1, 2, 4, 8, 16, 32, 64, 128, 256, 512, 1024]),
    ("answered, a chain of the whole queue, of size", &[2, 4, 8, 256, 512, 1024]),
    ("broken, a chain longer than the queue, of size", &[1, 2, 4, 8, 256, 512, 1024]),
    ("regions", &[1, 2, 3, 4, 5, 6, 7, 8, 9, 31, 32]),
    ("form", &[HEADER_CUT, PAYLOAD_CUT, STATUS_ALONE, STATUS_JOINED, WHOLE_CHAIN, WRAPPED, SEVERAL_PENDING]),
    ("spoilt state", &[RANDOM_WORDS, ONE_WORD, REFUSED, WENT_ON, IMPOSSIBLE, BROKEN, BROKEN_STILL, BROKEN_NO_MORE]),
];

// forms
pub const HEADER_CUT: u64 = 1;
pub const PAYLOAD_CUT: u64 = 2;
pub const STATUS_ALONE: u64 = 3;
pub const STATUS_JOINED: u64 = 4;
pub const WHOLE_CHAIN: u64 = 5; // as many descriptors as the queue has
pub const WRAPPED: u64 = 6; // used idx became 0
pub const SEVERAL_PENDING: u64 = 7;

// spoilt states
pub const RANDOM_WORDS: u64 = 1;
pub const ONE_WORD: u64 = 2;
pub const REFUSED: u64 = 3; // one word changed, and nothing is enabled
pub const WENT_ON: u64 = 4; // one word changed, and a step was done
pub const IMPOSSIBLE: u64 = 5; // one word changed to what set-up refuses
pub const BROKEN: u64 = 6; // one word of a broken queue changed
pub const BROKEN_STILL: u64 = 7; // .. and it is broken still
pub const BROKEN_NO_MORE: u64 = 8; // .. and nothing is enabled

impl Seen {
    pub fn new() -> Seen {
        Seen { rows: BTreeMap::new() }
    }

    pub fn add(&mut self, name: &'static str, number: u64) {
        *self.rows.entry((name, number)).or_insert(0) += 1;
    }

    pub fn times(&self, name: &'static str, number: u64) -> u64 {
        self.rows.get(&(name, number)).copied().unwrap_or(0)
    }

    /// A request that was answered on a queue of `size`.
    pub fn answered(&mut self, request: &Request, size: u64, answered: u16) {
        let status = request.status as u64;
        if request.header.len() == 16 {
            let (kind, _) = header(&request.header);
            self.add(kind_name(kind), status);
            self.large(kind, request, status);
        } else {
            self.add("fewer than 16 readable bytes, status", status);
        }
        let writable: Vec<_> = request.chain.iter().filter(|buffer| buffer.writable).collect();
        let alone = writable.last().map_or(false, |last| last.len == 1);
        let joined = writable.last().map_or(false, |last| last.len > 1 && status == 0);
        let buffers = request.chain.len() - writable.len();
        let whole = request.chain.len() as u64 == size;
        if whole && status == 0 {
            self.add("answered, a chain of the whole queue, of size", size);
        }
        let forms = [
            (HEADER_CUT, request.header.len() == 16 && request.chain[0].len < 16),
            (PAYLOAD_CUT, !request.payload.is_empty() && buffers > 2),
            (STATUS_ALONE, alone),
            (STATUS_JOINED, joined),
            (WHOLE_CHAIN, size > 1 && whole),
            (WRAPPED, answered == 0),
        ];
        for (form, _) in forms.iter().filter(|(_, so)| *so) {
            self.add("form", *form);
        }
    }

    fn large(&mut self, kind: u32, request: &Request, status: u64) {
        let n = (request.w() - 1).max(request.r() - 16);
        if n >= 1 << 32 {
            self.add("4 GiB and more, status", status);
        }
        let expected = match n {
            MOST => 0,
            n if n == MOST + 512 => 1,
            _ => return,
        };
        if status == expected && kind == IN {
            self.add("IN of 1 MiB, of 1 MiB + 512, status", status);
        }
        if status == expected && kind == OUT {
            self.add("OUT of 1 MiB, of 1 MiB + 512, status", status);
        }
    }

    /// A line for each name: the numbers seen, and how often.
    pub fn print(&self) {
        let mut lines: BTreeMap<&str, String> = BTreeMap::new();
        for ((name, number), times) in &self.rows {
            *lines.entry(name).or_default() += &format!(" {} ({})", number, times);
        }
        for (name, numbers) in &lines {
            println!("  {}:{}", name, numbers);
        }
    }

    /// The rows that never came up.
    pub fn missing(&self) -> Vec<Row> {
        let rows = WANTED.iter().flat_map(|(name, numbers)| numbers.iter().map(move |number| (*name, *number)));
        rows.filter(|(name, number)| self.times(name, *number) == 0).collect()
    }
}

fn kind_name(kind: u32) -> &'static str {
    match kind {
        IN => "IN, status",
        OUT => "OUT, status",
        FLUSH => "FLUSH, status",
        GET_ID => "GET_ID, status",
        _ => "other type, status",
    }
}
