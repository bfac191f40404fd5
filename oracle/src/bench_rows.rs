//! The rows of the bench: which call, on which log, how often.

use crate::timing::{CALLS, Order, SHARED, log, own_log};

pub struct Row {
    pub name: &'static str,
    pub what: &'static str,
    pub call: u64,
    pub keys: u64,
    pub log: Vec<u8>,
    pub shared: usize,
    pub absent: bool,
    pub others: u64,
    /// How often the call is made where time is taken: enough to be seen beside the start of a process.
    pub times: u64,
    /// And where every instruction is counted, which needs no long run.
    pub counted: u64,
}

/// What is done before the calls that are counted. (Ours and the plain version open the log before every call.)
#[derive(Clone, Copy, PartialEq, Eq, Hash)]
pub enum Before {
    Nothing,
    Opening,
    Begin,
}

impl Row {
    /// Calls in one of those: a compaction is made twice a turn.
    pub fn calls(&self) -> f64 {
        if self.call == 6 { 2.0 } else { 1.0 }
    }

    pub fn before(&self) -> Before {
        match self.call {
            1 => Before::Nothing,
            2 | 3 | 6 => Before::Opening,
            _ => Before::Begin,
        }
    }
}

fn times(call: u64, keys: u64) -> (u64, u64) {
    match CALLS[call as usize - 1] {
        "get" => (100_000, 1_000),
        "set" | "commit, a write" => (1_000, 1_000),
        "full scan" => (1_000_000 / keys, 1),
        _ => (400_000 / keys, 1),
    }
}

fn row(call: u64, what: &'static str, keys: u64, log: &[u8]) -> Row {
    let (times, counted) = times(call, keys);
    let name = CALLS[call as usize - 1];
    Row { name, what, call, keys, log: log.to_vec(), shared: 0, absent: false, others: 0, times, counted }
}

/// Transactions that are open beside the one that looks, where there are any.
const OTHERS: u64 = 8;

pub fn rows() -> Vec<Row> {
    let mut rows = Vec::new();
    for (keys, written, what) in [(1_000, 1, "in order"), (1_000, 8, "in order, eight times"), (10_000, 1, "in order")] {
        let bytes = log(keys, written, Order::Rising, 0);
        rows.extend((1..=6).map(|call| row(call, what, keys, &bytes)));
        if keys == 10_000 {
            rows.push(Row { name: "get, absent", absent: true, ..row(2, what, keys, &bytes) });
            rows.push(Row { name: "get, read-write", ..row(7, what, keys, &bytes) });
            rows.push(Row { name: "get, 8 open", others: OTHERS, ..row(7, what, keys, &bytes) });
            rows.push(Row { name: "full scan, 8 open", others: OTHERS, ..row(8, what, keys, &bytes) });
        }
    }
    let bytes = log(10_000, 1, Order::Rising, SHARED);
    rows.extend((1..=5).map(|call| Row { shared: SHARED, ..row(call, "48 bytes shared", 10_000, &bytes) }));
    for keys in [10_000, 50_000] {
        rows.push(row(1, "random", keys, &log(keys, 1, Order::Random, 0)));
        rows.push(row(1, "falling", keys, &log(keys, 1, Order::Falling, 0)));
        rows.push(row(1, "own, rising", keys, &own_log(keys, Order::Rising)));
    }
    for keys in [10_000, 12_500, 25_000, 50_000] {
        rows.push(row(1, "own, random", keys, &own_log(keys, Order::Random)));
    }
    rows.push(row(1, "in order", 50_000, &log(50_000, 1, Order::Rising, 0)));
    rows
}
