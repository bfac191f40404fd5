//! The calls of the bench on the Rust sides, asked as crate timing is asked: six numbers of eight bytes, then a log, on standard
//! input; a sum over the answers on standard output.

use std::collections::BTreeSet;
use std::io::Read as _;

use toydb::storage::Engine as _;
use toydb::storage::bitcask::BitCask;
use toydb::storage::mvcc::MVCC;

use crate::plain::{Plain, View, version_key};
use crate::random::Random;
use crate::scratch;

/// By their numbers, from 1 on; the last two look by a transaction that begins first.
pub const CALLS: [&str; 8] = ["open", "get", "full scan", "set", "commit, a write", "compaction", "get", "full scan"];
const VALUE: &[u8] = b"another value";

/// The bytes that all keys of a store share, where they share any.
pub const SHARED: usize = 48;

/// Eight letters that spell a number, behind letters that are the same in every key; a key is its last 8 bytes or all.
fn spell(n: u64) -> [u8; SHARED + 8] {
    std::array::from_fn(|i| if i < SHARED { b's' } else { b'a' + ((n >> (4 * (SHARED + 7 - i))) % 16) as u8 })
}

fn key(n: u64, shared: usize) -> Vec<u8> {
    spell(n)[SHARED - shared..].to_vec()
}

/// The order in which a log has its keys.
#[derive(Clone, Copy)]
pub enum Order {
    Rising,
    Random,
    Falling,
}

fn numbers(keys: u64, order: Order) -> Vec<u64> {
    let mut all: Vec<u64> = (0..keys).collect();
    match order {
        Order::Rising => {}
        Order::Falling => all.reverse(),
        Order::Random => {
            let mut random = Random::new(keys);
            for i in (1..all.len()).rev() {
                all.swap(i, random.below(i + 1));
            }
        }
    }
    all
}

fn value(n: u64) -> Vec<u8> {
    [&[b'0' + (n % 10) as u8], b" a value".as_slice()].concat()
}

/// The log of a store with one version of each key, as one committed transaction would leave it after a compaction, in an order; each key
/// written so many times, so that a log may be long and its keys few.
pub fn log(keys: u64, written: u64, order: Order, shared: usize) -> Vec<u8> {
    let mut plain = Plain::open(Vec::new());
    plain.put(vec![0], &2u64.to_be_bytes());
    for n in (0..written).flat_map(|_| numbers(keys, order)) {
        plain.put(version_key(&key(n, shared), 1), &[&[1], value(n).as_slice()].concat());
    }
    plain.log()
}

/// The log of a store in which each key was set by a transaction of its own, never compacted.
pub fn own_log(keys: u64, order: Order) -> Vec<u8> {
    let mut plain = Plain::open(Vec::new());
    for n in numbers(keys, order) {
        let view = plain.begin();
        assert!(plain.set(view.version, &key(n, 0), &value(n)));
        plain.commit(view.version);
    }
    plain.log()
}

pub struct Request {
    pub call: u64,
    pub times: u64,
    /// Transactions that are open when the one begins by which call 7 or 8 looks.
    pub others: u64,
    pub keys: u64,
    pub shared: usize,
    pub absent: bool,
}

impl Request {
    /// A key's bytes, and how many of them are skipped. No key of a store ends with q.
    fn key(&self, n: u64) -> [u8; SHARED + 8] {
        let mut code = spell(n);
        if self.absent {
            code[SHARED + 7] = b'q';
        }
        code
    }

    fn skipped(&self) -> usize {
        SHARED - self.shared
    }

    fn writes(&self) -> bool {
        self.call == 4 || self.call == 5
    }

    fn looks_begun(&self) -> bool {
        self.call == 7 || self.call == 8
    }
}

fn next(n: u64, keys: u64) -> u64 {
    (n + 7919) % keys
}

fn weight(value: &[u8]) -> u64 {
    value.first().map_or(0, |first| value.len() as u64 + *first as u64)
}

fn run_plain(r: &Request, log: Vec<u8>) -> u64 {
    let mut store = Plain::open(log.clone());
    let (mut n, mut sum) = (0, 0);
    if r.looks_begun() {
        (0..r.others).for_each(|_| drop(store.begin()));
    }
    let view = if r.writes() || r.looks_begun() { store.begin() } else { View { version: 2, open: BTreeSet::new() } };
    for _ in 0..r.times {
        match r.call {
            1 => sum += Plain::open(log.clone()).used() as u64,
            2 | 7 => sum += store.get(&view, &r.key(n)[r.skipped()..]).map_or(0, weight),
            3 | 8 => store.scan(&view, |_, value| sum += weight(value)),
            4 | 5 => assert!(store.set(view.version, &r.key(n)[r.skipped()..], VALUE)),
            _ => {
                store.compact();
                store.compact();
                sum += store.used() as u64;
            }
        }
        n = next(n, r.keys);
    }
    if r.call == 5 {
        store.commit(view.version);
    }
    if r.writes() { store.used() as u64 } else { sum }
}

fn run_toydb(r: &Request, log: Vec<u8>) -> u64 {
    let path = scratch();
    std::fs::write(&path, &log).expect("the log");
    let open = || BitCask::new(path.clone()).expect("it opens");
    let size = |engine: &mut BitCask| engine.status().expect("a status").disk_size;
    if r.call == 1 {
        return (0..r.times).map(|_| size(&mut open())).sum();
    }
    let store = MVCC::new(open());
    let used = || size(&mut store.engine.lock().expect("the lock"));
    let mut n = 0;
    let mut sum = 0;
    let others: Vec<_> = (0..if r.looks_begun() { r.others } else { 0 }).map(|_| store.begin().expect("a begin")).collect();
    let t = if r.writes() || r.looks_begun() { store.begin() } else { store.begin_read_only() }.expect("a begin");
    for _ in 0..r.times {
        match r.call {
            2 | 7 => sum += t.get(&r.key(n)[r.skipped()..]).expect("no error").map_or(0, |v| weight(&v)),
            3 | 8 => sum += t.scan(..).map(|pair| weight(&pair.expect("no error").1)).sum::<u64>(),
            4 | 5 => t.set(&r.key(n)[r.skipped()..], VALUE.to_vec()).expect("no conflict"),
            _ => {
                let mut engine = store.engine.lock().expect("the lock");
                engine.compact().and_then(|()| engine.compact()).expect("two compactions");
                sum += size(&mut engine);
            }
        }
        n = next(n, r.keys);
    }
    if r.call == 5 {
        t.commit().expect("a commit");
    }
    drop(others);
    if r.writes() { used() } else { sum }
}

/// The request of a bench run as bytes: a key's 56 bytes less those that are skipped, as crate timing spells it.
pub fn request(r: &Request, log: &[u8]) -> Vec<u8> {
    let numbers = [r.call, r.times, r.others, r.keys, r.skipped() as u64, r.absent as u64];
    [numbers.map(u64::to_be_bytes).as_flattened(), log].concat()
}

pub fn run(side: &str) -> bool {
    let mut input = Vec::new();
    std::io::stdin().read_to_end(&mut input).expect("a request");
    let number = |i: usize| u64::from_be_bytes(input[8 * i..8 * i + 8].try_into().expect("eight bytes"));
    let shared = SHARED - number(4) as usize;
    let r = Request { call: number(0), times: number(1), others: number(2), keys: number(3), shared, absent: number(5) != 0 };
    let log = input[48..].to_vec();
    println!("{}", if side == "plain" { run_plain(&r, log) } else { run_toydb(&r, log) });
    true
}
