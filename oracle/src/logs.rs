//! Requests to recover a log for the driver of our exported functions, with what toydb's BitCask recovers: used length, live keys in order,
//! their places and lengths.

use std::path::Path;

use toydb::storage::bitcask::{BitCask, peek};

use crate::lines::{Request, answered};
use crate::random::Random;
use crate::report::hex;
use crate::store::{BAD_REQUEST, TABLE_FULL};

/// Twelve bytes a slot.
const SLOT: usize = 12;

/// An entry; None is a tombstone, whose length is any negative number.
pub fn entry(key: &[u8], value: Result<&[u8], i32>) -> Vec<u8> {
    let len = value.map_or_else(|negative| negative, |v| v.len() as i32);
    let key_len = (key.len() as u32).to_be_bytes();
    [&key_len, &len.to_be_bytes(), key, value.unwrap_or_default()].concat()
}

/// The offsets at which the entries of a recovered log end.
fn ends(log: &[u8]) -> Vec<usize> {
    let mut ends = Vec::new();
    let mut at = 0;
    while at < log.len() {
        let word = |i: usize| u32::from_be_bytes(log[i..i + 4].try_into().expect("four bytes"));
        at += 8 + word(at) as usize + (word(at + 4) as i32).max(0) as usize;
        ends.push(at);
    }
    ends
}

/// Whether more keys than slots are live after any of a recovered log's entries: toydb opens each part that ends with an entry.
pub fn needs_more_slots(log: &[u8], slots: u64, path: &Path) -> bool {
    let ends = ends(log);
    ends.len() as u64 > slots && ends.iter().any(|end| recover(&log[..*end], path).0.len() as u64 > slots)
}

/// toydb's places, and the bytes that it leaves in the file.
fn recover(log: &[u8], path: &Path) -> (Vec<peek::Place>, Vec<u8>) {
    std::fs::write(path, log).expect("the log");
    let engine = BitCask::new(path.to_path_buf()).expect("toydb opens any log");
    (peek::places(&engine), std::fs::read(path).expect("the log"))
}

pub fn open(log: &[u8], used: usize, table: usize, path: &Path) -> Request {
    let shown = if log.is_empty() { "-".to_string() } else { hex(log) };
    let line = format!("open {shown} {used} {table}");
    if used > log.len() || !table.is_multiple_of(SLOT) {
        return answered(&line, BAD_REQUEST, 0, &vec![0; table]);
    }
    let (places, left) = recover(&log[..used], path);
    if needs_more_slots(&left, (table / SLOT) as u64, path) {
        return answered(&line, TABLE_FULL, 0, &vec![0; table]);
    }
    let mut bytes = Vec::new();
    for place in &places {
        for n in [place.offset as u32 + 1, place.key.len() as u32, place.value as u32] {
            bytes.extend(n.to_be_bytes());
        }
    }
    bytes.resize(table, 0);
    answered(&line, 0, left.len() as u64, &bytes)
}

/// Every log of two small entries, cut at every byte, with no, one and two slots.
pub fn exhaustive(path: &Path) -> Vec<Request> {
    let mut entries = Vec::new();
    for key in [&b""[..], b"a", b"b"] {
        for value in [Ok(&b""[..]), Ok(b"x"), Err(-1), Err(i32::MIN)] {
            entries.push(entry(key, value));
        }
    }
    let mut out = Vec::new();
    for first in &entries {
        for second in &entries {
            let log = [first.as_slice(), second].concat();
            for used in 0..=log.len() {
                out.push(open(&log, used, 2 * SLOT, path));
            }
            for table in [0, SLOT] {
                out.push(open(&log, log.len(), table, path));
            }
        }
    }
    for (used, table) in [(1, 0), (0, 1), (0, 11), (0, 13), (0, 0)] {
        out.push(open(&[], used, table, path));
    }
    out
}

fn random_entry(random: &mut Random) -> Vec<u8> {
    let keys: [&[u8]; 8] = [b"", b"a", b"b", b"ab", b"\x00", b"\xff", b"a\x00", b"long key of 22 bytes.."];
    let key = keys[random.below(8)];
    let len = random.below(9);
    let value = random.bytes(len);
    match random.below(5) {
        0 => entry(key, Err(-1)),
        1 => entry(key, Err(-1 - random.below(1 << 30) as i32)),
        _ => entry(key, Ok(&value)),
    }
}

/// One byte changed, some cut out, or a length field that reaches far.
fn spoil(random: &mut Random, log: &mut Vec<u8>) {
    if log.len() < 9 {
        return;
    }
    let at = random.below(log.len() - 8);
    match random.below(4) {
        0 => log[at] = random.next() as u8,
        1 => log[at] ^= 1 << random.below(8),
        2 => drop(log.drain(at..at + 1 + random.below(7))),
        _ => log[at..at + 4].copy_from_slice(&[0x7f, 0xff, 0xff, 0xff]),
    }
}

/// Logs as they are written, damaged, cut, and random bytes.
pub fn random(seed: u64, n: usize, path: &Path) -> Vec<Request> {
    let mut random = Random::new(seed);
    let mut out = Vec::new();
    for i in 0..n {
        let mut log = Vec::new();
        if i % 5 == 4 {
            let len = random.below(60);
            log = random.bytes(len).iter().map(|b| if b % 3 == 0 { 0 } else { b % 5 }).collect();
        } else {
            for _ in 0..random.below(25) {
                log.extend(random_entry(&mut random));
            }
        }
        if i % 3 == 1 {
            spoil(&mut random, &mut log);
        }
        let used = if random.percent(60) { log.len() } else { random.below(log.len() + 2) };
        let slots = if random.percent(70) { 9 } else { random.below(9) };
        out.push(open(&log, used, slots * SLOT, path));
    }
    out
}
