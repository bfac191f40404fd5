//! Tapes of many kinds, each decided by its kind and seed.

use crate::random::Random;
use crate::tape::*;

pub const KINDS: [&str; 11] = [
    "conflicts",
    "as-of",
    "full log",
    "full table",
    "compaction",
    "odd keys",
    "long keys",
    "many open",
    "mixed",
    "malformed",
    "random bytes",
];

/// What a kind asks for: the keys, the longest value, how many slots, and how often each of the eleven commands comes.
struct Shape {
    keys: Vec<Vec<u8>>,
    value: usize,
    slots: usize,
    weights: [usize; 11],
    records: usize,
}

fn words(list: &[&[u8]]) -> Vec<Vec<u8>> {
    list.iter().map(|k| k.to_vec()).collect()
}

fn odd_keys() -> Vec<Vec<u8>> {
    words(&[
        b"",
        b"\x00",
        b"\x00\x00",
        b"\x00\xff",
        b"\xff",
        b"\xff\xff",
        b"\xff\x00",
        b"a",
        b"a\x00",
        b"a\x00b",
        b"a\xff",
        b"a\xff\xff",
        b"b",
        b"aa",
        b"\x01",
        b"\x00\x01",
        b"\xfe\xff",
    ])
}

fn numbered(n: usize) -> Vec<Vec<u8>> {
    (0..n).map(|i| format!("{i:03}").into_bytes()).collect()
}

fn long_keys(random: &mut Random) -> Vec<Vec<u8>> {
    let mut keys = vec![vec![0; 64], vec![0xff; 64], vec![b'k'; 64], vec![b'k'; 63], vec![0; 63]];
    for _ in 0..5 {
        let len = 50 + random.below(15);
        keys.push((0..len).map(|_| *random.pick(&[0, 1, b'a', 0xff])).collect());
    }
    keys
}

/// begin, read-only, as-of, get, set, delete, scan, commit, rollback, compact, status
fn shape(kind: &str, random: &mut Random) -> Shape {
    let few = words(&[b"a", b"b", b"ab"]);
    let (keys, value, slots, weights, records) = match kind {
        "conflicts" => (few, 3, 5, [12, 3, 1, 15, 25, 10, 5, 10, 6, 1, 1], 150),
        "as-of" => (few, 3, 6, [10, 4, 15, 20, 15, 5, 10, 12, 4, 1, 1], 150),
        "full log" => (numbered(12), 52, 4, [6, 1, 1, 5, 60, 5, 3, 6, 3, 0, 1], 600),
        "full table" => (numbered(400), 1, 3, [4, 0, 0, 3, 80, 3, 1, 5, 1, 4, 2], 600),
        "compaction" => (numbered(30), 20, 6, [8, 2, 3, 10, 30, 10, 6, 8, 5, 15, 4], 250),
        "odd keys" => (odd_keys(), 4, 5, [8, 2, 2, 15, 30, 10, 14, 8, 4, 2, 1], 200),
        "long keys" => (long_keys(random), 10, 4, [8, 2, 2, 15, 30, 8, 10, 10, 4, 3, 1], 150),
        "many open" => (few, 2, 16, [30, 5, 5, 5, 10, 3, 3, 4, 3, 1, 1], 200),
        _ => (odd_keys(), 52, 16, [10, 4, 6, 15, 25, 8, 8, 8, 4, 3, 2], 200),
    };
    Shape { keys, value, slots, weights, records }
}

/// A command and a slot that fit each other, as far as the generator knows; now and then any slot.
fn command_and_slot(random: &mut Random, shape: &Shape, filled: &[bool; 16]) -> (u8, usize) {
    loop {
        let command = random.weighted(&shape.weights) as u8 + 1;
        let starts = matches!(command, BEGIN | BEGIN_READ_ONLY | AS_OF);
        let fits: Vec<usize> = (0..shape.slots).filter(|s| filled[*s] != starts).collect();
        if random.percent(2) {
            return (command, random.below(16));
        }
        if !fits.is_empty() {
            return (command, *random.pick(&fits));
        }
    }
}

fn next(random: &mut Random, shape: &Shape, filled: &mut [bool; 16], version: &mut u64) -> Record {
    let (command, slot) = command_and_slot(random, shape, filled);
    // Most looks back are at a version that was given; the others leave the slot empty.
    let back = if random.percent(10) { *version + random.below(2) as u64 } else { random.below(*version as usize) as u64 };
    match command {
        BEGIN | BEGIN_READ_ONLY => filled[slot] = true,
        AS_OF => filled[slot] |= back < *version,
        COMMIT | ROLLBACK => filled[slot] = false,
        _ => {}
    }
    if command == BEGIN {
        *version += 1;
    }
    let key = random.pick(&shape.keys).clone();
    let prefix = key[..random.below(key.len() + 1)].to_vec();
    let len = random.below(shape.value + 1);
    let value = random.bytes(len);
    let s = slot as u8;
    match command {
        AS_OF => record(AS_OF, s, back, b"", b""),
        GET | DELETE => record(command, s, 0, &key, b""),
        SET => record(SET, s, 0, &key, &value),
        SCAN => record(SCAN, s, 0, if random.percent(30) { b"" } else { &prefix }, b""),
        COMPACT | STATUS => record(command, 0, 0, b"", b""),
        _ => record(command, s, 0, b"", b""),
    }
}

/// One byte of a record set to something else, or a field set to its limit or past it.
fn spoil(random: &mut Random, r: &mut Record) {
    match random.below(6) {
        0 => r[random.below(RECORD)] = random.next() as u8,
        1 => r[0] = random.below(14) as u8,
        2 => r[1] = 14 + random.below(4) as u8,
        3 => r[2] = 62 + random.below(5) as u8,
        4 => r[3] = 50 + random.below(5) as u8,
        _ => r[4 + random.below(RECORD - 4)] ^= 1,
    }
}

fn random_bytes(random: &mut Random) -> Vec<u8> {
    let len = random.below(20 * RECORD);
    let mut tape = random.bytes(len);
    for r in tape.chunks_mut(RECORD) {
        r[0] %= 13;
        if random.percent(50) {
            r[1..].fill(0);
        }
    }
    tape
}

pub fn tape(kind: &str, seed: u64) -> Vec<u8> {
    let mut random = Random::new(seed);
    match kind {
        "random bytes" => return random_bytes(&mut random),
        "empty" => return Vec::new(),
        _ => {}
    }
    let shape = shape(kind, &mut random);
    let mut filled = [false; 16];
    let mut version = 1;
    let mut tape = Vec::new();
    for _ in 0..shape.records {
        let mut r = next(&mut random, &shape, &mut filled, &mut version);
        if kind == "malformed" && random.percent(30) {
            spoil(&mut random, &mut r);
        }
        tape.extend(r);
    }
    if random.percent(10) {
        let len = random.below(RECORD);
        tape.extend(vec![0; len]);
    }
    tape
}
