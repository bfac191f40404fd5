//! A tape of document 01 run on toydb: each record is judged by the tape's own rules, then answered by the store.

use std::path::Path;

use toydb::storage::mvcc::TransactionState;

use crate::store::{Answer, BAD_REQUEST, Store};

pub const RECORD: usize = 128;
const LOG_BYTES: u64 = 16_384;
const SLOTS: u64 = 256;

pub const BEGIN: u8 = 1;
pub const BEGIN_READ_ONLY: u8 = 2;
pub const AS_OF: u8 = 3;
pub const GET: u8 = 4;
pub const SET: u8 = 5;
pub const DELETE: u8 = 6;
pub const SCAN: u8 = 7;
pub const COMMIT: u8 = 8;
pub const ROLLBACK: u8 = 9;
pub const COMPACT: u8 = 10;
pub const STATUS: u8 = 11;

pub type Record = [u8; RECORD];

/// A record by its fields; what is too long for its field is cut, its length is not.
pub fn record(command: u8, slot: u8, version: u64, key: &[u8], value: &[u8]) -> Record {
    let mut r = [0; RECORD];
    r[0] = command;
    r[1] = slot;
    r[2] = key.len() as u8;
    r[3] = value.len() as u8;
    r[4..12].copy_from_slice(&version.to_be_bytes());
    let (k, v) = (key.len().min(64), value.len().min(52));
    r[12..12 + k].copy_from_slice(&key[..k]);
    r[76..76 + v].copy_from_slice(&value[..v]);
    r
}

struct Run {
    store: Store,
    slots: [Option<TransactionState>; 16],
    out: Vec<u8>,
}

/// Whether the fields that the command uses fit and all else is zero.
fn well_formed(r: &Record) -> bool {
    let (uses_slot, uses_key, uses_value, uses_version) = match r[0] {
        BEGIN | BEGIN_READ_ONLY | COMMIT | ROLLBACK => (true, false, false, false),
        AS_OF => (true, false, false, true),
        GET | DELETE | SCAN => (true, true, false, false),
        SET => (true, true, true, false),
        COMPACT | STATUS => (false, false, false, false),
        _ => return false,
    };
    let (k, v) = (r[2] as usize, r[3] as usize);
    if r[1] > 15 || k > 64 || v > 52 {
        return false;
    }
    let zero = |bytes: &[u8]| bytes.iter().all(|b| *b == 0);
    (uses_slot || r[1] == 0)
        && (uses_key || k == 0)
        && (uses_value || v == 0)
        && (uses_version || zero(&r[4..12]))
        && zero(&r[12 + k..76])
        && zero(&r[76 + v..])
}

impl Run {
    fn is_bad(&self, r: &Record) -> bool {
        if !well_formed(r) {
            return true;
        }
        let filled = self.slots[r[1] as usize].is_some();
        match r[0] {
            BEGIN | BEGIN_READ_ONLY | AS_OF => filled,
            COMPACT | STATUS => false,
            _ => !filled,
        }
    }

    fn say(&mut self, number: u8, command: u8, count: u64, key: &[u8], value: &[u8]) {
        self.out.extend(record(number, command, count, key, value));
    }

    /// Bytes 4 to 11 of a Done, or a refusal.
    fn count(&mut self, command: u8, answer: Answer<u64>) {
        match answer {
            Ok(count) => self.say(0, command, count, &[], &[]),
            Err(number) => self.say(number, command, 0, &[], &[]),
        }
    }

    fn start(&mut self, r: &Record) {
        let version = u64::from_be_bytes(r[4..12].try_into().expect("eight bytes"));
        let begun = match r[0] {
            BEGIN => self.store.begin(),
            BEGIN_READ_ONLY => self.store.begin_read_only(),
            _ => self.store.begin_as_of(version),
        };
        self.count(r[0], begun.clone().map(|state| state.version));
        if let Ok(state) = begun {
            self.slots[r[1] as usize] = Some(state);
        }
    }

    fn scan(&mut self, state: &TransactionState, prefix: &[u8]) {
        let (pairs, end) = self.store.scan_prefix(state, prefix);
        for (key, value) in &pairs {
            self.say(0, SCAN, 0, key, value);
        }
        self.count(SCAN, end.map(|()| pairs.len() as u64));
    }

    fn use_handle(&mut self, r: &Record, state: TransactionState) {
        let key = &r[12..12 + r[2] as usize];
        let value = &r[76..76 + r[3] as usize];
        let answer = match r[0] {
            GET => match self.store.get(&state, key) {
                Ok(value) => return self.say(0, GET, 0, &[], &value),
                Err(number) => Err(number),
            },
            SCAN => return self.scan(&state, key),
            SET => self.store.set(&state, key, value),
            DELETE => self.store.delete(&state, key),
            COMMIT => self.store.commit(&state),
            _ => self.store.rollback(&state),
        };
        self.count(r[0], answer.map(|()| 0));
        if answer.is_ok() && (r[0] == COMMIT || r[0] == ROLLBACK) {
            self.slots[r[1] as usize] = None;
        }
    }

    fn run(&mut self, r: &Record) {
        if self.is_bad(r) {
            return self.say(BAD_REQUEST, r[0], 0, &[], &[]);
        }
        match (r[0], self.slots[r[1] as usize].clone()) {
            (COMPACT, _) => {
                let used = self.store.compact();
                self.count(COMPACT, used);
            }
            (STATUS, _) => {
                let keys = self.store.keys();
                self.count(STATUS, Ok(keys));
            }
            (_, Some(state)) => self.use_handle(r, state),
            (_, None) => self.start(r),
        }
    }
}

/// The answers, the log's bytes at the end, and how often each rule decided.
pub struct Ran {
    pub answers: Vec<u8>,
    pub log: Vec<u8>,
    pub rules: std::collections::BTreeMap<&'static str, u64>,
}

/// Runs a tape on a new log file at the path.
pub fn run(tape: &[u8], path: &Path) -> Ran {
    let _ = std::fs::remove_file(path);
    let mut run = Run { store: Store::open(path, LOG_BYTES, SLOTS), slots: Default::default(), out: Vec::new() };
    let records = tape.chunks_exact(RECORD);
    let short = !records.remainder().is_empty();
    for r in records {
        run.run(r.try_into().expect("a whole record"));
    }
    if short {
        run.say(BAD_REQUEST, 0, 0, &[], &[]);
    }
    Ran { log: run.store.engine(|e| e.bytes()), rules: run.store.rules, answers: run.out }
}
