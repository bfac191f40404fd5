//! toydb's transactions over its BitCask, with document 01's limits judged around its calls: what toydb answers is the answer, unless a rule
//! of docs/DIFFERENCES.md says otherwise. Each such rule stands in a function of its own or under a `rule` call, by which it is counted.

use std::collections::BTreeMap;
use std::path::Path;

use toydb::encoding::Key as _;
use toydb::error::Error;
use toydb::storage::Engine as _;
use toydb::storage::mvcc::{Key, MVCC, Transaction, TransactionState};

use crate::held::Held;

pub const ABSENT: u8 = 1;
pub const READ_ONLY: u8 = 2;
pub const NOT_OPEN: u8 = 3;
pub const KEY_TOO_LONG: u8 = 4;
pub const VALUE_TOO_LONG: u8 = 5;
pub const CONFLICT: u8 = 6;
pub const LOG_FULL: u8 = 7;
pub const TABLE_FULL: u8 = 8;
pub const TOO_MANY_OPEN: u8 = 9;
pub const NO_SUCH_VERSION: u8 = 10;
pub const VERSIONS_SPENT: u8 = 11;
pub const BAD_STORE: u8 = 12;
pub const BAD_REQUEST: u8 = 13;

pub const MAX_KEY: usize = 64;
pub const MAX_VALUE: usize = 4096;
pub const MAX_OPEN: usize = 16;

/// Done with something, or one of the numbers 1 to 13.
pub type Answer<T> = Result<T, u8>;

pub type Pair = (Vec<u8>, Vec<u8>);

pub struct Store {
    mvcc: MVCC<Held>,
    /// The log buffer's size and the table's slots.
    pub size: u64,
    pub slots: u64,
    /// How often each rule decided.
    pub rules: BTreeMap<&'static str, u64>,
}

/// toydb's errors; `input` is what InvalidInput means in this call.
fn number_of(error: Error, input: u8) -> u8 {
    match error {
        Error::InvalidData(_) => BAD_STORE,
        Error::InvalidInput(_) => input,
        Error::ReadOnly => READ_ONLY,
        Error::Serialization => CONFLICT,
        Error::Abort | Error::IO(_) => panic!("toydb failed: {error}"),
    }
}

/// toydb's errors in calls that give no InvalidInput.
pub fn plain(error: Error) -> u8 {
    match error {
        Error::InvalidInput(_) => panic!("unexpected: {error}"),
        error => number_of(error, 0),
    }
}

/// Row 9, and the set of a snapshot strictly rising.
fn judge_snapshot(bytes: &[u8]) -> Answer<()> {
    let versions: Vec<&[u8]> = bytes.chunks(8).collect();
    if versions.len() > MAX_OPEN {
        return Err(TOO_MANY_OPEN);
    }
    if versions.windows(2).any(|w| w[0] >= w[1]) {
        return Err(BAD_STORE);
    }
    Ok(())
}

impl Store {
    pub fn open(path: &Path, size: u64, slots: u64) -> Store {
        Store { mvcc: MVCC::new(Held::open(path)), size, slots, rules: BTreeMap::new() }
    }

    /// The engine below the transactions.
    pub fn engine<T>(&self, f: impl FnOnce(&mut Held) -> T) -> T {
        f(&mut self.mvcc.engine.lock().expect("nobody panicked with the lock"))
    }

    pub fn rule(&mut self, name: &'static str) {
        *self.rules.entry(name).or_default() += 1;
    }

    /// A refusal that a rule gives.
    pub fn ruled<T>(&mut self, name: &'static str, number: u8) -> Answer<T> {
        self.rule(name);
        Err(number)
    }

    pub fn used(&self) -> u64 {
        self.engine(|e| e.used())
    }

    pub fn keys(&self) -> u64 {
        self.engine(|e| e.file.status().expect("a status").keys)
    }

    /// Ends a call: rows 7 and 8 on the writes that it made, then all of them or none.
    fn end<T>(&mut self, answer: Answer<T>) -> Answer<T> {
        let (size, slots) = (self.size, self.slots);
        let judged = self.engine(|e| {
            let used = e.used();
            let keys = e.file.status().expect("a status").keys;
            if answer.is_err() {
                e.writes.clear();
            } else if used + e.size_of_writes() > size {
                e.writes.clear();
                return Err(LOG_FULL);
            } else if e.new_keys() > slots.saturating_sub(keys) {
                e.writes.clear();
                return Err(TABLE_FULL);
            }
            e.lay();
            Ok(())
        });
        match judged {
            Ok(()) => answer,
            Err(LOG_FULL) => self.ruled("limit: log", LOG_FULL),
            Err(number) => self.ruled("limit: table", number),
        }
    }

    /// NextVersion 0 is no version here.
    fn judge_next(&mut self) -> Answer<()> {
        match self.engine(|e| e.file.get(&Key::NextVersion.encode()).expect("a get")) {
            Some(bytes) if bytes == [0; 8] => self.ruled("NextVersion 0", BAD_STORE),
            _ => Ok(()),
        }
    }

    pub fn begin(&mut self) -> Answer<TransactionState> {
        self.judge_next()?;
        let begun = self.mvcc.begin().map(|t| t.state().clone()).map_err(plain);
        let judged = match begun {
            Ok(state) if state.version == u64::MAX => self.ruled("versions spent", VERSIONS_SPENT),
            Ok(state) if state.active.len() >= MAX_OPEN => self.ruled("limit: open", TOO_MANY_OPEN),
            begun => begun,
        };
        self.end(judged)
    }

    pub fn begin_read_only(&mut self) -> Answer<TransactionState> {
        self.judge_next()?;
        let state = self.mvcc.begin_read_only().map(|t| t.state().clone()).map_err(plain)?;
        if state.active.len() > MAX_OPEN {
            return self.ruled("limit: open", TOO_MANY_OPEN);
        }
        Ok(state)
    }

    pub fn begin_as_of(&mut self, version: u64) -> Answer<TransactionState> {
        self.judge_next()?;
        let begun = self.mvcc.begin_as_of(version);
        let state = begun.map(|t| t.state().clone()).map_err(|e| number_of(e, NO_SUCH_VERSION))?;
        let snapshot = self.engine(|e| e.file.get(&Key::TxnActiveSnapshot(version).encode()).expect("a get"));
        if let Err(number) = judge_snapshot(&snapshot.unwrap_or_default()) {
            return self.ruled("snapshot as stored", number);
        }
        Ok(state)
    }

    /// toydb's own resume tells whether a read-write handle is open; the versions 0 and 2^64-1 belong to none.
    pub fn take(&mut self, state: &TransactionState) -> Answer<Transaction<Held>> {
        let transaction = self.mvcc.resume(state.clone()).map_err(|e| number_of(e, NOT_OPEN))?;
        if !state.read_only && (state.version == 0 || state.version == u64::MAX) {
            return self.ruled("version of no writer", NOT_OPEN);
        }
        Ok(transaction)
    }

    pub fn resume(&mut self, state: &TransactionState) -> Answer<TransactionState> {
        Ok(self.take(state)?.state().clone())
    }

    pub fn judge_key(&mut self, key: &[u8]) -> Answer<()> {
        if key.len() > MAX_KEY { self.ruled("limit: key", KEY_TOO_LONG) } else { Ok(()) }
    }

    fn judge_value(&mut self, value: &[u8]) -> Answer<()> {
        if value.len() > MAX_VALUE { self.ruled("limit: value", VALUE_TOO_LONG) } else { Ok(()) }
    }

    pub fn get(&mut self, state: &TransactionState, key: &[u8]) -> Answer<Vec<u8>> {
        let transaction = self.take(state)?;
        self.judge_key(key)?;
        transaction.get(key).map_err(plain)?.ok_or(ABSENT)
    }

    /// toydb looks at the read-only mark first, and so do we: a read-only handle is always taken.
    pub fn set(&mut self, state: &TransactionState, key: &[u8], value: &[u8]) -> Answer<()> {
        let transaction = self.take(state)?;
        if !state.read_only {
            self.judge_key(key)?;
            self.judge_value(value)?;
        }
        let written = transaction.set(key, value.to_vec()).map_err(plain);
        self.end(written)
    }

    pub fn delete(&mut self, state: &TransactionState, key: &[u8]) -> Answer<()> {
        let transaction = self.take(state)?;
        if !state.read_only {
            self.judge_key(key)?;
        }
        let written = transaction.delete(key).map_err(plain);
        self.end(written)
    }

    pub fn commit(&mut self, state: &TransactionState) -> Answer<()> {
        let ended = self.take(state)?.commit().map_err(plain);
        self.end(ended)
    }

    /// A user key over the limit among the transaction's writes is 12.
    pub fn rollback(&mut self, state: &TransactionState) -> Answer<()> {
        let ended = self.take(state)?.rollback().map_err(plain);
        let long = |key: &[u8]| matches!(Key::decode(key), Ok(Key::TxnWrite(_, k)) if k.len() > MAX_KEY);
        if ended.is_ok() && self.engine(|e| e.writes.iter().any(|(k, _)| long(k))) {
            self.engine(|e| e.writes.clear());
            return self.ruled("stored key over the limit", BAD_STORE);
        }
        self.end(ended)
    }

    pub fn get_unversioned(&mut self, key: &[u8]) -> Answer<Vec<u8>> {
        self.judge_key(key)?;
        self.mvcc.get_unversioned(key).map_err(plain)?.ok_or(ABSENT)
    }

    pub fn set_unversioned(&mut self, key: &[u8], value: &[u8]) -> Answer<()> {
        self.judge_key(key)?;
        self.judge_value(value)?;
        let written = self.mvcc.set_unversioned(key, value.to_vec()).map_err(plain);
        self.end(written)
    }

    /// The last version and the number of open transactions.
    pub fn status(&mut self) -> Answer<(u64, u64)> {
        self.judge_next()?;
        let status = self.mvcc.status().map_err(plain)?;
        Ok((status.versions, status.active_txns))
    }

    /// The engine's own set and delete, by which a store is damaged.
    pub fn lay(&mut self, key: &[u8], value: &[u8]) -> Answer<()> {
        let set = self.engine(|e| e.set(key, value.to_vec())).map_err(plain);
        self.end(set)
    }

    pub fn cut(&mut self, key: &[u8]) -> Answer<()> {
        let deleted = self.engine(|e| e.delete(key)).map_err(plain);
        self.end(deleted)
    }

    pub fn compact(&mut self) -> Answer<u64> {
        self.engine(|e| e.file.compact()).map_err(plain)?;
        Ok(self.used())
    }

    /// The whole prefix scan through one iterator of toydb's: the pairs, and the error that ended it.
    pub fn scan_prefix(&mut self, state: &TransactionState, prefix: &[u8]) -> (Vec<Pair>, Answer<()>) {
        let transaction = match self.take(state) {
            Ok(transaction) => transaction,
            Err(number) => return (Vec::new(), Err(number)),
        };
        if let Err(number) = self.judge_key(prefix) {
            return (Vec::new(), Err(number));
        }
        let mut pairs = Vec::new();
        for pair in transaction.scan_prefix(prefix) {
            match pair {
                Ok(pair) => pairs.push(pair),
                Err(error) => return (pairs, Err(plain(error))),
            }
        }
        (pairs, Ok(()))
    }
}
