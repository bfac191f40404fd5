//! A scan step of document 01 as toydb answers it: a new scan, of which the first pair is taken. toydb reads 32 pairs ahead; where it meets
//! damage there, it is lent only the records that a step reads.

use std::ops::Bound;

use toydb::encoding::Key as _;
use toydb::storage::Engine as _;
use toydb::storage::mvcc::{Key, Transaction, TransactionState};

use crate::held::Held;
use crate::store::{ABSENT, Answer, BAD_STORE, MAX_KEY, Pair, Store, plain};

/// What a scan step is asked: bounds or a prefix.
#[derive(Clone, Debug)]
pub enum Asked {
    Range(Bound<Vec<u8>>, Bound<Vec<u8>>),
    Prefix(Vec<u8>),
}

impl Asked {
    fn keys(&self) -> Vec<&[u8]> {
        match self {
            Asked::Prefix(prefix) => vec![prefix],
            Asked::Range(low, high) => [low, high]
                .into_iter()
                .filter_map(|b| match b {
                    Bound::Included(k) | Bound::Excluded(k) => Some(k.as_slice()),
                    Bound::Unbounded => None,
                })
                .collect(),
        }
    }

    fn first(&self, transaction: &Transaction<Held>) -> Answer<Option<Pair>> {
        let next = match self {
            Asked::Prefix(prefix) => transaction.scan_prefix(prefix).next(),
            Asked::Range(low, high) => transaction.scan((low.clone(), high.clone())).next(),
        };
        next.transpose().map_err(plain)
    }
}

impl Store {
    /// One scan step: a new scan of toydb's, to which the records up to the last given key are hidden.
    pub fn step(&mut self, state: &TransactionState, asked: &Asked, last: Option<&[u8]>) -> Answer<Pair> {
        let transaction = self.take(state)?;
        for key in asked.keys().into_iter().chain(last) {
            self.judge_key(key)?;
        }
        self.engine(|e| {
            e.crossed = false;
            e.floor = last.map(|k| Key::Version(k.into(), u64::MAX).encode());
        });
        let mut first = asked.first(&transaction);
        if first == Err(BAD_STORE) || self.holds_long_key() {
            first = self.step_by_records(&transaction, asked);
        }
        let crossed = self.engine(|e| {
            e.floor = None;
            e.crossed
        });
        if crossed {
            self.rule("crossed bounds");
        }
        first?.ok_or(ABSENT)
    }

    fn versions(&self) -> Vec<(Vec<u8>, Vec<u8>)> {
        let keys = self.engine(|e| e.file.scan(vec![4]..vec![5]).map(|pair| pair.expect("a pair").0).collect::<Vec<_>>());
        let user = |key: &Vec<u8>| match Key::decode(key) {
            Ok(Key::Version(user, _)) => Some((key.clone(), user.into_owned())),
            _ => None,
        };
        keys.iter().filter_map(user).collect()
    }

    fn holds_long_key(&self) -> bool {
        self.versions().iter().any(|(_, user)| user.len() > MAX_KEY)
    }

    /// toydb reads 32 pairs ahead and meets damage that a step does not read. So it is lent the records up to the last version of one key
    /// after the other, until it answers. A user key over the limit is damage here, and none to toydb.
    fn step_by_records(&mut self, transaction: &Transaction<Held>, asked: &Asked) -> Answer<Option<Pair>> {
        self.rule("damaged scan by records");
        let versions = self.versions();
        for (i, (key, user)) in versions.iter().enumerate() {
            if versions.get(i + 1).is_some_and(|(_, next)| next == user) || !self.engine(|e| e.read(key)) {
                continue;
            }
            self.engine(|e| e.ceiling = Some(key.clone()));
            let first = asked.first(transaction);
            self.engine(|e| e.ceiling = None);
            if user.len() > MAX_KEY {
                return self.ruled("stored key over the limit", BAD_STORE);
            }
            if first != Ok(None) {
                return first;
            }
        }
        asked.first(transaction)
    }
}
