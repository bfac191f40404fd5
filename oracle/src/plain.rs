//! A plain in-memory version for the bench: the same log format and the same records over a sorted map of keys, as one would write it in Rust
//! with no limits and no damage in mind. It is compared with the others by the sums that the bench makes.

use std::collections::{BTreeMap, BTreeSet};
use std::ops::Range;

pub struct Plain {
    log: Vec<u8>,
    places: BTreeMap<Vec<u8>, Range<usize>>,
}

fn number(bytes: &[u8]) -> u32 {
    u32::from_be_bytes(bytes.try_into().expect("four bytes"))
}

pub fn version_key(key: &[u8], version: u64) -> Vec<u8> {
    let mut out = Vec::with_capacity(key.len() + 11);
    out.push(4);
    escape(key, &mut out);
    out.extend(version.to_be_bytes());
    out
}

fn escape(key: &[u8], out: &mut Vec<u8>) {
    for &b in key {
        out.push(b);
        if b == 0 {
            out.push(0xff);
        }
    }
    out.extend([0, 0]);
}

fn write_key(version: u64, key: &[u8]) -> Vec<u8> {
    let mut out = vec![3];
    out.extend(version.to_be_bytes());
    escape(key, &mut out);
    out
}

fn active_key(version: u64) -> Vec<u8> {
    [&[1], version.to_be_bytes().as_slice()].concat()
}

/// The version that stands at a key's end.
fn version_in(key: &[u8]) -> u64 {
    u64::from_be_bytes(key[key.len() - 8..].try_into().expect("eight bytes"))
}

/// What a transaction sees: versions up to its own but those that were open when it began.
pub struct View {
    pub version: u64,
    pub open: BTreeSet<u64>,
}

impl View {
    fn sees(&self, version: u64) -> bool {
        version <= self.version && !self.open.contains(&version)
    }
}

impl Plain {
    /// Recovers a log that ends with an entry.
    pub fn open(log: Vec<u8>) -> Plain {
        let mut places = BTreeMap::new();
        let mut at = 0;
        while at < log.len() {
            let key_len = number(&log[at..at + 4]) as usize;
            let value_len = number(&log[at + 4..at + 8]) as i32;
            let value = at + 8 + key_len;
            let key = &log[at + 8..value];
            if value_len < 0 {
                places.remove(key);
                at = value;
            } else {
                at = value + value_len as usize;
                places.insert(key.to_vec(), value..at);
            }
        }
        Plain { log, places }
    }

    pub fn log(self) -> Vec<u8> {
        self.log
    }

    pub fn used(&self) -> usize {
        self.log.len()
    }

    fn append(&mut self, key: &[u8], value: Option<&[u8]>) -> Range<usize> {
        self.log.extend((key.len() as u32).to_be_bytes());
        self.log.extend(value.map_or(-1, |v| v.len() as i32).to_be_bytes());
        self.log.extend(key);
        let at = self.log.len();
        self.log.extend(value.unwrap_or_default());
        at..self.log.len()
    }

    pub fn put(&mut self, key: Vec<u8>, value: &[u8]) {
        let place = self.append(&key, Some(value));
        self.places.insert(key, place);
    }

    fn remove(&mut self, key: &[u8]) {
        self.append(key, None);
        self.places.remove(key);
    }

    /// The next transaction, which is then open, and those that are open before it.
    pub fn begin(&mut self) -> View {
        let open = self.places.range(active_key(0)..=active_key(u64::MAX)).map(|(key, _)| version_in(key)).collect();
        View { version: self.begin_version(), open }
    }

    fn begin_version(&mut self) -> u64 {
        let place = self.places.get([0].as_slice()).cloned();
        let version = place.map_or(1, |p| u64::from_be_bytes(self.log[p].try_into().expect("eight bytes")));
        self.put(vec![0], &(version + 1).to_be_bytes());
        self.put(active_key(version), &[]);
        version
    }

    /// The newest value that a view sees: below its version or of it, and of no transaction that was open then.
    pub fn get(&self, view: &View, key: &[u8]) -> Option<&[u8]> {
        let range = version_key(key, 0)..=version_key(key, view.version);
        let (_, place) = self.places.range(range).rev().find(|(key, _)| view.sees(version_in(key)))?;
        self.log[place.clone()].strip_prefix(&[1])
    }

    /// The newest value that a view sees of every key, in order.
    pub fn scan(&self, view: &View, mut give: impl FnMut(&[u8], &[u8])) {
        let mut pairs = self.places.range(vec![4]..vec![5]).peekable();
        let string = |key: &[u8]| key.len() - 8;
        let mut newest: Option<&[u8]> = None;
        while let Some((key, place)) = pairs.next() {
            let body = &key[..string(key)];
            if view.sees(version_in(key)) {
                newest = Some(&self.log[place.clone()]);
            }
            if pairs.peek().is_some_and(|(next, _)| next[..string(next)] == *body) {
                continue;
            }
            if let Some([1, value @ ..]) = newest.take() {
                give(&body[1..body.len() - 2], value);
            }
        }
    }

    /// A set; whether nobody else wrote the key since.
    pub fn set(&mut self, version: u64, key: &[u8], value: &[u8]) -> bool {
        let newer = version_key(key, version + 1)..=version_key(key, u64::MAX);
        if self.places.range(newer).next_back().is_some() {
            return false;
        }
        self.put(write_key(version, key), &[]);
        self.put(version_key(key, version), &[&[1], value].concat());
        true
    }

    pub fn commit(&mut self, version: u64) {
        let first = [&[3], version.to_be_bytes().as_slice()].concat();
        let past = [&[3], (version + 1).to_be_bytes().as_slice()].concat();
        let writes: Vec<Vec<u8>> = self.places.range(first..past).map(|(key, _)| key.clone()).collect();
        for key in writes {
            self.remove(&key);
        }
        self.remove(&active_key(version));
    }

    pub fn compact(&mut self) {
        let old = std::mem::replace(self, Plain { log: Vec::new(), places: BTreeMap::new() });
        for (key, place) in old.places {
            self.put(key, &old.log[place]);
        }
    }
}
