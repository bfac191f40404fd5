//! The items of one line of a script, on toydb: words that set something up, and calls.

use std::collections::BTreeSet;
use std::ops::Bound;
use std::path::PathBuf;

use toydb::encoding::Key as _;
use toydb::storage::Engine as _;
use toydb::storage::mvcc::{Key, TransactionState};

use crate::logs::needs_more_slots;
use crate::script::{LOG_BYTES, Setting, TABLE_WORDS};
use crate::spell::{number, shown, spelled};
use crate::steps::Asked;
use crate::store::{ABSENT, Answer, BAD_REQUEST, LOG_FULL, MAX_OPEN, Store};

/// The handle in hand, as the script sets it: also one that no store would give.
#[derive(Clone)]
pub struct Hand {
    version: u64,
    read_only: bool,
    set: Vec<u64>,
    count: usize,
}

impl Hand {
    fn of(state: &TransactionState) -> Hand {
        let set: Vec<u64> = state.active.iter().copied().collect();
        Hand { version: state.version, read_only: state.read_only, count: set.len(), set }
    }

    pub fn blank() -> Hand {
        Hand { version: 0, read_only: true, set: Vec::new(), count: 0 }
    }

    /// As toydb has it; None where the set is over 16 or does not rise, which toydb's cannot be.
    fn state(&self) -> Option<TransactionState> {
        let mut set = self.set.clone();
        set.resize(self.count.min(MAX_OPEN + 1), 0);
        let rises = set.windows(2).all(|w| w[0] < w[1]);
        let active: BTreeSet<u64> = set.iter().copied().collect();
        (self.count <= MAX_OPEN && rises).then_some(TransactionState { version: self.version, read_only: self.read_only, active })
    }
}

/// A line under way: the store is open, the setting goes along; bounds and the last given key hold for the line.
pub struct Line {
    paths: [PathBuf; 2],
    pub store: Store,
    pub setting: Setting,
    low: Bound<Vec<u8>>,
    high: Bound<Vec<u8>>,
    last: Option<Vec<u8>>,
    pub number: u8,
    pub pair: Option<Vec<u8>>,
    /// Bytes for the next opening that no call has laid.
    unopened: Option<Vec<u8>>,
}

type Given = Answer<(String, Option<Hand>)>;

fn handle_words(hand: &Hand) -> String {
    let mode = if hand.read_only { "read-only" } else { "read-write" };
    let set: Vec<String> = hand.set.iter().take(hand.count).map(|v| format!(" {v}")).collect();
    let set = if set.is_empty() { "no set".to_string() } else { format!("set{}", set.concat()) };
    format!(", version {} {mode}, {set}", hand.version)
}

/// A user key as it stands in the log.
fn escaped(key: &[u8]) -> Vec<u8> {
    let bytes = Key::Unversioned(key.into()).encode();
    bytes[1..bytes.len() - 2].to_vec()
}

impl Line {
    pub fn open(paths: &[PathBuf; 2], setting: &Setting) -> Line {
        std::fs::write(&paths[0], &setting.bytes).expect("the log's bytes");
        Line {
            paths: paths.clone(),
            store: Store::open(&paths[0], setting.size, setting.words / 3),
            setting: setting.clone(),
            low: Bound::Unbounded,
            high: Bound::Unbounded,
            last: None,
            number: 0,
            pair: None,
            unopened: None,
        }
    }

    fn lend(&mut self, name: &str, n: u64) -> bool {
        let s = &mut self.setting;
        match name {
            "room" => s.size = self.store.used() + n,
            "short" => s.size = self.store.used() - 1,
            "words" => s.words = n,
            "slots" => s.words = 3 * (self.store.keys() + n),
            "target" => s.target = n,
            "hand" => s.hand = n as usize,
            "used" => {
                let mut bytes = self.store.engine(|e| e.bytes());
                assert!(n <= bytes.len() as u64, "used {n}: the log is shorter");
                bytes.truncate(n as usize);
                self.unopened = Some(bytes);
            }
            _ => return false,
        }
        assert!(s.size <= LOG_BYTES && s.target <= LOG_BYTES && s.words <= TABLE_WORDS, "{name} {n}: not there to lend");
        self.store.size = s.size;
        self.store.slots = s.words / 3;
        true
    }

    fn hold(&mut self, name: &str, n: u64) -> bool {
        let hand = &mut self.setting.hands[self.setting.hand];
        match name {
            "writer" => *hand = Hand { version: n, read_only: false, ..Hand::blank() },
            "reader" => *hand = Hand { version: n, ..Hand::blank() },
            "with" => {
                hand.set.push(n);
                hand.count += 1;
            }
            "count" => hand.count = n as usize,
            _ => return false,
        }
        true
    }

    fn bound(&mut self, name: &str, key: Vec<u8>) -> bool {
        match name {
            "from" => self.low = Bound::Included(key),
            "above" => self.low = Bound::Excluded(key),
            "to" => self.high = Bound::Included(key),
            "below" => self.high = Bound::Excluded(key),
            "after" => self.last = Some(key),
            _ => return false,
        }
        true
    }

    /// Row 13 for what is lent to every call.
    fn is_bad_request(&self) -> bool {
        self.store.used() > self.setting.size || !self.setting.words.is_multiple_of(3)
    }

    fn begun(&mut self, answer: Answer<TransactionState>) -> Given {
        let hand = Hand::of(&answer?);
        Ok((format!(", used {}", self.store.used()), Some(hand)))
    }

    fn changed(&mut self, answer: Answer<()>) -> Given {
        answer?;
        Ok((format!(", used {}", self.store.used()), None))
    }

    fn value(&mut self, answer: Answer<Vec<u8>>) -> Given {
        Ok((format!(", value {}", shown(&answer?)), None))
    }

    /// toydb opens the bytes anew; 8 is the table's.
    fn reopen(&mut self) -> Given {
        let bytes = self.unopened.take().unwrap_or_else(|| self.store.engine(|e| e.bytes()));
        self.paths.swap(0, 1);
        std::fs::write(&self.paths[0], &bytes).expect("the log's bytes");
        let rules = std::mem::take(&mut self.store.rules);
        self.store = Store::open(&self.paths[0], self.setting.size, self.setting.words / 3);
        self.store.rules = rules;
        let left = self.store.engine(|e| e.bytes());
        assert!(!needs_more_slots(&left, self.store.slots, &self.paths[1]), "a refused opening leaves no store to go on with");
        self.changed(Ok(()))
    }

    fn compact(&mut self) -> Given {
        let live = self.store.engine(|e| e.file.status().expect("a status").live_disk_size);
        if live > self.setting.target {
            return self.store.ruled("limit: target", LOG_FULL);
        }
        let s = &mut self.setting;
        std::mem::swap(&mut s.size, &mut s.target);
        self.store.size = s.size;
        let compacted = self.store.compact();
        self.changed(compacted.map(|_| ()))
    }

    fn engine_status(&mut self) -> Given {
        let s = self.store.engine(|e| e.file.status().expect("a status"));
        let text = format!(", keys {}, size {}, used {}, live {}", s.keys, s.size, s.disk_size, s.live_disk_size);
        Ok((text, None))
    }

    /// The engine's calls, and an opening.
    fn call_engine(&mut self, name: &str, first: &str, second: &str) -> Option<Given> {
        let key = spelled(first);
        Some(match name {
            "lay" => {
                let answer = self.store.lay(&key, &spelled(second));
                self.changed(answer)
            }
            "cut" => {
                let answer = self.store.cut(&key);
                self.changed(answer)
            }
            "raw" => {
                let mut bytes = self.store.engine(|e| e.bytes());
                bytes.extend(key);
                self.unopened = Some(bytes);
                Ok((String::new(), None))
            }
            "open" => self.reopen(),
            "compact" => self.compact(),
            "engine-get" => {
                let answer = self.store.engine(|e| e.file.get(&key).expect("a get")).ok_or(ABSENT);
                self.value(answer)
            }
            "engine-status" => self.engine_status(),
            _ => return None,
        })
    }

    /// The transactions' calls that take no handle.
    fn call_free(&mut self, name: &str, first: &str, second: &str) -> Option<Given> {
        let store = &mut self.store;
        Some(match name {
            "begin" => {
                let answer = store.begin();
                self.begun(answer)
            }
            "read-only" => {
                let answer = store.begin_read_only();
                self.begun(answer)
            }
            "as-of" => {
                let answer = store.begin_as_of(number(first));
                self.begun(answer)
            }
            "get-unversioned" => {
                let answer = store.get_unversioned(&spelled(first));
                self.value(answer)
            }
            "set-unversioned" => {
                let answer = store.set_unversioned(&spelled(first), &spelled(second));
                self.changed(answer)
            }
            "status" => store.status().map(|(last, open)| (format!(", last version {last}, open {open}"), None)),
            _ => return None,
        })
    }

    fn step(&mut self, state: &TransactionState, asked: Asked) -> Given {
        let last = self.last.clone();
        let (key, value) = self.store.step(state, &asked, last.as_deref())?;
        let text = format!(", key {}, value {}", shown(&escaped(&key)), shown(&value));
        self.pair = Some(key);
        Ok((text, None))
    }

    fn call_held(&mut self, name: &str, first: &str, second: &str) -> Given {
        let Some(state) = self.setting.hands[self.setting.hand].state() else {
            return Err(BAD_REQUEST);
        };
        let key = spelled(first);
        let store = &mut self.store;
        let answer = match name {
            "resume" => {
                let answer = store.resume(&state);
                return self.begun(answer);
            }
            "get" => {
                let answer = store.get(&state, &key);
                return self.value(answer);
            }
            "scan" => {
                let asked = Asked::Range(self.low.clone(), self.high.clone());
                return self.step(&state, asked);
            }
            "scan-prefix" => return self.step(&state, Asked::Prefix(key)),
            "set" => store.set(&state, &key, &spelled(second)),
            "delete" => store.delete(&state, &key),
            "commit" => store.commit(&state),
            "rollback" => store.rollback(&state),
            _ => panic!("no such word: {name}"),
        };
        self.changed(answer)
    }

    fn call(&mut self, name: &str, first: &str, second: &str) -> Given {
        if self.is_bad_request() {
            return Err(BAD_REQUEST);
        }
        if let Some(answer) = self.call_engine(name, first, second) {
            return answer;
        }
        self.call_free(name, first, second).unwrap_or_else(|| self.call_held(name, first, second))
    }

    /// One item between commas: what is said of it if it is the last.
    pub fn item(&mut self, item: &str) -> String {
        let mut words = item.split(' ');
        let name = words.next().expect("a word");
        let (first, second) = (words.next().unwrap_or(""), words.next().unwrap_or(""));
        let n = number(first);
        if self.lend(name, n) || self.hold(name, n) || self.bound(name, spelled(first)) {
            return String::new();
        }
        assert!(self.unopened.is_none() || name == "open", "only an opening reads what no call has laid");
        let gives_handle = ["begin", "read-only", "as-of", "resume"].contains(&name);
        match self.call(name, first, second) {
            Ok((text, hand)) => {
                let handle = hand.as_ref().map_or(String::new(), handle_words);
                if let Some(hand) = hand {
                    self.setting.hands[self.setting.hand] = hand;
                }
                format!(": 0{text}{handle}")
            }
            Err(number) => {
                self.number = number;
                let handle = if gives_handle { handle_words(&Hand::blank()) } else { String::new() };
                format!(": {number}, nothing changed{handle}")
            }
        }
    }
}
