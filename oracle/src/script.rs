//! The script language of our programs (docs/SCRIPT.md), run on toydb: lines of set-up words and calls, each written again with what its last
//! call answered. A case starts from the store that the lines before it left, and leaves that as it was; a line with > in front changes it.

use std::collections::BTreeMap;
use std::path::{Path, PathBuf};

use toydb::storage::Engine as _;

use crate::line::{Hand, Line};

/// What our program lends.
pub const LOG_BYTES: u64 = 16_384;
pub const TABLE_WORDS: u64 = 768;
pub const HANDS: usize = 16;

/// A store between two lines: its log's bytes, what is lent, and the handles.
#[derive(Clone)]
pub struct Setting {
    pub bytes: Vec<u8>,
    pub size: u64,
    pub words: u64,
    /// Bytes of the buffer that a compaction goes into.
    pub target: u64,
    pub hand: usize,
    pub hands: Vec<Hand>,
}

impl Setting {
    pub fn empty() -> Setting {
        Setting {
            bytes: Vec::new(),
            size: LOG_BYTES,
            words: TABLE_WORDS,
            target: LOG_BYTES,
            hand: 0,
            hands: vec![Hand::blank(); HANDS],
        }
    }

    pub fn used(&self) -> u64 {
        self.bytes.len() as u64
    }
}

/// What a line leaves: the words behind it, the last call's number, the store, its live keys, and the user key of a scan step.
pub struct After {
    pub text: String,
    pub number: u8,
    pub setting: Setting,
    pub keys: Vec<Vec<u8>>,
    pub pair: Option<Vec<u8>>,
}

pub struct Script {
    paths: [PathBuf; 2],
    given: Setting,
    pub rules: BTreeMap<&'static str, u64>,
    pub numbers: BTreeMap<u8, u64>,
}

impl Script {
    pub fn new(path: &Path) -> Script {
        let paths = [path.to_path_buf(), path.with_extension("other")];
        Script { paths, given: Setting::empty(), rules: BTreeMap::new(), numbers: BTreeMap::new() }
    }

    /// Runs items from a setting.
    pub fn run_items(&mut self, from: &Setting, items: &str) -> After {
        let mut line = Line::open(&self.paths, from);
        let (mut before, mut said) = (String::new(), String::new());
        for item in items.split(", ") {
            if line.number != 0 {
                before.push_str(" REFUSED BEFORE");
            }
            said = line.item(item);
        }
        for (name, n) in std::mem::take(&mut line.store.rules) {
            *self.rules.entry(name).or_default() += n;
        }
        line.setting.bytes = line.store.engine(|e| e.bytes());
        let keys = line.store.engine(|e| e.file.scan(..).map(|pair| pair.expect("a pair").0).collect());
        After { text: before + &said, number: line.number, setting: line.setting, keys, pair: line.pair }
    }

    fn case(&mut self, line: &str, items: &str) -> (String, Setting) {
        let given = self.given.clone();
        let after = self.run_items(&given, items);
        *self.numbers.entry(after.number).or_default() += 1;
        (format!("{line}{}", after.text), after.setting)
    }

    /// A line of a script, as our programs write it.
    pub fn line(&mut self, line: &str) -> String {
        if let Some(items) = line.strip_prefix("Given: ") {
            let after = self.run_items(&Setting::empty(), items);
            self.given = after.setting;
            let refused = if after.text.contains("REFUSED") || after.number != 0 { " REFUSED BEFORE" } else { "" };
            return format!("{line}{refused}");
        }
        if let Some(items) = line.strip_prefix("> ") {
            let (text, setting) = self.case(line, items);
            self.given = setting;
            return text;
        }
        match line.bytes().next() {
            Some(b'a'..=b'z') => self.case(line, line).0,
            Some(b'A'..=b'Z') => {
                self.given = Setting::empty();
                line.to_string()
            }
            _ => line.to_string(),
        }
    }

    pub fn run(&mut self, script: &str) -> String {
        script.lines().map(|line| self.line(line) + "\n").collect()
    }
}
