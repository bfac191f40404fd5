//! Scripts of many kinds, each decided by its kind and seed: a history of calls with several handles, and cases from the store between them.
//! A case that appends is tried again with the room and the slots that it takes, and with one less.

use std::path::Path;

use crate::damage::damage;
use crate::random::Random;
use crate::script::{After, Script, Setting};
use crate::spell::word;

pub const KINDS: [&str; 14] = [
    "good",
    "conflicts",
    "odd keys",
    "long values",
    "many open",
    "forged handles",
    "snapshots",
    "damaged",
    "damaged scans",
    "walks",
    "tight",
    "cuts",
    "contents",
    "last versions",
];

/// Hands that a history takes its handles from; another is for cases that forge one.
const HISTORY: usize = 15;

/// A script under way.
struct Maker<'a> {
    random: Random,
    kind: &'a str,
    script: Script,
    now: Setting,
    keys: Vec<Vec<u8>>,
    /// The hands that hold a handle; those that hold a read-write one.
    filled: Vec<usize>,
    writers: Vec<usize>,
    lines: Vec<String>,
}

fn key(random: &mut Random, kind: &str) -> Vec<u8> {
    let few: [&[u8]; 4] = [b"a", b"b", b"ab", b"c"];
    let odd: [&[u8]; 12] =
        [b"", b"\x00", b"\x00\x00", b"\xff", b"\xff\xff", b"a", b"a\x00", b"a\x00\xff", b"a\x00b", b"a\xff", b"b", b"aa"];
    if random.percent(3) {
        let len = 63 + random.below(3);
        return vec![*random.pick(b"k\x00\xff"); len];
    }
    match kind {
        "odd keys" | "walks" => odd[random.below(12)].to_vec(),
        _ => few[random.below(4)].to_vec(),
    }
}

fn value(random: &mut Random, kind: &str) -> Vec<u8> {
    let sizes: &[usize] = match kind {
        "long values" => &[0, 1, 16, 17, 200, 1000, 3000, 4095, 4096, 4097],
        "tight" => &[0, 10, 30, 60],
        _ => &[0, 1, 1, 2, 3, 16],
    };
    let len = *random.pick(sizes);
    // Long values have a period that is no power of two, so that a shift shows.
    let some: Vec<u8> = match random.percent(30) {
        true => random.bytes(len.min(7)),
        false => (0..len.min(7)).map(|_| b'p' + random.below(11) as u8).collect(),
    };
    some.iter().copied().cycle().take(len).collect()
}

impl Maker<'_> {
    fn key(&mut self) -> String {
        word(&key(&mut self.random, self.kind))
    }

    fn value(&mut self) -> String {
        word(&value(&mut self.random, self.kind))
    }

    /// A hand of the history, mostly one that can write.
    fn hand(&mut self) -> String {
        let hand = if self.random.percent(2) {
            self.random.below(HISTORY)
        } else if !self.writers.is_empty() && self.random.percent(70) {
            *self.random.pick(&self.writers)
        } else if !self.filled.is_empty() {
            *self.random.pick(&self.filled)
        } else {
            0
        };
        format!("hand {hand}")
    }

    /// A hand of the history, or a handle that no store gave.
    fn handle(&mut self) -> String {
        let forge = match self.kind {
            "forged handles" => 70,
            "damaged" | "damaged scans" => 20,
            _ => 3,
        };
        if self.random.percent(forge) { self.forged() } else { self.hand() }
    }

    fn forged(&mut self) -> String {
        let name = *self.random.pick(&["writer", "reader"]);
        let version = *self.random.pick(&[0, 1, 2, 2, 3, 3, 4, 5, 9, u64::MAX - 1, u64::MAX]);
        let mut text = format!("hand {HISTORY}, {name} {version}");
        for v in [0, 1, 2, 3, 4, 5, 6, u64::MAX] {
            if self.random.percent(15) {
                text.push_str(&format!(", with {v}"));
            }
        }
        text
    }

    fn bounds(&mut self) -> String {
        let mut text = String::new();
        let low = *self.random.pick(&["", "from", "above"]);
        let high = *self.random.pick(&["", "to", "below"]);
        for name in [low, high] {
            if !name.is_empty() {
                text.push_str(&format!("{name} {}, ", self.key()));
            }
        }
        text
    }

    fn step(&mut self) -> String {
        let handle = self.handle();
        let after = if self.random.percent(50) { format!("after {}, ", self.key()) } else { String::new() };
        if self.random.percent(60) {
            return format!("{handle}, {}{after}scan", self.bounds());
        }
        format!("{handle}, {after}scan-prefix {}", self.key())
    }

    fn held_call(&mut self) -> String {
        let handle = self.handle();
        let weights = if self.kind == "conflicts" { [10, 50, 20, 8, 6, 1] } else { [25, 30, 12, 10, 8, 4] };
        let call = match self.random.weighted(&weights) {
            0 => format!("get {}", self.key()),
            1 => format!("set {} {}", self.key(), self.value()),
            2 => format!("delete {}", self.key()),
            3 => "commit".to_string(),
            4 => "rollback".to_string(),
            _ => "resume".to_string(),
        };
        format!("{handle}, {call}")
    }

    fn free_call(&mut self) -> String {
        let weights = match self.kind {
            "snapshots" => [40, 5, 80, 2, 2, 5, 1],
            "tight" => [40, 2, 2, 4, 8, 4, 40],
            _ => [40, 12, 15, 8, 8, 6, 4],
        };
        let hand = self.random.below(HISTORY);
        match self.random.weighted(&weights) {
            0 => format!("hand {hand}, begin"),
            1 => format!("hand {hand}, read-only"),
            2 => format!("hand {hand}, as-of {}", *self.random.pick(&[0, 1, 2, 3, 4, 5, 9, u64::MAX])),
            3 => format!("get-unversioned {}", self.key()),
            4 => format!("set-unversioned {} {}", self.key(), self.value()),
            5 => self.random.pick(&["status", "engine-status", "open"]).to_string(),
            _ => "compact".to_string(),
        }
    }

    fn call(&mut self) -> String {
        let weights = match self.kind {
            "many open" | "snapshots" => [60, 30, 10],
            _ => [25, 50, 25],
        };
        match self.random.weighted(&weights) {
            0 => self.free_call(),
            1 => self.held_call(),
            _ => self.step(),
        }
    }

    /// Which hands hold a handle after a call of the history.
    fn note(&mut self, items: &str, after: &After) {
        let hand = after.setting.hand;
        let is = |calls: &[&str]| calls.iter().any(|call| items.contains(call));
        if after.number != 0 || !is(&["begin", "read-only", "as-of", "commit", "rollback"]) {
            return;
        }
        // Now and then a handle stays in use after its end.
        if is(&["commit", "rollback"]) && self.random.percent(10) {
            return;
        }
        self.filled.retain(|h| *h != hand);
        self.writers.retain(|h| *h != hand);
        if is(&["begin", "read-only", "as-of"]) {
            self.filled.push(hand);
        }
        if is(&["begin"]) {
            self.writers.push(hand);
        }
    }

    /// A line of the history.
    fn history(&mut self, items: &str) {
        let after = self.script.run_items(&self.now, items);
        self.note(items, &after);
        self.lines.push(format!("> {items}"));
        self.now = after.setting;
        self.keys = after.keys;
    }

    /// A case, and where it appends its boundaries.
    fn case(&mut self, items: &str) {
        self.lines.push(items.to_string());
        let after = self.script.run_items(&self.now, items);
        let (lead, call) = items.rsplit_once(", ").map_or((String::new(), items), |(b, c)| (format!("{b}, "), c));
        let grown = after.setting.used().saturating_sub(self.now.used());
        if after.number != 0 || grown == 0 || self.random.percent(60) {
            return;
        }
        self.lines.push(format!("{lead}room {}, {call}", grown - 1));
        self.lines.push(format!("{lead}room {grown}, {call}"));
        let slots = after.keys.len().saturating_sub(self.keys.len());
        if slots > 0 {
            self.lines.push(format!("{lead}slots {}, {call}", slots - 1));
            self.lines.push(format!("{lead}slots {slots}, {call}"));
            self.lines.push(format!("{lead}room {}, slots {}, {call}", grown - 1, slots - 1));
        }
    }

    /// A few calls more in the history, and what the kind does to the store by hand.
    fn grow(&mut self) {
        let calls = 4 + self.random.below(12);
        for _ in 0..calls {
            let items = match (self.writers.len(), self.random.below(4)) {
                (0, _) | (1, 0) => format!("hand {}, begin", self.random.below(HISTORY)),
                _ => self.call(),
            };
            self.history(&items);
        }
        if self.kind == "many open" {
            for _ in 0..self.random.below(9) {
                let hand = self.random.below(HISTORY);
                self.history(&format!("hand {hand}, begin"));
            }
        }
        if ["many open", "snapshots", "damaged", "damaged scans"].contains(&self.kind) {
            for _ in 0..1 + self.random.below(3) {
                let items = damage(&mut self.random, self.kind);
                self.history(&items);
            }
        }
        if self.kind == "cuts" {
            let at = self.random.below(self.now.bytes.len() + 1);
            self.history(&format!("used {at}, open"));
        }
    }

    /// Every step of a scan to its end and once more.
    fn walk(&mut self) {
        let handle = self.handle();
        let bounds = self.bounds();
        let prefix = self.key();
        let by_prefix = self.random.percent(50);
        let mut after = String::new();
        for _ in 0..40 {
            let scan = if by_prefix { format!("{after}scan-prefix {prefix}") } else { format!("{bounds}{after}scan") };
            let line = format!("{handle}, {scan}");
            self.lines.push(line.clone());
            match self.script.run_items(&self.now, &line).pair {
                Some(last) => after = format!("after {}, ", word(&last)),
                None => return,
            }
        }
    }

    /// A call that shows something of the live records.
    fn look(&mut self) -> String {
        if self.keys.is_empty() || self.random.percent(50) {
            return "engine-status".to_string();
        }
        format!("engine-get {}", word(&self.random.pick(&self.keys).clone()))
    }

    /// Every live record; and what is left of the log, and of a compacted one, where it is cut or goes on with anything.
    fn contents(&mut self) {
        for key in self.keys.clone() {
            self.lines.push(format!("engine-get {}", word(&key)));
        }
        let compacted = self.script.run_items(&self.now, "compact").setting.bytes.len();
        for _ in 0..8 {
            let look = self.look();
            let at = self.random.below(self.now.bytes.len() + 1);
            self.lines.push(format!("used {at}, open, {look}"));
            self.lines.push(format!("used {at}, open, compact, {look}"));
            let at = self.random.below(compacted + 1);
            self.lines.push(format!("compact, used {at}, open, {look}"));
            let len = self.random.below(24);
            let junk: Vec<u8> = (0..len).map(|_| *self.random.pick(&[0, 0, 0, 0, 1, 2, 4, 0xff])).collect();
            self.lines.push(format!("raw {}, open, {look}", word(&junk)));
        }
    }

    fn cases(&mut self) {
        match self.kind {
            "walks" => (0..3).for_each(|_| self.walk()),
            "contents" => self.contents(),
            _ => {
                for _ in 0..10 {
                    let items = if self.kind == "damaged scans" { self.step() } else { self.call() };
                    self.case(&items);
                }
            }
        }
    }
}

/// The lines of a script.
pub fn script(kind: &str, seed: u64, path: &Path) -> Vec<String> {
    let nth = KINDS.iter().position(|k| *k == kind).expect("a kind") as u64;
    let mut maker = Maker {
        random: Random::new(seed * 64 + nth),
        kind,
        script: Script::new(path),
        now: Setting::empty(),
        keys: Vec::new(),
        filled: Vec::new(),
        writers: Vec::new(),
        lines: vec![format!("Seed {seed} of {kind}")],
    };
    match kind {
        "tight" => maker.history("room 700, target 700, slots 12"),
        "last versions" => {
            let next = u64::MAX - maker.random.below(6) as u64;
            maker.history(&format!("lay \"\\00\" \"#{next}\""));
        }
        _ => {}
    }
    for _ in 0..3 {
        maker.grow();
        maker.cases();
    }
    maker.lines
}
