//! What was compared and what differed, said once for every part.

use std::collections::BTreeMap;

#[derive(Default)]
pub struct Report {
    pub counts: BTreeMap<String, u64>,
    pub rules: BTreeMap<&'static str, u64>,
    pub numbers: BTreeMap<u8, u64>,
    pub differences: u64,
}

impl Report {
    pub fn count(&mut self, what: &str, n: usize) {
        *self.counts.entry(what.to_string()).or_default() += n as u64;
    }

    pub fn number(&mut self, n: u8) {
        *self.numbers.entry(n).or_default() += 1;
    }

    pub fn rules(&mut self, rules: &BTreeMap<&'static str, u64>) {
        for (name, n) in rules {
            *self.rules.entry(name).or_default() += n;
        }
    }

    /// The first ones are printed; the count has all.
    pub fn differs(&mut self, text: &str) {
        self.differences += 1;
        if self.differences <= 20 {
            println!("DIFFERENCE {text}");
        }
    }

    /// One paragraph for the part; whether nothing differed.
    pub fn say(&self, part: &str) -> bool {
        let list = |map: Vec<String>| map.join(", ");
        let counts = list(self.counts.iter().map(|(what, n)| format!("{n} {what}")).collect());
        println!("{part}: {counts}; {} differences", self.differences);
        if !self.numbers.is_empty() {
            println!("    numbers: {}", list(self.numbers.iter().map(|(k, n)| format!("{k} x {n}")).collect()));
        }
        if !self.rules.is_empty() {
            println!("    listed differences met: {}", list(self.rules.iter().map(|(k, n)| format!("{k} x {n}")).collect()));
        }
        self.differences == 0
    }
}

pub fn hex(bytes: &[u8]) -> String {
    bytes.iter().map(|b| format!("{b:02x}")).collect()
}
