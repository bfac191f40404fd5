//! Keys and logs: our exported functions, through their driver, beside toydb.

use crate::report::Report;
use crate::{keys, lines, logs, scratch};

/// Requests of one seed.
const BATCH: usize = 200;

pub fn compare(driver: &str, n: u64) -> bool {
    let mut report = Report::default();
    lines::compare(driver, "keys, all small ones", &keys::exhaustive(), &mut report);
    for seed in 1..=n {
        lines::compare(driver, &format!("keys, seed {seed}"), &keys::random(seed, BATCH), &mut report);
    }
    let keys_fine = report.say(&format!("keys, all small ones and seeds 1 to {n}"));

    let mut report = Report::default();
    lines::compare(driver, "logs, all small ones", &logs::exhaustive(&scratch()), &mut report);
    for seed in 1..=n {
        lines::compare(driver, &format!("logs, seed {seed}"), &logs::random(seed, BATCH, &scratch()), &mut report);
    }
    report.say(&format!("logs, all of two small entries and seeds 1 to {n}")) && keys_fine
}
