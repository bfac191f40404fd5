//! Typed keys: the program of crate catalogue beside toydb's keycode. Encodings, decodings and refusals line for line, and our encodings
//! of rows sorted as the rows are.

use std::cmp::Ordering;

use crate::lines::{self, Request};
use crate::random::Random;
use crate::report::Report;
use crate::row::{Field, compare as compare_rows, encoded};
use crate::rows;

/// Rows of one seed.
const BATCH: usize = 100;

/// The encoding that an answer has.
fn encoding(answer: &str) -> Option<&str> {
    let (number, rest) = answer.split_once(": ")?.1.split_once(' ')?;
    let (len, buffer) = rest.split_once(' ')?;
    let len = usize::from_str_radix(len, 16).ok()?;
    (number == "0").then_some(buffer.get(..2 * len)).flatten()
}

/// Hex digits sort as the bytes do. Rows that are equal have equal keys.
fn sorted(what: &str, batch: &[Vec<Field>], ours: &[&str], report: &mut Report) {
    let keys: Vec<&str> = ours.iter().map(|answer| encoding(answer).unwrap_or("no key")).collect();
    let mut order: Vec<usize> = (0..batch.len()).collect();
    order.sort_by(|i, j| keys[*i].cmp(keys[*j]));
    for pair in order.windows(2) {
        let (by_rows, by_keys) = (compare_rows(&batch[pair[0]], &batch[pair[1]]), keys[pair[0]].cmp(keys[pair[1]]));
        report.count("pairs in order", 1);
        if by_rows != by_keys || by_rows == Ordering::Greater {
            report.differs(&format!("{what}: sorted otherwise\n  {:?}\n  {:?}", batch[pair[0]], batch[pair[1]]));
        }
    }
}

fn compare_seed(program: &str, seed: u64, report: &mut Report) {
    let what = format!("rows, seed {seed}");
    let mut random = Random::new(seed);
    let batch = rows::batch(&mut random, BATCH);
    let mut requests: Vec<Request> =
        batch.iter().map(|row| rows::encode_row(row, encoded(row).len() + random.below(3))).collect();
    for row in &batch {
        requests.extend(rows::around(&mut random, row));
    }
    let output = lines::compare(program, &what, &requests, report);
    let ours: Vec<&str> = output.lines().take(batch.len()).collect();
    report.count("rows", batch.len());
    sorted(&what, &batch, &ours, report);
}

pub fn compare(program: &str, n: u64) -> bool {
    let mut report = Report::default();
    lines::compare(program, "rows, all small ones", &rows::exhaustive(), &mut report);
    for seed in 1..=n {
        compare_seed(program, seed, &mut report);
    }
    report.say(&format!("rows, all small ones and seeds 1 to {n}"))
}
