//! The same tapes on toydb and on our bench program: the answers byte for byte.

use crate::ours;
use crate::report::{Report, hex};
use crate::scratch;
use crate::tape::{RECORD, run};
use crate::tapes::{KINDS, tape};

fn differ(bench: &str, tape: &[u8]) -> bool {
    run(tape, &scratch()).answers != ours::run(bench, tape)
}

/// Records left out one after the other, as long as the rest still differs.
fn smallest(bench: &str, tape: &[u8]) -> Vec<u8> {
    let mut records: Vec<&[u8]> = tape.chunks(RECORD).collect();
    let mut i = records.len();
    while i > 0 {
        i -= 1;
        let mut fewer = records.clone();
        fewer.remove(i);
        if differ(bench, &fewer.concat()) {
            records = fewer;
        }
    }
    records.concat()
}

fn first_difference(ours: &[u8], theirs: &[u8]) -> String {
    let at = ours.chunks(RECORD).zip(theirs.chunks(RECORD)).position(|(a, b)| a != b);
    let show = |answers: &[u8], i: usize| answers.chunks(RECORD).nth(i).map_or("nothing".to_string(), hex);
    let i = at.unwrap_or(ours.len().min(theirs.len()) / RECORD);
    format!("answer {i}:\n  ours  {}\n  toydb {}", show(ours, i), show(theirs, i))
}

fn compare_one(bench: &str, kind: &str, seed: u64, report: &mut Report) {
    let bytes = tape(kind, seed);
    let theirs = run(&bytes, &scratch());
    let ours = ours::run(bench, &bytes);
    report.count("tapes", 1);
    report.count("records", bytes.len() / RECORD);
    report.count("answers", theirs.answers.len() / RECORD);
    report.rules(&theirs.rules);
    for answer in theirs.answers.chunks(RECORD) {
        report.number(answer[0]);
    }
    if theirs.answers != ours {
        // One smallest tape tells most; to find it takes many runs.
        let least = if report.differences == 0 { smallest(bench, &bytes) } else { bytes };
        let records: Vec<String> = least.chunks(RECORD).map(hex).collect();
        let what = first_difference(&ours::run(bench, &least), &run(&least, &scratch()).answers);
        report.differs(&format!("tape '{kind}' seed {seed}:\n  {}\n{what}", records.join("\n  ")));
    }
}

pub fn compare(bench: &str, n: u64) -> bool {
    let mut report = Report::default();
    for seed in 1..=n {
        for kind in KINDS {
            compare_one(bench, kind, seed, &mut report);
        }
    }
    compare_one(bench, "empty", 0, &mut report);
    report.say(&format!("tapes, seeds 1 to {n}"))
}
