//! The same scripts on toydb and on our program: the answers line for line.

use std::panic::{AssertUnwindSafe, catch_unwind};

use crate::calls::{KINDS, script};
use crate::ours;
use crate::report::Report;
use crate::scratch;
use crate::script::Script;

/// As much as our program reads at once.
const CHUNK: usize = 60_000;

fn text_of(lines: &[String]) -> String {
    lines.iter().map(|line| format!("{line}\n")).collect()
}

fn ours_of(program: &str, text: &str) -> String {
    String::from_utf8_lossy(&ours::run(program, text.as_bytes())).into_owned()
}

/// What both say of the last line, where they differ in it. Lines that toydb's side cannot follow are no case.
fn last_differs(program: &str, lines: &[String]) -> Option<(String, String)> {
    let text = text_of(lines);
    let theirs = catch_unwind(AssertUnwindSafe(|| Script::new(&scratch()).run(&text))).ok()?;
    let ours = ours_of(program, &text);
    let last = |answers: &str| answers.lines().last().unwrap_or("nothing").to_string();
    let (ours, theirs) = (last(&ours), last(&theirs));
    (ours != theirs).then_some((ours, theirs))
}

/// Lines before the last left out one after the other, as long as the last still differs.
fn smallest(program: &str, lines: &[String]) -> Vec<String> {
    let mut lines = lines.to_vec();
    for i in (0..lines.len().saturating_sub(1)).rev() {
        let mut fewer = lines.clone();
        fewer.remove(i);
        if last_differs(program, &fewer).is_some() {
            lines = fewer;
        }
    }
    lines
}

fn report_difference(program: &str, lines: &[String], ours: &str, theirs: &str, report: &mut Report) {
    // One smallest script tells most; to find it takes many runs.
    let least = if report.differences == 0 { smallest(program, lines) } else { Vec::new() };
    let (ours, theirs) = last_differs(program, &least).unwrap_or((ours.to_string(), theirs.to_string()));
    let before: String = least.iter().rev().skip(1).rev().map(|line| format!("  {line}\n")).collect();
    report.differs(&format!("calls, '{}'\n{before}  ours  {ours}\n  toydb {theirs}", lines[0]));
}

/// Scripts packed into one input of our program, each script whole.
fn compare_chunk(program: &str, scripts: &[Vec<String>], report: &mut Report) {
    let all: Vec<String> = scripts.iter().flatten().cloned().collect();
    let ours = ours_of(program, &text_of(&all));
    let mut answers = ours.lines();
    report.count("scripts", scripts.len());
    for lines in scripts {
        let mut theirs = Script::new(&scratch());
        for (i, line) in lines.iter().enumerate() {
            let (expected, answer) = (theirs.line(line), answers.next().unwrap_or("nothing"));
            if answer != expected {
                report_difference(program, &lines[..=i], answer, &expected, report);
            }
        }
        report.rules(&theirs.rules);
        for (number, n) in &theirs.numbers {
            *report.numbers.entry(*number).or_default() += n;
            report.count("calls", *n as usize);
        }
    }
}

pub fn compare(program: &str, n: u64) -> bool {
    let mut report = Report::default();
    let mut waiting = Vec::new();
    let mut size = 0;
    for seed in 1..=n {
        for kind in KINDS {
            let lines = script(kind, seed, &scratch());
            let len = text_of(&lines).len();
            if size + len > CHUNK {
                compare_chunk(program, &waiting, &mut report);
                waiting.clear();
                size = 0;
            }
            size += len;
            waiting.push(lines);
        }
    }
    compare_chunk(program, &waiting, &mut report);
    report.say(&format!("calls, seeds 1 to {n}"))
}
