//! The bench: calls on ours, on a plain in-memory version in Rust and on toydb over a file, by processor time and by instructions. Every side
//! is a process that is given the same bytes; what one call costs is what more calls take longer, over how many more they are.

use std::collections::HashMap;
use std::io::Write as _;
use std::process::{Command, Stdio};

use crate::bench_rows::{Before, Row, rows};
use crate::plot::{Line, plot};
use crate::timing::{Request, request};

/// Runs of each measurement; the shortest counts.
const RUNS: usize = 3;

/// One side, by its words.
struct Side {
    name: &'static str,
    words: Vec<String>,
}

/// What the system says of the children that have ended; the first four numbers are their user and system time.
#[repr(C)]
#[derive(Default)]
struct Usage([i64; 18]);

unsafe extern "C" {
    fn getrusage(who: i32, usage: *mut Usage) -> i32;
}

/// Seconds of processor time that children took so far. A machine that is busy with others does not change it much.
fn processor_time() -> f64 {
    let mut usage = Usage::default();
    // SAFETY: Linux fills these 144 bytes and no more.
    let status = unsafe { getrusage(-1, &mut usage) };
    assert_eq!(status, 0, "getrusage");
    let [user, user_micro, system, system_micro, ..] = usage.0;
    (user + system) as f64 + (user_micro + system_micro) as f64 / 1e6
}

/// Seconds, standard output and standard error.
fn run(words: &[String], input: &[u8]) -> (f64, String, String) {
    let start = processor_time();
    let mut child = Command::new(&words[0])
        .args(&words[1..])
        // valgrind counts an instruction that moves many bytes once for each of them: the C library is to move without it
        .env("GLIBC_TUNABLES", "glibc.cpu.x86_rep_movsb_threshold=100000000")
        .stdin(Stdio::piped())
        .stdout(Stdio::piped())
        .stderr(Stdio::piped())
        .spawn()
        .unwrap_or_else(|e| panic!("{} does not start: {e}", words[0]));
    let mut stdin = child.stdin.take().expect("a pipe");
    let bytes = input.to_vec();
    let writer = std::thread::spawn(move || stdin.write_all(&bytes));
    let output = child.wait_with_output().expect("its output");
    writer.join().expect("the writer").expect("the request is read");
    let text = |bytes: Vec<u8>| String::from_utf8_lossy(&bytes).trim().to_string();
    assert!(output.status.success(), "{} ended with {}", words[0], output.status);
    (processor_time() - start, text(output.stdout), text(output.stderr))
}

fn shortest(side: &Side, input: &[u8]) -> (f64, String) {
    let runs: Vec<_> = (0..RUNS).map(|_| run(&side.words, input)).collect();
    let least = runs.iter().map(|r| r.0).fold(f64::INFINITY, f64::min);
    (least, runs[0].1.clone())
}

/// The longest log on which toydb's instructions are counted, which takes minutes.
const LONGEST: usize = 1_000_000;

/// Instructions by valgrind, where the machine has it.
fn instructions(side: &Side, input: &[u8]) -> Option<f64> {
    let valgrind = ["valgrind", "--tool=cachegrind", "--cache-sim=no", "--cachegrind-out-file=/dev/null"];
    if side.name == "toydb" && input.len() > LONGEST {
        return None;
    }
    Command::new(valgrind[0]).arg("--version").stdout(Stdio::null()).status().ok()?;
    let words: Vec<String> = valgrind.iter().map(|w| w.to_string()).chain(side.words.clone()).collect();
    let (_, _, said) = run(&words, input);
    let line = said.lines().find(|line| line.contains("I   refs") || line.contains("I refs"))?;
    line.rsplit(' ').next()?.replace(',', "").parse().ok()
}

/// What a call costs: None where it could not be told.
#[derive(Clone)]
struct Cost {
    microseconds: Option<f64>,
    instructions: Option<f64>,
    sum: String,
}

/// Starting a process takes a millisecond, now more and now less: a difference that is no longer says nothing.
const LEAST_SECONDS: f64 = 0.002;

/// What a process costs that makes no call, by its side, the log and what begins before: the same for many rows.
type Bases = HashMap<(&'static str, &'static str, u64, Before, u64), (f64, Option<f64>)>;

fn cost(side: &Side, row: &Row, bases: &mut Bases) -> Cost {
    let input = |times: u64| {
        let (call, others, keys, shared, absent) = (row.call, row.others, row.keys, row.shared, row.absent);
        request(&Request { call, times, others, keys, shared, absent }, &row.log)
    };
    let first = || (shortest(side, &input(0)).0, instructions(side, &input(0)));
    let (base, counted) = *bases.entry((side.name, row.what, row.keys, row.before(), row.others)).or_insert_with(first);
    let (long, sum) = shortest(side, &input(row.times));
    let instructions = counted.zip(instructions(side, &input(row.counted)));
    Cost {
        microseconds: (long - base > LEAST_SECONDS).then(|| (long - base) * 1e6 / (row.times as f64 * row.calls())),
        instructions: instructions.map(|(a, b)| (b - a) / (row.counted as f64 * row.calls())),
        sum,
    }
}

/// The commit alone: what the sets with it cost over the sets without. Where that is too little to be told by time, its instructions are.
fn commit(set: &Cost, both: &Cost) -> Cost {
    let less = |a: Option<f64>, b: Option<f64>| a.zip(b).map(|(a, b)| a - b).filter(|d| *d > 0.0);
    let microseconds = less(both.microseconds, set.microseconds);
    Cost { microseconds, instructions: less(both.instructions, set.instructions), sum: both.sum.clone() }
}

fn grouped(n: f64) -> String {
    let digits = format!("{n:.0}");
    let bytes = digits.as_bytes();
    let parts: Vec<&str> = bytes.rchunks(3).rev().map(|c| std::str::from_utf8(c).expect("digits")).collect();
    parts.join(",")
}

/// Three digits of a time at least.
fn shown(n: f64) -> String {
    if n < 10.0 {
        format!("{n:.2}")
    } else if n < 100.0 {
        format!("{n:.1}")
    } else {
        grouped(n)
    }
}

/// A table of one measure, in Markdown.
fn table(title: &str, sides: &[Side], told: &[(Row, Vec<Cost>)], measure: fn(&Cost) -> Option<f64>, show: fn(f64) -> String) {
    println!("\n{title}\n");
    let names: String = sides.iter().map(|s| format!(" {} |", s.name)).collect();
    println!("| call | log | keys | bytes |{names} to plain | to toydb |\n|---|---|---|---|---|---|---|---|---|");
    for (row, costs) in told {
        let n: Vec<Option<f64>> = costs.iter().map(measure).collect();
        let each: String = n.iter().map(|n| format!(" {} |", n.map_or("-".to_string(), show))).collect();
        let ratio = |i: usize| n[0].zip(n[i]).map_or("-".to_string(), |(a, b)| format!("{:.2}", a / b));
        let (keys, bytes) = (grouped(row.keys as f64), grouped(row.log.len() as f64));
        println!("| {} | {} | {keys} | {bytes} |{each} {} | {} |", row.name, row.what, ratio(1), ratio(2));
    }
}

/// The opening of logs of one-write transactions over their number, into a file beside the bench's build.
fn draw(sides: &[Side], told: &[(Row, Vec<Cost>)]) {
    let line = |(i, side): (usize, &Side)| Line {
        name: side.name,
        colour: ["#b3261e", "#1b6e3c", "#1f4e9c"][i],
        points: told
            .iter()
            .filter(|(row, _)| row.what == "own, random")
            .filter_map(|(row, costs)| Some((row.keys as f64, costs[i].microseconds? / 1e3)))
            .collect(),
    };
    let lines: Vec<Line> = sides.iter().enumerate().map(line).collect();
    if lines.iter().all(|l| l.points.len() > 1) {
        let title = "Opening logs of one-write transactions, keys in no order, never compacted";
        std::fs::write("target/opening.svg", plot(title, &lines)).expect("the plot");
    }
}

/// Every row, or those whose call or log has a word.
pub fn bench(program: &str, only: Option<&String>) -> bool {
    let me = std::env::current_exe().expect("this program").display().to_string();
    let side = |name, words: &[&str]| Side { name, words: words.iter().map(|w| w.to_string()).collect() };
    let sides = [side("ours", &[program]), side("plain", &[&me, "timing", "plain"]), side("toydb", &[&me, "timing", "toydb"])];
    let mut fine = true;
    let mut told = Vec::new();
    let mut set = Vec::new();
    let mut bases = Bases::new();
    for row in rows() {
        if only.is_some_and(|word| !row.name.contains(word.as_str()) && !row.what.contains(word.as_str())) {
            continue;
        }
        let mut costs: Vec<Cost> = sides.iter().map(|s| cost(s, &row, &mut bases)).collect();
        if costs.iter().any(|c| c.sum != costs[0].sum) {
            fine = false;
            let sums: Vec<_> = costs.iter().map(|c| &c.sum).collect();
            println!("DIFFERENCE {} on {} at {} keys: the sums are {sums:?}", row.name, row.what, row.keys);
        }
        let both = costs.clone();
        if row.name == "commit, a write" {
            costs = set.iter().zip(&costs).map(|(s, both)| commit(s, both)).collect();
        }
        set = both;
        eprintln!("{} on {} at {} keys: {}", row.name, row.what, row.keys, costs[0].microseconds.map_or("-".to_string(), shown));
        told.push((row, costs));
    }
    draw(&sides, &told);
    let title = format!("Microseconds of processor time a call, the shortest of {RUNS} runs:");
    table(&title, &sides, &told, |c| c.microseconds, shown);
    table("Instructions a call, by valgrind, one run:", &sides, &told, |c| c.instructions, grouped);
    fine
}
