//! Runs toydb's own files beside ours. Every part prints what it compared and every difference, and the exit status is 1 on any.
//!
//!   oracle tape [LOG]           a tape on standard input, toydb's answers on standard output; its log's bytes into the file LOG
//!   oracle script              a script on standard input, its lines with toydb's answers on standard output
//!   oracle record lines         a sample of scripts
//!   oracle record answers       the same with toydb's answers
//!   oracle timing SIDE          the calls of a bench request on standard input: SIDE is plain or toydb
//!   oracle bench PROGRAM [WORD]  the bench: crate timing under the program PROGRAM (lend.rs) beside the Rust; rows with a word alone
//!   oracle tapes BENCH N        N tapes of every kind, on toydb and on the program BENCH
//!   oracle calls PROGRAM N      N scripts of every kind, on toydb and on the program PROGRAM
//!   oracle host DRIVER N        keys and logs, all small ones and N seeds, on toydb and through the program DRIVER (host/driver.c)
//!   oracle rows PROGRAM N       typed keys, all small ones and N seeds of 100 rows, on toydb and on the program PROGRAM (crate catalogue)
//!   oracle listed PROGRAM DRIVER  the cases of docs/DIFFERENCES.md, on toydb by itself and on ours

mod bench;
mod bench_rows;
mod calls;
mod compare_calls;
mod compare_host;
mod compare_rows;
mod compare_tapes;
mod damage;
mod held;
mod keys;
mod line;
mod lines;
mod listed;
mod logs;
mod ours;
mod plain;
mod plot;
mod random;
mod record;
mod report;
mod row;
mod rows;
mod script;
mod spell;
mod steps;
mod store;
mod tape;
mod tapes;
mod timing;

use std::io::{Read as _, Write as _};
use std::path::PathBuf;

/// A log file of this process, in memory where the machine has such a place.
fn scratch() -> PathBuf {
    let shared = PathBuf::from("/dev/shm");
    let dir = if shared.is_dir() { shared } else { std::env::temp_dir() };
    dir.join(format!("oracle-{}.log", std::process::id()))
}

fn run_tape(log: Option<&String>) -> bool {
    let mut input = Vec::new();
    std::io::stdin().read_to_end(&mut input).expect("the tape");
    let ran = tape::run(&input, &scratch());
    std::io::stdout().write_all(&ran.answers).expect("the answers");
    if let Some(log) = log {
        std::fs::write(log, ran.log).expect("the log");
    }
    true
}

fn run_script() -> bool {
    let text = std::io::read_to_string(std::io::stdin()).expect("the script");
    print!("{}", script::Script::new(&scratch()).run(&text));
    true
}

fn main() {
    // Panics that are caught: a scan with crossed bounds in toydb, and a script that lost a line it leans on. No word of them.
    std::panic::set_hook(Box::new(|info| {
        let caught = ["BTree", "the log is shorter", "not there to lend", "leaves no store", "only an opening"];
        if !caught.iter().any(|text| info.to_string().contains(text)) {
            eprintln!("{info}");
        }
    }));
    let args: Vec<String> = std::env::args().skip(1).collect();
    let number = |i: usize| args.get(i).and_then(|n| n.parse().ok());
    let fine = match args.first().map(String::as_str) {
        Some("tape") => run_tape(args.get(1)),
        Some("script") => run_script(),
        Some("record") if args.len() == 2 => record::record(args[1] == "answers"),
        Some("timing") if args.len() == 2 => timing::run(&args[1]),
        Some("bench") if args.len() >= 2 => bench::bench(&args[1], args.get(2)),
        Some("tapes") if args.len() == 3 => compare_tapes::compare(&args[1], number(2).expect("a number")),
        Some("calls") if args.len() == 3 => compare_calls::compare(&args[1], number(2).expect("a number")),
        Some("host") if args.len() == 3 => compare_host::compare(&args[1], number(2).expect("a number")),
        Some("rows") if args.len() == 3 => compare_rows::compare(&args[1], number(2).expect("a number")),
        Some("listed") if args.len() == 3 => listed::compare(&args[1], &args[2]),
        _ => {
            eprintln!("oracle: see the head of src/main.rs for its calls");
            std::process::exit(2);
        }
    };
    for extension in ["log", "other", "new"] {
        let _ = std::fs::remove_file(scratch().with_extension(extension));
    }
    std::process::exit(if fine { 0 } else { 1 });
}
