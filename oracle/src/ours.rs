//! Our programs, run as they are: bytes on standard input, bytes from standard output.

use std::io::Write as _;
use std::process::{Command, Stdio};

pub fn run(program: &str, input: &[u8]) -> Vec<u8> {
    let mut child = Command::new(program)
        .stdin(Stdio::piped())
        .stdout(Stdio::piped())
        .spawn()
        .unwrap_or_else(|e| panic!("{program} does not start: {e}"));
    let mut stdin = child.stdin.take().expect("a pipe");
    let input = input.to_vec();
    let writer = std::thread::spawn(move || stdin.write_all(&input));
    let output = child.wait_with_output().expect("its output");
    // A program may end before it has read everything; then its answers tell.
    let _ = writer.join().expect("the writer");
    assert!(output.status.success(), "{program} ended with {}", output.status);
    output.stdout
}
