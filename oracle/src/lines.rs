//! Requests to the driver of our exported functions (host/driver.c has its lines), each with the answer that is expected.

use crate::ours;
use crate::report::{Report, hex};

pub struct Request {
    pub line: String,
    pub answer: String,
    pub number: u8,
}

/// Done with bytes at the front of the lent buffer, which is ff before; or a refusal that leaves it.
pub fn request(line: &str, answer: Result<Vec<u8>, u8>, room: usize) -> Request {
    let (number, bytes) = match answer {
        Ok(bytes) => (0, bytes),
        Err(number) => (number, Vec::new()),
    };
    let len = bytes.len();
    let mut buffer = bytes;
    buffer.resize(room, 0xff);
    answered(line, number, len as u64, &buffer)
}

pub fn answered(line: &str, number: u8, length: u64, buffer: &[u8]) -> Request {
    let buffer = if buffer.is_empty() { "-".to_string() } else { hex(buffer) };
    Request { line: line.to_string(), answer: format!("{number} {length} {buffer}"), number }
}

/// Runs all requests in one process; `what` names them and says how to make them again. Gives what ours answered.
pub fn compare(driver: &str, what: &str, requests: &[Request], report: &mut Report) -> String {
    let input: String = requests.iter().map(|r| r.line.clone() + "\n").collect();
    let output = String::from_utf8(ours::run(driver, input.as_bytes())).expect("lines of text");
    let mut answers = output.lines();
    report.count("requests", requests.len());
    for request in requests {
        report.number(request.number);
        let ours = answers.next().unwrap_or("nothing");
        if ours != request.answer {
            report.differs(&format!("{what}\n  {}\n  ours  {ours}\n  toydb {}", request.line, request.answer));
        }
    }
    if answers.next().is_some() {
        report.differs(&format!("{what}: more answers than requests"));
    }
    output
}
