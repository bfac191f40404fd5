//! Ours, for the bench: crate timing's function out of the archive that `rt lib` writes in crates/timing, on buffers that this program lends. The
//! request stands on standard input as `oracle timing` takes it; the sum goes to standard output.

use std::io::Read as _;

unsafe extern "C" {
    fn tjaldrum_timing(
        call: u64,
        times: u64,
        others: u64,
        count: u64,
        skip: usize,
        absent: u64,
        log: *mut u8,
        log_len: usize,
        used: usize,
        table: *mut u32,
        table_len: usize,
        target: *mut u8,
        target_len: usize,
    ) -> u64;
}

/// Bytes past the log's, for what the calls append.
const ROOM: usize = 500_000;

/// Slots past the keys', for the versions and marks that the calls add.
const SLOTS: usize = 5_000;

fn main() {
    let mut input = Vec::new();
    std::io::stdin().read_to_end(&mut input).expect("a request");
    let number = |i: usize| u64::from_be_bytes(input[8 * i..8 * i + 8].try_into().expect("eight bytes"));
    let (call, times, others, count, skip, absent) = (number(0), number(1), number(2), number(3), number(4), number(5));
    let mut log = input[48..].to_vec();
    let used = log.len();
    log.resize(used + ROOM, 0);
    let mut target = vec![0u8; log.len()];
    let mut table = vec![0u32; 3 * (count as usize + SLOTS)];
    // SAFETY: the three buffers are of this program alone, and as long as they are said to be.
    let sum = unsafe {
        tjaldrum_timing(
            call,
            times,
            others,
            count,
            skip as usize,
            absent,
            log.as_mut_ptr(),
            log.len(),
            used,
            table.as_mut_ptr(),
            table.len(),
            target.as_mut_ptr(),
            target.len(),
        )
    };
    println!("{sum}");
}
