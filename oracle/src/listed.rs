//! Every difference that docs/DIFFERENCES.md lists and a run can show: what toydb does by itself, with nothing judged around it, and what
//! ours answers to the same. Each side is compared with what the row says.

use std::collections::BTreeSet;
use std::panic::{AssertUnwindSafe, catch_unwind};

use toydb::encoding::{Key as _, keycode};
use toydb::storage::Engine as _;
use toydb::storage::bitcask::BitCask;
use toydb::storage::mvcc::{Key, MVCC, TransactionState};

use crate::ours;
use crate::report::Report;
use crate::scratch;

/// toydb on a new file.
fn engine() -> BitCask {
    let _ = std::fs::remove_file(scratch());
    BitCask::new(scratch()).expect("a new file opens")
}

fn store() -> MVCC<BitCask> {
    MVCC::new(engine())
}

/// A store with records laid by hand.
fn laid(records: &[(&[u8], &[u8])]) -> MVCC<BitCask> {
    let mut file = engine();
    for (key, value) in records {
        file.set(key, value.to_vec()).expect("a set");
    }
    MVCC::new(file)
}

fn numbers(versions: &[u64]) -> Vec<u8> {
    versions.iter().flat_map(|v| v.to_be_bytes()).collect()
}

fn kind(error: toydb::error::Error) -> String {
    format!("{error:?}").split('(').next().expect("a name").to_string()
}

fn said<T: std::fmt::Debug>(result: toydb::error::Result<T>) -> String {
    result.map_or_else(kind, |value| format!("{value:?}"))
}

/// Keys.
fn long_key() -> String {
    format!("{} bytes", Key::Unversioned(vec![b'k'; 65].into()).encode().len())
}

fn owned_key() -> String {
    format!("{:?}", Key::NextVersion.encode())
}

fn owned_string() -> String {
    format!("{:?}", Key::decode(&[5, 0, 0]).expect("a key"))
}

fn prefix_range() -> String {
    format!("{:?}", keycode::prefix_range(b"a"))
}

fn empty_key() -> String {
    said(Key::decode(&[]))
}

/// The log.
fn growing_file() -> String {
    let mut file = engine();
    said(file.set(b"", vec![])) + &format!(", {} bytes", file.status().expect("a status").disk_size)
}

fn growing_map() -> String {
    let mut file = engine();
    for i in 0..1000u64 {
        file.set(&i.to_be_bytes(), vec![]).expect("a set");
    }
    format!("{} keys", file.status().expect("a status").keys)
}

fn cut_tail() -> String {
    std::fs::write(scratch(), [0]).expect("a byte");
    let mut file = BitCask::new(scratch()).expect("it opens");
    format!("{} bytes", file.status().expect("a status").disk_size)
}

fn any_log_opens() -> String {
    std::fs::write(scratch(), b"no entry at all").expect("bytes");
    format!("opened: {}", BitCask::new(scratch()).is_ok())
}

fn new_file() -> String {
    use std::os::unix::fs::MetadataExt as _;
    let mut file = engine();
    let place = || std::fs::metadata(scratch()).expect("a file").ino();
    let before = place();
    file.compact().expect("a compaction");
    format!("another file: {}", place() != before)
}

fn threshold() -> String {
    let mut file = engine();
    file.set(b"a", b"x".to_vec()).and_then(|()| file.set(b"a", b"y".to_vec())).expect("two sets");
    drop(file);
    let mut file = BitCask::new_maybe_compact(scratch(), 0.1, 1).expect("it opens");
    format!("{} bytes", file.status().expect("a status").disk_size)
}

fn iterator() -> String {
    let mut file = engine();
    file.set(b"a", vec![]).and_then(|()| file.set(b"b", vec![])).expect("two sets");
    format!("{} pairs", file.scan(..).count())
}

fn crossed_engine() -> String {
    let mut file = engine();
    file.set(b"c", vec![]).expect("a set");
    format!("panics: {}", catch_unwind(AssertUnwindSafe(|| file.scan(b"b".to_vec()..=b"a".to_vec()).count())).is_err())
}

/// Transactions.
fn many_open() -> String {
    let store = store();
    let open: Vec<_> = (0..17).map(|_| store.begin().expect("a begin")).collect();
    format!("version {}", open.last().expect("seventeen").version())
}

fn long_user_key() -> String {
    said(store().begin().expect("a begin").set(&[b'k'; 65], vec![]))
}

fn long_value() -> String {
    said(store().begin().expect("a begin").set(b"a", vec![b'v'; 4097]))
}

fn long_stored_key() -> String {
    let key = Key::Version(vec![b'k'; 65].into(), 0).encode();
    let store = laid(&[(&key, &[1])]);
    let t = store.begin_read_only().expect("a begin");
    format!("a key of {} bytes", t.scan(..).next().expect("a pair").expect("no error").0.len())
}

fn next_version(store: &MVCC<BitCask>) -> String {
    said(store.engine.lock().expect("the lock").get(&[0]).map(|v| v.map(|v| v.last().copied())))
}

fn begin_writes_first() -> String {
    let store = laid(&[(&[1], &[])]);
    let begun = store.begin().map(|t| t.version());
    format!("{}, NextVersion {}", said(begun), next_version(&store))
}

fn versions_spent() -> String {
    let store = laid(&[(&[0], &[0xff; 8])]);
    let version = store.begin().map(|t| t.version());
    format!("{}, NextVersion {}", said(version), next_version(&store))
}

fn next_version_0() -> String {
    said(laid(&[(&[0], &[0; 8])]).begin().map(|t| t.version()))
}

fn version_0() -> String {
    let store = laid(&[(&Key::TxnActive(0).encode(), &[])]);
    let state = TransactionState { version: 0, read_only: false, active: BTreeSet::new() };
    said(store.resume(state).and_then(|t| t.set(b"a", b"x".to_vec())))
}

fn snapshot_out_of_order() -> String {
    let store = laid(&[(&[0], &numbers(&[2])), (&Key::TxnActiveSnapshot(1).encode(), &numbers(&[2, 1]))]);
    said(store.begin_as_of(1).map(|t| t.state().active.clone()))
}

fn snapshot_of_17() -> String {
    let set: Vec<u64> = (1..18).collect();
    let store = laid(&[(&[0], &numbers(&[2])), (&Key::TxnActiveSnapshot(1).encode(), &numbers(&set))]);
    said(store.begin_as_of(1).map(|t| t.state().active.len()))
}

fn write_between_steps() -> String {
    let store = store();
    let t = store.begin().expect("a begin");
    t.set(b"a", b"x".to_vec()).expect("a set");
    let mut scan = t.scan(..);
    scan.next().expect("a pair").expect("no error");
    t.set(b"b", b"y".to_vec()).expect("a set");
    format!("the end: {}", scan.next().is_none())
}

fn damage_ahead() -> String {
    let store = store();
    let t = store.begin().expect("a begin");
    t.set(b"a", b"x".to_vec()).expect("a set");
    store.engine.lock().expect("the lock").set(b"\x04b", vec![]).expect("a set");
    said(t.scan(..).next().transpose().map(|_| "a pair"))
}

fn junk_behind() -> String {
    let store = store();
    let t = store.begin().expect("a begin");
    t.set(b"a", b"x".to_vec()).expect("a set");
    let key = [Key::Version(b"a".into(), 9).encode(), vec![0]].concat();
    store.engine.lock().expect("the lock").set(&key, vec![]).expect("a set");
    said(t.scan(..).next().transpose().map(|_| "a pair"))
}

fn crossed() -> String {
    let store = store();
    let t = store.begin().expect("a begin");
    t.set(b"c", vec![]).expect("a set");
    let scan = || t.scan(b"b".to_vec()..=b"a".to_vec()).next().is_none();
    format!("panics: {}", catch_unwind(AssertUnwindSafe(scan)).is_err())
}

fn one_error() -> String {
    let store = store();
    let state = TransactionState { version: 7, read_only: false, active: BTreeSet::new() };
    format!("{}, {}", said(store.begin_as_of(1).map(|_| ())), said(store.resume(state).map(|_| ())))
}

fn failed_rollback() -> String {
    let store = store();
    let t = store.begin().expect("a begin");
    store.engine.lock().expect("the lock").set(&[3, 0, 0, 0, 0, 0, 0, 0, 1], vec![]).expect("a set");
    // The transaction is moved into the call: it cannot be used again.
    said(t.rollback())
}

fn second_end() -> String {
    let store = store();
    let t = store.begin().expect("a begin");
    let copy = store.resume(t.state().clone()).expect("it is open");
    t.commit().expect("a commit");
    let used = || store.engine.lock().expect("the lock").status().expect("a status").disk_size;
    let before = used();
    format!("{}, {} bytes more", said(copy.commit()), used() - before)
}

fn toydb_case(name: &str) -> Option<fn() -> String> {
    Some(match name {
        "long key" => long_key,
        "owned key" => owned_key,
        "owned string" => owned_string,
        "prefix range" => prefix_range,
        "empty key" => empty_key,
        "growing file" => growing_file,
        "growing map" => growing_map,
        "cut tail" => cut_tail,
        "any log opens" => any_log_opens,
        "new file" => new_file,
        "threshold" => threshold,
        "iterator" => iterator,
        "crossed engine bounds" => crossed_engine,
        "many open" => many_open,
        "long user key" => long_user_key,
        "long value" => long_value,
        "long stored key" => long_stored_key,
        "begin writes first" => begin_writes_first,
        "versions spent" => versions_spent,
        "NextVersion 0" => next_version_0,
        "version 0" => version_0,
        "snapshot out of order" => snapshot_out_of_order,
        "snapshot of 17" => snapshot_of_17,
        "write between steps" => write_between_steps,
        "damage ahead" => damage_ahead,
        "junk behind the last version" => junk_behind,
        "crossed bounds" => crossed,
        "one error, as-of" | "one error, resume" => one_error,
        "failed rollback" => failed_rollback,
        "second end" => second_end,
        _ => return None,
    })
}

/// Runs the cases of listed.txt: paragraphs of four lines, the name, what toydb does, what ours is asked and answers.
pub fn compare(program: &str, driver: &str) -> bool {
    let mut report = Report::default();
    for paragraph in include_str!("../listed.txt").split("\n\n").filter(|p| !p.starts_with('#')) {
        let lines: Vec<&str> = paragraph.trim_end().lines().collect();
        let [name, theirs, asked, answer] = lines[..] else { panic!("four lines expected: {paragraph}") };
        let toydb = toydb_case(name).unwrap_or_else(|| panic!("no case '{name}'"))();
        let (by, line) = asked.split_once(": ").expect("who is asked");
        let out = ours::run(if by == "driver" { driver } else { program }, format!("{line}\n").as_bytes());
        let out = String::from_utf8_lossy(&out).trim_end().to_string();
        let ours = out.strip_prefix(&format!("{line}: ")).unwrap_or(&out);
        report.count("cases", 1);
        if theirs != format!("toydb: {toydb}") || answer != format!("answer: {ours}") {
            report.differs(&format!("'{name}' is not as listed\n  toydb {toydb}\n  ours  {line}: {ours}"));
        }
    }
    report.say("listed differences")
}
