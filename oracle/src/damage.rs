//! Records laid into a store by hand, or taken out of it: those that a call must read and cannot, and those just beside.

use crate::random::Random;
use crate::spell::Spelling;

/// A version near those that a short history has.
fn version(random: &mut Random) -> u64 {
    *random.pick(&[0, 1, 1, 2, 2, 3, 3, 4, 5, 6, 7, 9, u64::MAX - 1, u64::MAX])
}

fn user(random: &mut Random) -> Vec<u8> {
    let keys: [&[u8]; 8] = [b"a", b"b", b"ab", b"c", b"", b"\x00", b"\xff", b"a\x00"];
    if random.percent(6) {
        let len = 63 + random.below(4);
        return vec![*random.pick(b"ka\x00"); len];
    }
    random.pick(&keys).to_vec()
}

fn escaped(key: &[u8]) -> Vec<u8> {
    key.iter().flat_map(|b| if *b == 0 { vec![0, 0xff] } else { vec![*b] }).collect()
}

fn tag(b: u8) -> Spelling {
    Spelling::default().bytes(&[b])
}

/// A Version record's key: whole, or with its string or its version spoilt.
fn version_key(random: &mut Random) -> Spelling {
    let body = tag(4).bytes(&escaped(&user(random)));
    let v = version(random);
    match random.below(14) {
        0 => body,
        1 => body.bytes(b"\x00"),
        2 => body.bytes(b"\x00\x01").number(v),
        3 => body.bytes(b"\x00\x00"),
        4 => body.bytes(b"\x00\x00\x00"),
        5 => body.bytes(b"\x00\x00").bytes(&v.to_be_bytes()[..7]),
        6 | 7 => body.bytes(b"\x00\x00").number(v).bytes(b"\x00"),
        8 => tag(4),
        _ => body.bytes(b"\x00\x00").number(v),
    }
}

fn write_key(random: &mut Random) -> Spelling {
    let body = tag(3).number(version(random));
    match random.below(6) {
        0 => body,
        1 => body.bytes(b"x"),
        2 => body.bytes(&escaped(&user(random))).bytes(b"\x00"),
        3 => body.bytes(&escaped(&user(random))).bytes(b"\x00\x00x"),
        _ => body.bytes(&escaped(&user(random))).bytes(b"\x00\x00"),
    }
}

fn numbers(random: &mut Random) -> String {
    let count = *random.pick(&[0, 1, 2, 3, 15, 16, 17]);
    let mut text = Spelling::default();
    let mut v = random.below(3) as u64;
    for _ in 0..count {
        text = text.number(v);
        v = if random.percent(5) { v.saturating_sub(1) } else { v + 1 + random.below(2) as u64 };
    }
    if random.percent(15) { text.bytes(b"x").word() } else { text.word() }
}

fn next_version(random: &mut Random) -> String {
    match random.below(6) {
        0 => "\"1234567\"".to_string(),
        1 => "\"123456789\"".to_string(),
        2 => "\"\"".to_string(),
        _ => Spelling::default().number(version(random)).word(),
    }
}

fn active_key(random: &mut Random) -> Spelling {
    let v = version(random);
    match random.below(6) {
        0 => tag(1),
        1 => tag(1).number(v).bytes(b"\x00"),
        2 => tag(1).bytes(b"x"),
        _ => tag(1).number(v),
    }
}

fn payload(random: &mut Random) -> &'static str {
    const PAYLOADS: [&str; 8] = [r#""""#, r#""\00""#, r#""\00x""#, r#""\01""#, r#""\01x""#, r#""\01yz""#, r#""\02""#, r#""\ff""#];
    PAYLOADS[random.below(8)]
}

/// A key of any kind, for a deletion.
fn any_key(random: &mut Random) -> Spelling {
    match random.below(5) {
        0 => tag(0),
        1 => tag(1).number(version(random)),
        2 => tag(2).number(version(random)),
        3 => write_key(random),
        _ => version_key(random),
    }
}

/// An item that damages a store where the kind of script looks.
pub fn damage(random: &mut Random, kind: &str) -> String {
    let versions = |random: &mut Random| format!("lay {} {}", version_key(random).word(), payload(random));
    match (kind, random.below(10)) {
        ("damaged scans", _) => versions(random),
        ("many open", _) => format!("lay {} \"\"", tag(1).number(20 + random.below(9) as u64).word()),
        ("snapshots", _) | (_, 2) => format!("lay {} {}", tag(2).number(version(random)).word(), numbers(random)),
        (_, 0) => format!("lay \"\\00\" {}", next_version(random)),
        (_, 1) => format!("lay {} {}", active_key(random).word(), payload(random)),
        (_, 3 | 4) => format!("lay {} {}", write_key(random).word(), payload(random)),
        (_, 5..=7) => versions(random),
        (_, 8) => format!("lay {} {}", random.pick(&["\"\"", "\"\\00x\"", "\"\\05\"", "\"\\06\"", "\"\\ff\""]), payload(random)),
        _ => format!("cut {}", any_key(random).word()),
    }
}
