//! Requests on keys for the driver of our exported functions, with the answers that toydb's keycode gives.

use toydb::encoding::Key as _;
use toydb::storage::mvcc::Key;

use crate::lines::{Request, request};
use crate::random::Random;
use crate::report::hex;
use crate::store::{BAD_REQUEST, BAD_STORE, KEY_TOO_LONG, MAX_KEY};

const FIELDS: usize = 25;

fn key_of(kind: u8, version: u64, user: &[u8]) -> Key<'_> {
    match kind {
        0 => Key::NextVersion,
        1 => Key::TxnActive(version),
        2 => Key::TxnActiveSnapshot(version),
        3 => Key::TxnWrite(version, user.into()),
        4 => Key::Version(user.into(), version),
        _ => Key::Unversioned(user.into()),
    }
}

/// Encoding: 4, then 13.
pub fn encode(kind: u8, version: u64, user: &[u8], room: usize) -> Request {
    let bytes = key_of(kind, version, user).encode();
    let has_version = (1..=4).contains(&kind);
    let has_user = kind >= 3;
    let answer = if has_user && user.len() > MAX_KEY {
        Err(KEY_TOO_LONG)
    } else if room < bytes.len() {
        Err(BAD_REQUEST)
    } else {
        Ok(bytes)
    };
    let (version, user) = (if has_version { version } else { 0 }, if has_user { user } else { &[] });
    request(&format!("encode {kind} {version} {} {room}", dash(user)), answer, room)
}

fn dash(bytes: &[u8]) -> String {
    if bytes.is_empty() { "-".to_string() } else { hex(bytes) }
}

/// Kind, version, and the user key; None where toydb cannot decode it or the user key is over the limit.
fn decoded(bytes: &[u8]) -> Option<(u8, u64, Option<Vec<u8>>)> {
    let (kind, version, user) = match Key::decode(bytes).ok()? {
        Key::NextVersion => (0, 0, None),
        Key::TxnActive(v) => (1, v, None),
        Key::TxnActiveSnapshot(v) => (2, v, None),
        Key::TxnWrite(v, user) => (3, v, Some(user.into_owned())),
        Key::Version(user, v) => (4, v, Some(user.into_owned())),
        Key::Unversioned(user) => (5, 0, Some(user.into_owned())),
    };
    user.as_ref().is_none_or(|u| u.len() <= MAX_KEY).then_some((kind, version, user))
}

/// Decoding; where it gives a user key, the unescaping of it too.
pub fn decode(bytes: &[u8], out: &mut Vec<Request>) {
    let Some((kind, version, user)) = decoded(bytes) else {
        out.push(request(&format!("decode {} {FIELDS}", dash(bytes)), Err(BAD_STORE), FIELDS));
        return;
    };
    let (mut place, mut len) = (0, 0);
    if let Some(user) = user {
        place = if kind == 3 { 9 } else { 1 };
        len = Key::Unversioned(user.as_slice().into()).encode().len() - 3;
        out.push(unescape(&bytes[place..place + len], 64));
    }
    let mut fields = vec![kind];
    for n in [version, place as u64, len as u64] {
        fields.extend(n.to_be_bytes());
    }
    out.push(request(&format!("decode {} {FIELDS}", dash(bytes)), Ok(fields), FIELDS));
}

/// Unescaping, as toydb decodes the string with a tag before it and its end behind it: 12, then 13.
pub fn unescape(escaped: &[u8], room: usize) -> Request {
    let whole = [&[5], escaped, &[0, 0]].concat();
    let answer = match decoded(&whole) {
        Some((5, _, Some(user))) if user.len() > room => Err(BAD_REQUEST),
        Some((5, _, Some(user))) => Ok(user),
        _ => Err(BAD_STORE),
    };
    request(&format!("unescape {} {room}", dash(escaped)), answer, room)
}

/// Every string up to a length over some bytes.
pub fn all(over: &[u8], len: usize) -> Vec<Vec<u8>> {
    let mut strings = vec![Vec::new()];
    let mut from = 0;
    for _ in 0..len {
        let to = strings.len();
        for i in from..to {
            for b in over {
                let mut longer: Vec<u8> = strings[i].clone();
                longer.push(*b);
                strings.push(longer);
            }
        }
        from = to;
    }
    strings
}

/// All keys to three bytes, all strings to five, every byte behind a 00, and the limits.
pub fn exhaustive() -> Vec<Request> {
    let mut out = Vec::new();
    for user in all(&[0, 1, b'a', 0xff], 3) {
        for kind in 3..6 {
            for version in [0, 1, 256, u64::MAX] {
                let len = key_of(kind, version, &user).encode().len();
                for room in [len - 1, len, len + 3] {
                    out.push(encode(kind, version, &user, room));
                }
                decode(&key_of(kind, version, &user).encode(), &mut out);
            }
        }
    }
    for kind in 0..3 {
        for version in [0, 1, 255, 256, 1 << 63, u64::MAX - 1, u64::MAX] {
            for room in [0, 1, 8, 9, 20] {
                out.push(encode(kind, version, b"", room));
            }
        }
    }
    for bytes in all(&[0, 1, 2, 3, 4, 5, 6, 0xff], 5) {
        decode(&bytes, &mut out);
    }
    for b in 0..=255 {
        decode(&[b], &mut out);
        decode(&[5, 0, b, 0, 0], &mut out);
        decode(&[3, 0, 0, 0, 0, 0, 0, 0, 1, b, 0, b, b'a', 0, 0], &mut out);
        out.push(unescape(&[b'a', 0, b], 64));
    }
    for escaped in all(&[0, 1, b'a', 0xff], 6) {
        out.push(unescape(&escaped, escaped.len() / 2));
        out.push(unescape(&escaped, 64));
    }
    out
}

/// A user key, often with bytes that are escaped, sometimes at the limit.
fn user(random: &mut Random) -> Vec<u8> {
    let len = match random.below(4) {
        0 => 62 + random.below(6),
        1 => random.below(64),
        _ => random.below(6),
    };
    (0..len).map(|_| if random.percent(60) { *random.pick(&[0, 0xff, 1, b'a']) } else { random.next() as u8 }).collect()
}

/// One byte altered, taken out or put in, or the end cut off.
pub fn spoil(random: &mut Random, bytes: &mut Vec<u8>) {
    match random.below(5) {
        0 => bytes.truncate(random.below(bytes.len() + 1)),
        1 => bytes.push(random.next() as u8),
        _ if bytes.is_empty() => {}
        2 => {
            let i = random.below(bytes.len());
            bytes[i] = *random.pick(&[0, 0xff, 0xfe, 1, 4, 5, 6]);
        }
        3 => {
            let i = random.below(bytes.len());
            bytes.remove(i);
        }
        _ => {
            let i = random.below(bytes.len());
            bytes.insert(i, 0);
        }
    }
}

/// Valid keys, damaged ones and random bytes.
pub fn random(seed: u64, n: usize) -> Vec<Request> {
    let mut random = Random::new(seed);
    let mut out = Vec::new();
    for _ in 0..n {
        let kind = random.below(6) as u8;
        let user = user(&mut random);
        let version = if random.percent(50) { random.next() } else { random.below(3) as u64 };
        let mut bytes = key_of(kind, version, &user).encode();
        let room = if random.percent(80) { 160 } else { random.below(150) };
        out.push(encode(kind, version, &user, room));
        decode(&bytes, &mut out);
        for _ in 0..1 + random.below(2) {
            spoil(&mut random, &mut bytes);
        }
        decode(&bytes, &mut out);
        let len = random.below(24);
        let mut junk = random.bytes(len);
        decode(&junk, &mut out);
        junk.retain(|b| b % 4 == 0 || *b == 0xff);
        out.push(unescape(&junk, random.below(24)));
    }
    out
}
