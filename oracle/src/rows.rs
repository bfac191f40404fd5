//! Requests on typed keys for the program of crate catalogue, with the answers that toydb's keycode gives.

use crate::keys::{all, spoil};
use crate::lines::Request;
use crate::random::Random;
use crate::report::hex;
use crate::row::{BAD_TEXT, Field, KINDS, Kind, decoded, encoded, shown};
use crate::store::BAD_REQUEST;

/// Fields at most, and what stands in the buffer before.
const MOST: usize = 8;
const BEFORE: u8 = 0xaa;

/// The program writes a request again before its answer.
fn asked(line: String, number: u8, answer: &str) -> Request {
    let answer = format!("{line}: {number} {answer}");
    Request { line, answer, number }
}

/// A field of a request: one that toydb has, or a string that is none.
pub enum Word {
    Field(Field),
    BadText(Vec<u8>),
}

impl Word {
    fn spelled(&self) -> String {
        match self {
            Word::Field(field) => field.word(),
            Word::BadText(bytes) => format!("s{}", hex(bytes)),
        }
    }
}

/// Encoding: 13 over eight fields, 15 for a string that is not UTF-8, then 13 for a buffer too short. What toydb's types cannot hold is
/// judged here; every encoding is toydb's.
pub fn encode(words: &[Word], room: usize) -> Request {
    let fields: Option<Vec<Field>> = words.iter().map(|w| if let Word::Field(f) = w { Some(f.clone()) } else { None }).collect();
    let (number, mut bytes) = match fields {
        _ if words.len() > MOST => (BAD_REQUEST, Vec::new()),
        None => (BAD_TEXT, Vec::new()),
        Some(fields) => match encoded(&fields) {
            bytes if bytes.len() > room => (BAD_REQUEST, Vec::new()),
            bytes => (0, bytes),
        },
    };
    let len = bytes.len();
    bytes.resize(room, BEFORE);
    let line: String = words.iter().map(|w| format!(" {}", w.spelled())).collect();
    let buffer = if bytes.is_empty() { "-".to_string() } else { hex(&bytes) };
    asked(format!("encode {room}{line}"), number, &format!("{len:04x} {buffer}"))
}

pub fn encode_row(fields: &[Field], room: usize) -> Request {
    encode(&fields.iter().cloned().map(Word::Field).collect::<Vec<_>>(), room)
}

/// Decoding: the number too is toydb's, save that of over eight kinds.
pub fn decode(kinds: &[Kind], key: &[u8]) -> Request {
    let letters: String = kinds.iter().map(|k| format!(" {}", k.letter())).collect();
    let line = format!("decode {}{letters}", if key.is_empty() { "-".to_string() } else { hex(key) });
    let result = if kinds.len() > MOST { Err(BAD_REQUEST) } else { decoded(kinds, key) };
    match result {
        Ok(fields) => asked(line, 0, &format!("{:04x}{}", fields.len(), shown(&fields))),
        Err(number) => asked(line, number, "0000"),
    }
}

/// First and last bytes of the ranges of UTF-8, and their neighbours.
const EDGES: [u8; 23] = [
    0x41, 0x7f, 0x80, 0x8f, 0x90, 0x9f, 0xa0, 0xbf, 0xc1, 0xc2, 0xdf, 0xe0, 0xe1, 0xec, 0xed, 0xee, 0xef, 0xf0, 0xf1, 0xf3, 0xf4,
    0xf5, 0xff,
];

/// Every string of two bytes, every one of three bytes at the edges and of four behind a byte that begins four; every boolean; every
/// byte behind a 00; every beginning of a row of all kinds, and every byte behind it.
pub fn exhaustive() -> Vec<Request> {
    let mut out = Vec::new();
    let mut text = |bytes: &[u8]| out.push(decode(&[Kind::Text], &[bytes, &[0, 0]].concat()));
    for a in 0..=255 {
        for b in 0..=255 {
            text(&[a, b]);
        }
    }
    for bytes in all(&EDGES, 3) {
        text(&bytes);
        for first in [0xf0, 0xf1, 0xf3, 0xf4, 0xf5] {
            text(&[&[first], bytes.as_slice()].concat());
        }
    }
    for b in 0..=255 {
        out.push(decode(&[Kind::Flag], &[b]));
        out.push(decode(&[Kind::Text, Kind::Flag], &[0xc0, 0, b, 0, 0, b]));
        out.push(decode(&[Kind::Bytes, Kind::Flag], &[0xc0, 0, b, 0, 0, b]));
    }
    let row = [
        Field::Flag(true),
        Field::Unsigned(7),
        Field::Signed(-2),
        Field::Float(2.0),
        Field::Bytes(vec![0x41, 0]),
        Field::Text("\0é".to_string()),
        Field::Bytes(vec![0xc3]),
        Field::Text(String::new()),
    ];
    let kinds: Vec<Kind> = row.iter().map(Field::kind).collect();
    let key = encoded(&row);
    for len in 0..=key.len() {
        out.push(decode(&kinds, &key[..len]));
        out.push(encode_row(&row, len));
    }
    for b in 0..=255 {
        out.push(decode(&kinds, &[key.as_slice(), &[b]].concat()));
    }
    out
}

fn signed(random: &mut Random) -> i64 {
    match random.below(4) {
        0 => *random.pick(&[0, 1, -1, i64::MIN, i64::MAX, i64::MIN + 1, i64::MAX - 1]),
        1 => random.below(600) as i64 - 300,
        2 => (random.next() as i64) >> random.below(64),
        _ => random.next() as i64,
    }
}

/// Zeros, subnormals, infinities and NaNs, quiet and signaling, of either sign, and numbers between.
fn float(random: &mut Random) -> f64 {
    let sign = (random.below(2) as u64) << 63;
    let bits = match random.below(6) {
        0 => *random.pick(&[0, 1, 2, (1 << 52) - 1, 1 << 52, 0x3ff0_0000_0000_0000, 0x7fef_ffff_ffff_ffff]),
        1 => 0x7ff0_0000_0000_0000,
        2 => 0x7ff0_0000_0000_0000 | 1 << random.below(52),
        3 => (random.below(40) as f64 / 8.0).to_bits(),
        4 => random.next() >> (1 + random.below(60)),
        _ => random.next() >> 1,
    };
    f64::from_bits(sign | bits)
}

fn bytes(random: &mut Random) -> Vec<u8> {
    let len = if random.percent(3) { random.below(200) } else { random.below(12) };
    (0..len).map(|_| if random.percent(60) { *random.pick(&[0, 0xff, 1, b'a']) } else { random.next() as u8 }).collect()
}

/// Characters of every length, the first and last of each among them.
fn text(random: &mut Random) -> String {
    let edges = ['\0', '\u{1}', 'a', '\u{7f}', '\u{80}', '\u{7ff}', '\u{800}', '\u{d7ff}', '\u{e000}', '\u{ffff}', '\u{10000}'];
    let len = if random.percent(3) { random.below(50) } else { random.below(8) };
    let any = |random: &mut Random| loop {
        if let Some(c) = char::from_u32((random.next() as u32 & 0x1f_ffff) >> random.below(21)) {
            return c;
        }
    };
    (0..len).map(|_| if random.percent(60) { *random.pick(&edges) } else { any(random) }).collect()
}

fn field(random: &mut Random, kind: Kind) -> Field {
    match kind {
        Kind::Flag => Field::Flag(random.percent(50)),
        Kind::Unsigned => Field::Unsigned(signed(random) as u64),
        Kind::Signed => Field::Signed(signed(random)),
        Kind::Float => Field::Float(float(random)),
        Kind::Bytes => Field::Bytes(bytes(random)),
        Kind::Text => Field::Text(text(random)),
    }
}

/// Rows of the same kinds; half of them differ from the one before in one field, so that the later fields decide the order too.
pub fn batch(random: &mut Random, n: usize) -> Vec<Vec<Field>> {
    let kinds: Vec<Kind> = (0..random.below(MOST + 1)).map(|_| *random.pick(&KINDS)).collect();
    let mut rows: Vec<Vec<Field>> = Vec::new();
    for i in 0..n {
        let mut row: Vec<Field> = kinds.iter().map(|k| field(random, *k)).collect();
        if i > 0 && !kinds.is_empty() && random.percent(50) {
            let at = random.below(kinds.len());
            let new = row[at].clone();
            row = rows[i - 1].clone();
            row[at] = new;
        }
        rows.push(row);
    }
    rows
}

/// A string that is not UTF-8, most often by one byte.
fn bad_text(random: &mut Random) -> Vec<u8> {
    loop {
        let mut bytes = text(random).into_bytes();
        bytes.insert(random.below(bytes.len() + 1), *random.pick(&EDGES));
        if String::from_utf8(bytes.clone()).is_err() {
            return bytes;
        }
    }
}

/// What is asked of a row beside its encoding: no room, a bad string, too many fields; its key, and the key damaged or cut.
pub fn around(random: &mut Random, row: &[Field]) -> Vec<Request> {
    let kinds: Vec<Kind> = row.iter().map(Field::kind).collect();
    let mut key = encoded(row);
    let mut out = vec![decode(&kinds, &key)];
    let mut words: Vec<Word> = row.iter().cloned().map(Word::Field).collect();
    match random.below(4) {
        0 => words.insert(random.below(words.len() + 1), Word::BadText(bad_text(random))),
        1 => (0..random.below(6)).for_each(|_| words.push(Word::Field(Field::Flag(true)))),
        _ => {}
    }
    out.push(encode(&words, random.below(key.len() + 12)));
    for _ in 0..1 + random.below(2) {
        spoil(random, &mut key);
    }
    out.push(decode(&kinds, &key));
    let mut other = kinds.clone();
    other.push(*random.pick(&KINDS));
    out.push(decode(&other, &key));
    out
}
