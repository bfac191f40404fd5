//! A row of fields whose kinds are named beforehand, through toydb's own keycode: a row is a tuple for its serializer, and for its
//! deserializer a tuple whose elements are asked for by kind.

use std::cell::RefCell;
use std::cmp::Ordering;
use std::fmt::Formatter;

use serde::de::{Deserialize, DeserializeSeed, Deserializer, Error as _, SeqAccess, Visitor};
use serde::ser::{Serialize, SerializeTuple as _, Serializer};
use toydb::encoding::keycode;
use toydb::error::Error;

use crate::report::hex;
use crate::store::BAD_STORE;

pub const BAD_FLAG: u8 = 14;
pub const BAD_TEXT: u8 = 15;

#[derive(Clone, Copy, Debug)]
pub enum Kind {
    Flag,
    Unsigned,
    Signed,
    Float,
    Bytes,
    Text,
}

pub const KINDS: [Kind; 6] = [Kind::Flag, Kind::Unsigned, Kind::Signed, Kind::Float, Kind::Bytes, Kind::Text];

impl Kind {
    /// The kind's letter in a request.
    pub fn letter(self) -> char {
        match self {
            Kind::Flag => 'b',
            Kind::Unsigned => 'u',
            Kind::Signed => 'i',
            Kind::Float => 'f',
            Kind::Bytes => 'y',
            Kind::Text => 's',
        }
    }
}

/// A float goes as its value: no pattern is made another on the way.
#[derive(Clone, Debug)]
pub enum Field {
    Flag(bool),
    Unsigned(u64),
    Signed(i64),
    Float(f64),
    Bytes(Vec<u8>),
    Text(String),
}

impl Field {
    pub fn kind(&self) -> Kind {
        match self {
            Field::Flag(_) => Kind::Flag,
            Field::Unsigned(_) => Kind::Unsigned,
            Field::Signed(_) => Kind::Signed,
            Field::Float(_) => Kind::Float,
            Field::Bytes(_) => Kind::Bytes,
            Field::Text(_) => Kind::Text,
        }
    }

    /// As a request spells it.
    pub fn word(&self) -> String {
        let letter = self.kind().letter();
        match self {
            Field::Flag(b) => format!("{letter}{:02x}", *b as u8),
            Field::Unsigned(v) => format!("{letter}{v:016x}"),
            Field::Signed(v) => format!("{letter}{v:016x}"),
            Field::Float(v) => format!("{letter}{:016x}", v.to_bits()),
            Field::Bytes(s) => format!("{letter}{}", hex(s)),
            Field::Text(s) => format!("{letter}{}", hex(s.as_bytes())),
        }
    }

    /// As an answer has it, where its bytes start at a place of the key.
    fn shown(&self, at: usize) -> String {
        match self {
            Field::Bytes(_) | Field::Text(_) => {
                format!("{}{at:04x}+{:04x}", self.kind().letter(), encoded(std::slice::from_ref(self)).len() - 2)
            }
            _ => self.word(),
        }
    }

    /// By the values: of floats the total order of the standard library, which is that of IEEE 754.
    fn compare(&self, other: &Field) -> Ordering {
        match (self, other) {
            (Field::Flag(a), Field::Flag(b)) => a.cmp(b),
            (Field::Unsigned(a), Field::Unsigned(b)) => a.cmp(b),
            (Field::Signed(a), Field::Signed(b)) => a.cmp(b),
            (Field::Float(a), Field::Float(b)) => a.total_cmp(b),
            (Field::Bytes(a), Field::Bytes(b)) => a.cmp(b),
            (Field::Text(a), Field::Text(b)) => a.cmp(b),
            _ => unreachable!("fields of one kind"),
        }
    }
}

/// Field by field.
pub fn compare(a: &[Field], b: &[Field]) -> Ordering {
    a.iter().zip(b).map(|(x, y)| x.compare(y)).find(|o| o.is_ne()).unwrap_or(Ordering::Equal)
}

/// The fields of a whole key as an answer has them.
pub fn shown(fields: &[Field]) -> String {
    let mut at = 0;
    let mut words = String::new();
    for field in fields {
        words.push_str(&format!(" {}", field.shown(at)));
        at += encoded(std::slice::from_ref(field)).len();
    }
    words
}

struct Row<'a>(&'a [Field]);

impl Serialize for Field {
    fn serialize<S: Serializer>(&self, s: S) -> Result<S::Ok, S::Error> {
        match self {
            Field::Flag(v) => s.serialize_bool(*v),
            Field::Unsigned(v) => s.serialize_u64(*v),
            Field::Signed(v) => s.serialize_i64(*v),
            Field::Float(v) => s.serialize_f64(*v),
            Field::Bytes(v) => s.serialize_bytes(v),
            Field::Text(v) => s.serialize_str(v),
        }
    }
}

impl Serialize for Row<'_> {
    fn serialize<S: Serializer>(&self, s: S) -> Result<S::Ok, S::Error> {
        let mut tuple = s.serialize_tuple(self.0.len())?;
        for field in self.0 {
            tuple.serialize_element(field)?;
        }
        tuple.end()
    }
}

/// toydb's encoding.
pub fn encoded(fields: &[Field]) -> Vec<u8> {
    keycode::serialize(&Row(fields))
}

thread_local! {
    /// The kinds that the next decoding asks for: its type cannot say them.
    static ASKED: RefCell<Vec<Kind>> = const { RefCell::new(Vec::new()) };
}

struct Read(Vec<Field>);

struct Fields(Vec<Kind>);

impl<'de> DeserializeSeed<'de> for Kind {
    type Value = Field;

    fn deserialize<D: Deserializer<'de>>(self, d: D) -> Result<Field, D::Error> {
        Ok(match self {
            Kind::Flag => Field::Flag(bool::deserialize(d)?),
            Kind::Unsigned => Field::Unsigned(u64::deserialize(d)?),
            Kind::Signed => Field::Signed(i64::deserialize(d)?),
            Kind::Float => Field::Float(f64::deserialize(d)?),
            Kind::Bytes => Field::Bytes(serde_bytes::ByteBuf::deserialize(d)?.into_vec()),
            Kind::Text => Field::Text(String::deserialize(d)?),
        })
    }
}

impl<'de> Visitor<'de> for Fields {
    type Value = Vec<Field>;

    fn expecting(&self, f: &mut Formatter) -> std::fmt::Result {
        write!(f, "{} fields", self.0.len())
    }

    fn visit_seq<A: SeqAccess<'de>>(self, mut seq: A) -> Result<Vec<Field>, A::Error> {
        let mut fields = Vec::new();
        for kind in &self.0 {
            fields.push(seq.next_element_seed(*kind)?.ok_or_else(|| A::Error::invalid_length(fields.len(), &self))?);
        }
        Ok(fields)
    }
}

impl<'de> Deserialize<'de> for Read {
    fn deserialize<D: Deserializer<'de>>(d: D) -> Result<Read, D::Error> {
        let kinds = ASKED.with_borrow(Vec::clone);
        d.deserialize_tuple(kinds.len(), Fields(kinds)).map(Read)
    }
}

/// toydb's decoding. Its errors are texts; the two that have a number of their own are told by them.
pub fn decoded(kinds: &[Kind], key: &[u8]) -> Result<Vec<Field>, u8> {
    ASKED.set(kinds.to_vec());
    keycode::deserialize::<Read>(key).map(|read| read.0).map_err(|error| match error {
        Error::InvalidData(text) if text.starts_with("invalid boolean value") => BAD_FLAG,
        Error::InvalidData(text) if text.contains("utf-8") => BAD_TEXT,
        _ => BAD_STORE,
    })
}
