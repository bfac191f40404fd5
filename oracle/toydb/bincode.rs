//! Stands in for toydb's encoding/bincode.rs, which is not to be had. It writes document 01's payloads through serde: a number is 8 bytes
//! big-endian, a set its numbers one after the other, an optional value 01 and its bytes or the one byte 00. Bytes left over fail.

use std::fmt::Display;
use std::io::{Read, Write};

use serde::de::{self, Deserialize, DeserializeOwned, DeserializeSeed, SeqAccess, Visitor};
use serde::ser::{Impossible, Serialize, SerializeSeq};

use crate::errdata;
use crate::error::{Error, Result};

pub fn serialize<T: Serialize>(value: &T) -> Vec<u8> {
    let mut out = Out(Vec::new());
    value.serialize(&mut out).expect("only the payloads of document 01 are written");
    out.0
}

pub fn serialize_into<W: Write, T: Serialize>(mut writer: W, value: &T) -> Result<()> {
    Ok(writer.write_all(&serialize(value))?)
}

pub fn deserialize<'de, T: Deserialize<'de>>(bytes: &'de [u8]) -> Result<T> {
    let mut input = In(bytes);
    let value = T::deserialize(&mut input)?;
    if !input.0.is_empty() {
        return errdata!("{} bytes left over", input.0.len());
    }
    Ok(value)
}

pub fn deserialize_from<R: Read, T: DeserializeOwned>(mut reader: R) -> Result<T> {
    let mut bytes = Vec::new();
    reader.read_to_end(&mut bytes)?;
    deserialize(&bytes)
}

pub fn maybe_deserialize_from<R: Read, T: DeserializeOwned>(mut reader: R) -> Result<Option<T>> {
    let mut bytes = Vec::new();
    reader.read_to_end(&mut bytes)?;
    if bytes.is_empty() { Ok(None) } else { deserialize(&bytes).map(Some) }
}

struct Out(Vec<u8>);

fn no_payload<T>(what: &str) -> Result<T> {
    Err(Error::InvalidData(format!("document 01 has no payload for {what}")))
}

macro_rules! refuse {
    ($($name:ident: $kind:ty),* $(,)?) => { $(fn $name(self, _: $kind) -> Result<()> { no_payload(stringify!($kind)) })* };
}

impl<'a> serde::Serializer for &'a mut Out {
    type Ok = ();
    type Error = Error;
    type SerializeSeq = &'a mut Out;
    type SerializeTuple = Impossible<(), Error>;
    type SerializeTupleStruct = Impossible<(), Error>;
    type SerializeTupleVariant = Impossible<(), Error>;
    type SerializeMap = Impossible<(), Error>;
    type SerializeStruct = Impossible<(), Error>;
    type SerializeStructVariant = Impossible<(), Error>;

    fn serialize_u8(self, v: u8) -> Result<()> {
        self.0.push(v);
        Ok(())
    }

    fn serialize_u64(self, v: u64) -> Result<()> {
        self.0.extend(v.to_be_bytes());
        Ok(())
    }

    fn serialize_none(self) -> Result<()> {
        self.0.push(0);
        Ok(())
    }

    fn serialize_some<T: Serialize + ?Sized>(self, value: &T) -> Result<()> {
        self.0.push(1);
        value.serialize(self)
    }

    fn serialize_seq(self, _: Option<usize>) -> Result<Self::SerializeSeq> {
        Ok(self)
    }

    refuse! {
        serialize_bool: bool, serialize_i8: i8, serialize_i16: i16, serialize_i32: i32, serialize_i64: i64,
        serialize_u16: u16, serialize_u32: u32, serialize_f32: f32, serialize_f64: f64, serialize_char: char,
        serialize_str: &str, serialize_bytes: &[u8], serialize_unit_struct: &'static str,
    }

    fn serialize_unit(self) -> Result<()> {
        no_payload("a unit")
    }

    fn serialize_unit_variant(self, _: &'static str, _: u32, _: &'static str) -> Result<()> {
        no_payload("a variant")
    }

    fn serialize_newtype_struct<T: Serialize + ?Sized>(self, _: &'static str, _: &T) -> Result<()> {
        no_payload("a struct")
    }

    fn serialize_newtype_variant<T: Serialize + ?Sized>(self, _: &'static str, _: u32, _: &'static str, _: &T) -> Result<()> {
        no_payload("a variant")
    }

    fn serialize_tuple(self, _: usize) -> Result<Self::SerializeTuple> {
        no_payload("a tuple")
    }

    fn serialize_tuple_struct(self, _: &'static str, _: usize) -> Result<Self::SerializeTupleStruct> {
        no_payload("a struct")
    }

    fn serialize_tuple_variant(self, _: &'static str, _: u32, _: &'static str, _: usize) -> Result<Self::SerializeTupleVariant> {
        no_payload("a variant")
    }

    fn serialize_map(self, _: Option<usize>) -> Result<Self::SerializeMap> {
        no_payload("a map")
    }

    fn serialize_struct(self, _: &'static str, _: usize) -> Result<Self::SerializeStruct> {
        no_payload("a struct")
    }

    fn serialize_struct_variant(
        self,
        _: &'static str,
        _: u32,
        _: &'static str,
        _: usize,
    ) -> Result<Self::SerializeStructVariant> {
        no_payload("a variant")
    }

    fn collect_str<T: Display + ?Sized>(self, _: &T) -> Result<()> {
        no_payload("a text")
    }
}

impl SerializeSeq for &mut Out {
    type Ok = ();
    type Error = Error;

    fn serialize_element<T: Serialize + ?Sized>(&mut self, value: &T) -> Result<()> {
        value.serialize(&mut **self)
    }

    fn end(self) -> Result<()> {
        Ok(())
    }
}

struct In<'de>(&'de [u8]);

impl<'de> In<'de> {
    fn take(&mut self, n: usize) -> Result<&'de [u8]> {
        match self.0.split_at_checked(n) {
            Some((taken, rest)) => {
                self.0 = rest;
                Ok(taken)
            }
            None => errdata!("{n} bytes expected"),
        }
    }
}

impl<'de> de::Deserializer<'de> for &mut In<'de> {
    type Error = Error;

    fn deserialize_u8<V: Visitor<'de>>(self, visitor: V) -> Result<V::Value> {
        visitor.visit_u8(self.take(1)?[0])
    }

    fn deserialize_u64<V: Visitor<'de>>(self, visitor: V) -> Result<V::Value> {
        visitor.visit_u64(u64::from_be_bytes(self.take(8)?.try_into()?))
    }

    fn deserialize_option<V: Visitor<'de>>(self, visitor: V) -> Result<V::Value> {
        match self.take(1)?[0] {
            0 => visitor.visit_none(),
            1 => visitor.visit_some(self),
            b => errdata!("{b} begins no value"),
        }
    }

    fn deserialize_seq<V: Visitor<'de>>(self, visitor: V) -> Result<V::Value> {
        visitor.visit_seq(self)
    }

    fn deserialize_any<V: Visitor<'de>>(self, _: V) -> Result<V::Value> {
        no_payload("this type")
    }

    serde::forward_to_deserialize_any! {
        bool i8 i16 i32 i64 u16 u32 f32 f64 char str string bytes byte_buf unit unit_struct newtype_struct tuple
        tuple_struct map struct enum identifier ignored_any
    }
}

/// A sequence has no length of its own: it ends with the bytes.
impl<'de> SeqAccess<'de> for In<'de> {
    type Error = Error;

    fn next_element_seed<T: DeserializeSeed<'de>>(&mut self, seed: T) -> Result<Option<T::Value>> {
        if self.0.is_empty() { Ok(None) } else { seed.deserialize(self).map(Some) }
    }
}
