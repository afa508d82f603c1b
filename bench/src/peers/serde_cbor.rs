//! The crate `serde_cbor`, which reads any CBOR: it does not look for repeated keys or longer
//! forms.

use super::message::Message;
use super::person::Person;
use super::plain::Cid;
use super::post::Post;
use crate::row::Row;
use serde::{de, Deserialize, Deserializer, Serialize, Serializer};
use serde_bytes::{ByteBuf, Bytes};
use serde_cbor::tags::Tagged;
use serde_cbor::Value;
use std::hint::black_box;

const NAME: &str = "serde_cbor";

/// The tag of a link, and the byte before its CID.
const TAG: u64 = 42;
const PREFIX: u8 = 0;

struct Link(Cid);

impl<'de> Deserialize<'de> for Link {
    fn deserialize<D: Deserializer<'de>>(deserializer: D) -> Result<Link, D::Error> {
        let tagged = Tagged::<ByteBuf>::deserialize(deserializer)?;
        match (tagged.tag, tagged.value.as_slice()) {
            (Some(TAG), [PREFIX, cid @ ..]) => Cid::from_bytes(cid).map(Link).ok(),
            _ => None,
        }
        .ok_or_else(|| de::Error::custom("not a link"))
    }
}

impl Serialize for Link {
    fn serialize<S: Serializer>(&self, serializer: S) -> Result<S::Ok, S::Error> {
        let mut bytes = vec![PREFIX];
        self.0.write(&mut bytes);
        Tagged::new(Some(TAG), Bytes::new(&bytes)).serialize(serializer)
    }
}

fn value(block: &[u8]) -> Value {
    serde_cbor::from_slice(block).expect("a block of bench/data.py is CBOR")
}

fn written<T: Serialize>(value: &T) -> u64 {
    black_box(serde_cbor::to_vec(black_box(value))).map_or(0, |block| block.len() as u64)
}

pub fn decode(row: Row, block: &'static [u8]) -> Row {
    row.beside(NAME, || {
        let value = serde_cbor::from_slice::<Value>(black_box(block));
        u64::from(black_box(value).is_ok())
    })
}

pub fn encode(row: Row, block: &'static [u8]) -> Row {
    let value = value(block);
    row.beside(NAME, move || written(&value))
}

pub fn clone(row: Row, block: &'static [u8]) -> Row {
    let value = value(block);
    row.beside(NAME, move || {
        black_box(black_box(&value).clone());
        1
    })
}

pub fn block_to_struct(row: Row, block: &'static [u8]) -> Row {
    row.beside(NAME, || {
        let person = serde_cbor::from_slice::<Person<Link>>(black_box(block));
        u64::from(black_box(person).is_ok())
    })
}

pub fn block_to_post(row: Row, block: &'static [u8]) -> Row {
    row.beside(NAME, || {
        let post = serde_cbor::from_slice::<Post<Link>>(black_box(block));
        u64::from(black_box(post).is_ok())
    })
}

pub fn block_to_message(row: Row, block: &'static [u8]) -> Row {
    row.beside(NAME, || {
        let message = serde_cbor::from_slice::<Message>(black_box(block));
        u64::from(black_box(message).is_ok())
    })
}

pub fn struct_to_block(row: Row, block: &'static [u8]) -> Row {
    let person: Person<Link> =
        serde_cbor::from_slice(block).expect("the block of bench/data.py is a person");
    row.beside(NAME, move || written(&person))
}
