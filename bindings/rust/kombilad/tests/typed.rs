//! Tests that types of serde are encoded and decoded. Some blocks are compared with those of
//! `serde_cbor`.
#![cfg(feature = "serde")]

use std::borrow::Cow;
use std::collections::{BTreeMap, HashMap};
use std::fmt;

use kombilad::{
    BlockError, Cid, CidError, DecodeError, EncodeError, Error, Ipld, Limits, Tape, SERDE_LEVELS,
};
use serde::de::{self, Deserializer, Visitor};
use serde::ser::{SerializeMap, SerializeSeq, Serializer};
use serde::{Deserialize, Serialize};
use serde_bytes::{ByteBuf, Bytes};

const LINK: &[u8] = b"\xd8\x2a\x45\0\x01\x55\0\0";

fn cid() -> Cid {
    "bafkqaaa".parse().unwrap()
}

/// Checks that a value is encoded as this block, and the block decoded to this value.
fn same<'a, T: Serialize + Deserialize<'a> + PartialEq + fmt::Debug>(value: &T, block: &'a [u8]) {
    assert_eq!(kombilad::to_vec(value).as_deref(), Ok(block), "{value:?}");
    assert_eq!(kombilad::from_slice::<T>(block).as_ref(), Ok(value));
}

fn no<'a, T: Deserialize<'a> + fmt::Debug>(block: &'a [u8]) -> String {
    match kombilad::from_slice::<T>(block) {
        Err(DecodeError::Message(message)) => message,
        other => panic!("{other:?}"),
    }
}

#[derive(Serialize, Deserialize, PartialEq, Debug)]
struct Person {
    name: String,
    age: u8,
    hobbies: Vec<String>,
    is_cool: bool,
    link: Cid,
}

#[derive(Serialize, Deserialize, PartialEq, Debug)]
struct Lent<'a> {
    text: &'a str,
    #[serde(with = "serde_bytes")]
    bytes: &'a [u8],
    #[serde(borrow)]
    either: Cow<'a, str>,
}

#[derive(Serialize, Deserialize, PartialEq, Debug)]
struct Unit;

#[derive(Serialize, Deserialize, PartialEq, Debug)]
struct Meters(f64);

#[derive(Serialize, Deserialize, PartialEq, Debug)]
struct Pair(u8, String);

#[derive(Serialize, Deserialize, PartialEq, Eq, PartialOrd, Ord, Debug)]
enum Shape {
    Empty,
    Circle(u32),
    Line(i8, i8),
    Box { width: u8, height: u8 },
}

#[derive(Serialize, Deserialize, PartialEq, Debug)]
#[serde(tag = "$type")]
enum Tagged {
    #[serde(rename = "post")]
    Post { of: Cid, text: String },
}

#[derive(Serialize, Deserialize, PartialEq, Debug)]
#[serde(untagged)]
enum Any {
    Number(u8),
    Link(Cid),
    Text(String),
}

#[derive(Serialize, Deserialize, PartialEq, Debug)]
struct Flat {
    a: u8,
    #[serde(flatten)]
    rest: BTreeMap<String, Ipld>,
}

#[test]
fn structs_are_maps_in_order() {
    let person = Person {
        name: "Bob".into(),
        age: 52,
        hobbies: vec!["geography".into(), "knitting".into()],
        is_cool: true,
        link: cid(),
    };
    let block = b"\xa5\x63age\x18\x34\x64link\xd8\x2a\x45\0\x01\x55\0\0\x64name\x63Bob\x67hobbies\x82\x69geography\x68knitting\x67is_cool\xf5";
    same(&person, block);
    // Fields in any order, and others between them.
    let other = b"\xa6\x67is_cool\xf5\x67hobbies\x82\x69geography\x68knitting\x61x\x82\x01\xa1\x61y\x80\x63age\x18\x34\x64name\x63Bob\x64link\xd8\x2a\x45\0\x01\x55\0\0";
    assert_eq!(kombilad::from_slice::<Person>(other), Ok(person));
    assert_eq!(no::<Person>(b"\xa1\x63age\x01"), "missing field `name`");
    assert_eq!(no::<Person>(b"\xa1\x63age\x19\x01\0"), "invalid value: integer `256`, expected u8");
}

#[test]
fn texts_and_bytes_are_lent() {
    let block = b"\xa3\x64text\x62hi\x65bytes\x43\0\x01\x02\x66either\x61e";
    let value = Lent { text: "hi", bytes: b"\0\x01\x02", either: Cow::Borrowed("e") };
    same(&value, block);
    let read: Lent = kombilad::from_slice(block).unwrap();
    assert!(matches!(read.either, Cow::Borrowed(_)));
    assert!(
        block.as_ptr_range().contains(&read.text.as_ptr())
            && block.as_ptr_range().contains(&read.bytes.as_ptr())
    );
    assert_eq!(no::<&str>(b"\x41a"), "invalid type: byte array, expected a borrowed string");
    assert_eq!(no::<String>(b"\x41a"), "invalid type: byte array, expected a string");
    assert_eq!(no::<ByteBuf>(b"\x61a"), "invalid type: string \"a\", expected byte array");
    assert_eq!(no::<ByteBuf>(b"\x81\x01"), "invalid type: sequence, expected byte array");
    assert_eq!(no::<ByteBuf>(LINK), "invalid type: a link, expected byte array");
}

#[test]
fn each_type_has_its_form() {
    same(&(), b"\xf6");
    same(&Unit, b"\xf6");
    same(&None::<u8>, b"\xf6");
    same(&Some(7u8), b"\x07");
    same(&true, b"\xf5");
    same(&'ö', b"\x62\xc3\xb6");
    same(&Meters(1.5), b"\xfb\x3f\xf8\0\0\0\0\0\0");
    same(&1.5f32, b"\xfb\x3f\xf8\0\0\0\0\0\0");
    same(&Pair(1, "a".into()), b"\x82\x01\x61a");
    same(&(1u8, -1i8), b"\x82\x01\x20");
    same(&[1u16, 2, 3], b"\x83\x01\x02\x03");
    same(&ByteBuf::from(b"ab".to_vec()), b"\x42ab");
    same(&u64::MAX, b"\x1b\xff\xff\xff\xff\xff\xff\xff\xff");
    same(&i64::MIN, b"\x3b\x7f\xff\xff\xff\xff\xff\xff\xff");
    same(&-(1i128 << 64), b"\x3b\xff\xff\xff\xff\xff\xff\xff\xff");
    same(&i128::from(u64::MAX), b"\x1b\xff\xff\xff\xff\xff\xff\xff\xff");
    same(&u128::from(u64::MAX), b"\x1b\xff\xff\xff\xff\xff\xff\xff\xff");
    same(&cid(), LINK);
    same(&vec![Some(cid()), None], b"\x82\xd8\x2a\x45\0\x01\x55\0\0\xf6");
    assert_eq!(no::<u64>(b"\x20"), "invalid value: integer `-1`, expected u64");
    assert_eq!(
        no::<i64>(b"\x3b\xff\xff\xff\xff\xff\xff\xff\xff"),
        "invalid type: integer `-18446744073709551616` as i128, expected i64"
    );
    assert_eq!(no::<Cid>(b"\x45\0\x01\x55\0\0"), "invalid type: byte array, expected a link");
    assert_eq!(no::<Cid>(b"\xf6"), "invalid type: unit value, expected a link");
    assert_eq!(no::<(u8, u8)>(b"\x81\x01"), "invalid length 1, expected a tuple of size 2");
    assert_eq!(
        no::<(u8, u8)>(b"\x83\x01\x02\x03"),
        "invalid length 3, expected a list of fewer items"
    );
}

#[test]
fn enums_are_externally_tagged() {
    same(&Shape::Empty, b"\x65Empty");
    same(&Shape::Circle(7), b"\xa1\x66Circle\x07");
    same(&Shape::Line(-1, 1), b"\xa1\x64Line\x82\x20\x01");
    same(&Shape::Box { width: 1, height: 2 }, b"\xa1\x63Box\xa2\x65width\x01\x66height\x02");
    assert_eq!(kombilad::from_slice::<Shape>(b"\xa1\x65Empty\xf6"), Ok(Shape::Empty));
    same(&BTreeMap::from([(Shape::Empty, 1u8)]), b"\xa1\x65Empty\x01");
    assert_eq!(
        no::<Shape>(b"\xa0"),
        "invalid type: map, expected the name of a variant, or a map from it"
    );
    assert_eq!(
        no::<Shape>(b"\xa2\x65Empty\xf6\x66Circle\x07"),
        "invalid type: map, expected the name of a variant, or a map from it"
    );
    assert_eq!(
        no::<Shape>(b"\x63Dot"),
        "unknown variant `Dot`, expected one of `Empty`, `Circle`, `Line`, `Box`"
    );
}

#[test]
fn enums_without_a_tag_of_their_own_hold_links() {
    same(
        &Tagged::Post { of: cid(), text: "hi".into() },
        b"\xa3\x62of\xd8\x2a\x45\0\x01\x55\0\0\x64text\x62hi\x65$type\x64post",
    );
    same(
        &vec![Any::Number(1), Any::Link(cid()), Any::Text("a".into())],
        &[b"\x83\x01", LINK, b"\x61a"].concat(),
    );
    let rest = BTreeMap::from([("b".to_owned(), Ipld::Link(cid())), ("c".to_owned(), Ipld::Null)]);
    same(&Flat { a: 1, rest }, &[b"\xa3\x61a\x01\x61b", LINK, b"\x61c\xf6"].concat());
}

/// A CID in the form that the crate `cid` uses: a newtype struct of a certain name, with bytes.
#[derive(PartialEq, Debug)]
struct Theirs(Vec<u8>);

const NAME: &str = "$__private__serde__identifier__for__cid";

impl Serialize for Theirs {
    fn serialize<S: Serializer>(&self, serializer: S) -> Result<S::Ok, S::Error> {
        serializer.serialize_newtype_struct(NAME, &ByteBuf::from(self.0.clone()))
    }
}

impl<'de> Deserialize<'de> for Theirs {
    fn deserialize<D: Deserializer<'de>>(deserializer: D) -> Result<Self, D::Error> {
        struct Whole;

        impl<'de> Visitor<'de> for Whole {
            type Value = Theirs;

            fn expecting(&self, f: &mut fmt::Formatter<'_>) -> fmt::Result {
                f.write_str("a CID")
            }

            fn visit_newtype_struct<D: Deserializer<'de>>(
                self,
                deserializer: D,
            ) -> Result<Theirs, D::Error> {
                deserializer.deserialize_bytes(self)
            }

            fn visit_bytes<E: de::Error>(self, bytes: &[u8]) -> Result<Theirs, E> {
                Ok(Theirs(bytes.to_vec()))
            }
        }

        deserializer.deserialize_newtype_struct(NAME, Whole)
    }
}

#[test]
fn cids_of_other_crates_are_links() {
    same(&Theirs(cid().as_bytes().to_vec()), LINK);
    let wrong = kombilad::to_vec(&[Theirs(vec![1])]);
    assert_eq!(wrong, Err(EncodeError::Cid(CidError::End)));
}

/// A list whose declared length may be missing or wrong. `Mapping` is a map with such a length.
struct Sequence(Option<usize>, usize);

impl Serialize for Sequence {
    fn serialize<S: Serializer>(&self, serializer: S) -> Result<S::Ok, S::Error> {
        let mut items = serializer.serialize_seq(self.0)?;
        (0..self.1).try_for_each(|_| items.serialize_element(&0u8))?;
        items.end()
    }
}

struct Mapping(Option<usize>, Vec<&'static str>);

impl Serialize for Mapping {
    fn serialize<S: Serializer>(&self, serializer: S) -> Result<S::Ok, S::Error> {
        let mut pairs = serializer.serialize_map(self.0)?;
        self.1.iter().try_for_each(|key| pairs.serialize_entry(key, &Mapping(None, vec![])))?;
        pairs.end()
    }
}

#[test]
fn lengths_need_not_be_known() {
    for declared in [None, Some(0), Some(3), Some(24), Some(300), Some(70_000)] {
        for count in [0, 3, 23, 24, 300] {
            let block = kombilad::to_vec(&[Sequence(declared, count)]).unwrap();
            assert_eq!(block, serde_cbor::to_vec(&[vec![0u8; count]]).unwrap());
        }
        let block = kombilad::to_vec(&[Mapping(declared, vec!["bb", "c", "", "a"])]).unwrap();
        assert_eq!(block, b"\x81\xa4\x60\xa0\x61a\xa0\x61c\xa0\x62bb\xa0");
    }
}

#[test]
fn keys_come_in_order_and_once() {
    let map: HashMap<String, Vec<HashMap<String, u8>>> = (0..300)
        .map(|n| (format!("{n}"), vec![HashMap::from([("b".repeat(n % 30), 1), ("a".into(), 2)])]))
        .collect();
    let block = kombilad::to_vec(&map).unwrap();
    assert_eq!(kombilad::is_canonical(&block), Ok(true));
    assert_eq!(kombilad::from_slice(&block), Ok(map));
    let twice = kombilad::to_vec(&Mapping(None, vec!["a", "b", "a"]));
    assert_eq!(twice, Err(EncodeError::DuplicateKey));
    assert_eq!(kombilad::to_vec(&BTreeMap::from([(1, 2)])), Err(EncodeError::KeyNotText));
    assert_eq!(kombilad::to_vec(&BTreeMap::from([(Some("a"), 2)])), Err(EncodeError::KeyNotText));
    assert_eq!(kombilad::to_vec(&HashMap::from([(cid(), 2)])), Err(EncodeError::KeyNotText));
    assert_eq!(
        kombilad::to_vec(&BTreeMap::from([('b', 1), ('a', 2)])).as_deref(),
        Ok(&b"\xa2\x61a\x02\x61b\x01"[..])
    );
    assert_eq!(no::<BTreeMap<u8, u8>>(b"\xa1\x611\x02"), "invalid type: string \"1\", expected u8");
}

#[test]
fn what_has_no_block_is_rejected() {
    assert_eq!(kombilad::to_vec(&[u128::MAX]), Err(EncodeError::Integer));
    assert_eq!(kombilad::to_vec(&(1i128 << 64)), Err(EncodeError::Integer));
    assert_eq!(kombilad::to_vec(&f64::NAN), Err(EncodeError::Float));
    assert_eq!(kombilad::to_vec(&f32::INFINITY), Err(EncodeError::Float));
    assert_eq!(kombilad::to_vec(Bytes::new(b"a")).as_deref(), Ok(&b"\x41a"[..]));
}

#[test]
fn depth_has_a_limit() {
    let nested = |levels: usize| [vec![0x81; levels - 1], vec![0x80]].concat();
    let all = Limits { levels: usize::MAX, values: usize::MAX };
    let deepest: Ipld = all.from_slice(&nested(SERDE_LEVELS)).unwrap();
    assert_eq!(kombilad::to_vec(&deepest), Ok(nested(SERDE_LEVELS)));
    assert_eq!(kombilad::to_vec(&[deepest]), Err(EncodeError::TooDeep));
    let deeper = all.from_slice::<Ipld>(&nested(SERDE_LEVELS + 1));
    assert_eq!(deeper, Err(DecodeError::Block(Error::TooDeep { offset: SERDE_LEVELS })));
    let few = Limits { levels: 1, values: 2 };
    assert_eq!(
        few.from_slice::<Vec<u8>>(b"\x82\x01\x02"),
        Err(DecodeError::Block(Error::TooMany { offset: 2 }))
    );
    assert_eq!(
        kombilad::from_slice::<u8>(b"\x18\x17"),
        Err(DecodeError::Block(Error::Block { error: BlockError::NotShortest, offset: 0 }))
    );
}

#[test]
fn a_part_of_a_block_is_read_by_itself() {
    let tape = Tape::of(b"\xa2\x61a\x82\x01\x02\x61b\x80").unwrap();
    let part = tape.root().get("a").unwrap();
    assert_eq!(Vec::<u8>::deserialize(part), Ok(vec![1, 2]));
}
