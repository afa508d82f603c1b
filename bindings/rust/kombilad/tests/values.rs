//! Tests of the values of blocks: as a tape, as a tree and through serde. They are compared with
//! those of `serde_cbor`, which shares no code with this crate.

use std::collections::BTreeMap;
use std::thread;

use kombilad::{BlockError, Cid, EncodeError, Error, Ipld, Kind, Limits, Tape, TapeRef};
use serde_cbor::Value;

/// A random number generator that is good enough for tests (an LCG of Knuth's).
struct Random(u64);

impl Random {
    fn below(&mut self, most: u64) -> u64 {
        self.0 =
            self.0.wrapping_mul(6_364_136_223_846_793_005).wrapping_add(1_442_695_040_888_963_407);
        (self.0 >> 33) % most
    }

    fn bits(&mut self) -> u64 {
        let width = [4, 8, 16, 32, 53, 64][self.below(6) as usize];
        (self.below(1 << 31) << 33 ^ self.below(1 << 31) << 11 ^ self.below(1 << 31))
            >> (64 - width)
    }

    fn text(&mut self) -> String {
        let length = [0, 1, 2, 3, 9, 30, 300][self.below(7) as usize];
        (0..length).map(|_| ['a', 'b', 'z', 'ö', '東', '🙂'][self.below(6) as usize]).collect()
    }

    fn value(&mut self, depth: u32) -> Value {
        match self.below(if depth == 0 { 7 } else { 11 }) {
            0 => {
                [Value::Null, Value::Bool(false), Value::Bool(true)][self.below(3) as usize].clone()
            }
            1 => Value::Integer(self.bits().into()),
            2 => Value::Integer(-1 - i128::from(self.bits())),
            // Not a float of 32 bits, since serde_cbor would write it in 32 bits.
            3 => Value::Float(0.1 + self.bits() as f64),
            4 => Value::Bytes(self.text().into_bytes()),
            5 => Value::Text(self.text()),
            6 => {
                let bytes =
                    [b"\0\x01\x71\x12\x20".to_vec(), vec![self.below(256) as u8; 32]].concat();
                Value::Tag(42, Box::new(Value::Bytes(bytes)))
            }
            7 | 8 => Value::Array((0..self.below(6)).map(|_| self.value(depth - 1)).collect()),
            _ => {
                let count = [0, 1, 2, 5, 16, 17, 40][self.below(7) as usize];
                Value::Map(
                    (0..count).map(|_| (Value::Text(self.text()), self.value(depth - 1))).collect(),
                )
            }
        }
    }
}

fn tree(value: &Value) -> Ipld {
    match value {
        Value::Null => Ipld::Null,
        Value::Bool(value) => Ipld::Bool(*value),
        Value::Integer(number) => Ipld::Integer(*number),
        Value::Float(number) => Ipld::Float(*number),
        Value::Bytes(bytes) => Ipld::Bytes(bytes.clone()),
        Value::Text(text) => Ipld::String(text.clone()),
        Value::Array(items) => Ipld::List(items.iter().map(tree).collect()),
        Value::Map(pairs) => {
            let text = |key: &Value| {
                if let Value::Text(text) = key {
                    text.clone()
                } else {
                    panic!("{key:?}")
                }
            };
            Ipld::Map(pairs.iter().map(|(key, value)| (text(key), tree(value))).collect())
        }
        Value::Tag(42, content) => match &**content {
            Value::Bytes(bytes) => Ipld::Link(Cid::try_from(&bytes[1..]).unwrap()),
            other => panic!("{other:?}"),
        },
        other => panic!("{other:?}"),
    }
}

/// Returns the tree of a value, which it reads by the calls of a tape.
fn walked(value: TapeRef<'_, '_>) -> Ipld {
    match value.kind() {
        Kind::Null => {
            assert!(value.is_null());
            Ipld::Null
        }
        Kind::Bool => Ipld::Bool(value.as_bool().unwrap()),
        Kind::Integer => Ipld::Integer(value.as_integer().unwrap()),
        Kind::Float => Ipld::Float(value.as_float().unwrap()),
        Kind::String => Ipld::String(value.as_str().unwrap().to_owned()),
        Kind::Bytes => Ipld::Bytes(value.as_bytes().unwrap().to_owned()),
        Kind::Link => Ipld::Link(value.as_link().unwrap()),
        Kind::List => {
            assert_eq!((value.items().len(), value.pairs().len()), (value.len(), 0));
            for (place, item) in value.items().enumerate() {
                assert_eq!(value.index(place).map(walked), Some(walked(item)));
            }
            assert!(value.index(value.len()).is_none());
            Ipld::List(value.items().map(walked).collect())
        }
        Kind::Map => {
            assert_eq!((value.items().len(), value.pairs().len()), (0, value.len()));
            for (key, other) in value.pairs() {
                assert_eq!(value.get(key).map(walked), Some(walked(other)));
            }
            assert!(value.get("no key of these").is_none());
            Ipld::Map(value.pairs().map(|(key, value)| (key.to_owned(), walked(value))).collect())
        }
    }
}

#[test]
fn values_are_those_of_serde_cbor() {
    let mut random = Random(1);
    for depth in [0, 1, 2, 3].repeat(150) {
        let value = random.value(depth);
        let block = serde_cbor::to_vec(&value).unwrap();
        let expected = tree(&value);
        let tape = Tape::of(&block).unwrap();
        assert_eq!(walked(tape.root()), expected);
        assert_eq!(Ipld::from(tape.root()), expected);
        assert_eq!(Ipld::from_block(&block).as_ref(), Ok(&expected));
        assert_eq!(expected.to_block().as_ref(), Ok(&block));
        #[cfg(feature = "serde")]
        {
            assert_eq!(kombilad::from_slice(&block).as_ref(), Ok(&expected));
            assert_eq!(kombilad::to_vec(&expected).as_ref(), Ok(&block));
        }
        // A part converts to a tree by itself.
        for (key, part) in tape.root().pairs() {
            assert!(matches!(&expected, Ipld::Map(pairs) if pairs[key] == Ipld::from(part)));
        }
    }
}

#[test]
fn numbers_of_every_size_are_read() {
    for number in [
        0,
        23,
        24,
        255,
        256,
        65_535,
        65_536,
        u64::from(u32::MAX),
        1 << 32,
        i64::MAX as u64,
        1 << 63,
        u64::MAX,
    ] {
        for number in [i128::from(number), -1 - i128::from(number)] {
            let block = serde_cbor::to_vec(&Value::Integer(number)).unwrap();
            assert_eq!(Tape::of(&block).unwrap().root().as_integer(), Some(number));
            assert_eq!(Ipld::from_block(&block), Ok(Ipld::Integer(number)));
            assert_eq!(Ipld::Integer(number).to_block(), Ok(block));
        }
    }
    for number in [0.0, -0.0, 5e-324, f64::MAX, f64::MIN] {
        let block = Ipld::Float(number).to_block().unwrap();
        let read = Tape::of(&block).unwrap().root().as_float().unwrap();
        assert_eq!(read.to_bits(), number.to_bits());
    }
}

#[test]
fn what_has_no_block_is_rejected() {
    for number in [1 << 64, -1 - (1 << 64), i128::MAX, i128::MIN] {
        assert_eq!(Ipld::List(vec![Ipld::Integer(number)]).to_block(), Err(EncodeError::Integer));
    }
    for number in [f64::NAN, f64::INFINITY, f64::NEG_INFINITY] {
        assert_eq!(Ipld::Float(number).to_block(), Err(EncodeError::Float));
    }
}

#[test]
fn a_value_is_of_one_kind() {
    let block =
        b"\x89\xf6\xf5\x01\xfb\x3f\xf8\0\0\0\0\0\0\x61a\x41b\x80\xa0\xd8\x2a\x45\0\x01\x55\0\0";
    let tape = Tape::of(block).unwrap();
    assert_eq!(tape.entry_count(), 10);
    for value in tape.root().items() {
        let found = [
            value.is_null(),
            value.as_bool().is_some(),
            value.as_integer().is_some(),
            value.as_float().is_some(),
            value.as_str().is_some(),
            value.as_bytes().is_some(),
            value.kind() == Kind::List,
            value.kind() == Kind::Map,
            value.as_link().is_some(),
        ];
        assert_eq!(found.iter().filter(|it| **it).count(), 1, "{value:?}");
        assert_eq!(value.len(), 0);
        assert!(value.get("a").is_none() && value.index(0).is_none());
    }
}

#[test]
fn paths_lead_to_values() {
    let block = b"\xa3\x60\x01\x61a\x82\x02\xa1\x610\x03\x623/\x04";
    let tape = Tape::of(block).unwrap();
    let number = |path: &str| tape.root().at_path(path).and_then(TapeRef::as_integer);
    assert_eq!(tape.root().at_path("").map(TapeRef::kind), Some(Kind::Map));
    assert_eq!((number("a/0"), number("a/1/0")), (Some(2), Some(3)));
    for path in
        ["/", "a/", "a/2", "a/00", "a/+1", "a/-1", "a/1/0/0", "b", "3/", "a/18446744073709551616"]
    {
        assert_eq!(number(path), None, "{path}");
    }
}

#[test]
fn blocks_are_rejected_as_by_check() {
    let rows: [(&[u8], BlockError, usize); 6] = [
        (b"", BlockError::End, 0),
        (b"\x81\x18\x17", BlockError::NotShortest, 1),
        (b"\x81\xf9\x3c\0", BlockError::Float, 1),
        (b"\xa1\x61\xff\0", BlockError::Utf8, 1),
        (b"\xa2\x61a\x01\x61a\x02", BlockError::DuplicateKey, 4),
        (b"\x01\x01", BlockError::TrailingBytes, 1),
    ];
    for (block, error, offset) in rows {
        let expected = Error::Block { error, offset };
        assert_eq!(kombilad::check(block), Err(expected));
        assert_eq!(Tape::of(block).map(|_| ()), Err(expected));
        assert_eq!(Ipld::from_block(block), Err(expected));
    }
}

#[test]
fn limits_are_kept() {
    let nested = |levels: usize| [vec![0x81; levels - 1], vec![0x80]].concat();
    let deepest = Ipld::from_block(&nested(Ipld::LEVELS)).unwrap();
    assert_eq!(deepest.to_block(), Ok(nested(Ipld::LEVELS)));
    assert_eq!(Ipld::List(vec![deepest]).to_block(), Err(EncodeError::TooDeep));
    let all = Limits { levels: usize::MAX, values: usize::MAX };
    assert_eq!(all.ipld(&nested(Ipld::LEVELS + 1)), Err(Error::TooDeep { offset: Ipld::LEVELS }));
    assert_eq!(all.tape(&nested(2_000_000)).unwrap().entry_count(), 2_000_000);
    let open = vec![0x81; 10_000_000];
    assert_eq!(
        all.tape(&open).map(|_| ()),
        Err(Error::Block { error: BlockError::End, offset: 10_000_000 })
    );
    let few = Limits { values: 2, ..all };
    assert_eq!(few.tape(b"\x82\x01\x02").map(|_| ()), Err(Error::TooMany { offset: 2 }));
    assert_eq!(few.ipld(b"\x82\x01\x02"), Err(Error::TooMany { offset: 2 }));
    assert!(few.ipld(b"\x81\x01").is_ok());
}

#[test]
fn long_tapes_are_read() {
    for count in [2_046, 2_047, 2_048, 8_192, 8_193, 100_000] {
        let list = Ipld::List(vec![Ipld::Integer(1); count]);
        let block = list.to_block().unwrap();
        assert_eq!(Ipld::from_block(&block), Ok(list));
    }
}

#[test]
fn threads_read_at_once() {
    let block =
        Ipld::Map(BTreeMap::from([("key".to_owned(), Ipld::List(vec![Ipld::Bool(true); 100]))]))
            .to_block()
            .unwrap();
    thread::scope(|scope| {
        for _ in 0..8 {
            scope.spawn(|| {
                for _ in 0..200 {
                    let tape = Tape::of(&block).unwrap();
                    assert_eq!(
                        tape.root().at_path("key/99").and_then(TapeRef::as_bool),
                        Some(true)
                    );
                }
            });
        }
    });
}
