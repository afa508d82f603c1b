//! Tests each call with valid input and with input that it rejects. The texts are from the CID
//! specification's examples and from another implementation. The blocks are written by hand.

use std::collections::{BTreeSet, HashSet};
use std::thread;

use kombilad::{
    Base, BlockError, Cid, CidError, Error, JsonError, Limits, Links, PathError, TextError, Version,
};

const EMPTY_MAP: &str = "bafyreigbtj4x7ip5legnfznufuopl4sg4knzc2cof6duas4b3q2fy6swua";
const VERSION_0: &str = "QmdfTbBqBPQ7VNxZEYEj14VmRuZBkqFbiwReogJgS1zR1n";
const VERSION_0_AS_1: &str = "bafybeihdwdcefgh4dqkjv67uzcmw7ojee6xedzdetojuzjevtenxquvyku";

fn cid(text: &str) -> Cid {
    text.parse().unwrap()
}

/// Returns a block that is a list of links.
fn list(cids: &[Cid]) -> Vec<u8> {
    let mut block = vec![0x80 | cids.len() as u8];
    for cid in cids {
        let len = cid.as_bytes().len() as u8 + 1;
        block.extend([0xd8, 42]);
        block.extend(if len < 24 { vec![0x40 | len] } else { vec![0x58, len] });
        block.push(0);
        block.extend(cid.as_bytes());
    }
    block
}

#[test]
fn a_cid_has_parts() {
    let v1 = cid(EMPTY_MAP);
    assert_eq!(
        (v1.version(), v1.codec(), v1.hash_code()),
        (Version::V1, kombilad::DAG_CBOR, kombilad::SHA2_256)
    );
    assert_eq!(v1.digest().len(), 32);
    assert_eq!(v1.as_bytes()[..4], [1, 0x71, 0x12, 32]);
    let v0 = cid(VERSION_0);
    assert_eq!(
        (v0.version(), v0.codec(), v0.hash_code()),
        (Version::V0, kombilad::DAG_PB, kombilad::SHA2_256)
    );
    assert_eq!(v0.as_bytes()[..2], [0x12, 32]);
    assert_eq!(v0.digest(), cid(VERSION_0_AS_1).digest());
}

/// Encodes a number as an unsigned varint of multiformats.
fn varint(mut number: u64) -> Vec<u8> {
    let mut bytes = Vec::new();
    while number > 127 {
        bytes.push(number as u8 | 128);
        number >>= 7;
    }
    bytes.push(number as u8);
    bytes
}

#[test]
fn cids_sort_as_their_parts_do() {
    let digests = [vec![], vec![0], vec![255], vec![0, 1], vec![127; 64], vec![128; 64]];
    let mut all = vec![];
    for codec in [0u64, 0x55, 0x71, 127, 128, 300, 1 << 63] {
        for hash in [0u64, 0x12, 127, 128, 0x1000] {
            for digest in &digests {
                let head =
                    [vec![1], varint(codec), varint(hash), varint(digest.len() as u64)].concat();
                let cid = Cid::try_from([head, digest.clone()].concat()).unwrap();
                all.push(((1, codec, hash, digest.len(), digest.clone()), cid));
            }
        }
    }
    for first in [0, 0x12, 255] {
        let digest = vec![first; 32];
        let cid = Cid::try_from([vec![0x12, 32], digest.clone()].concat()).unwrap();
        all.push(((0, 0x70, 0x12, 32, digest), cid));
    }
    for (parts, cid) in &all {
        for (others, other) in &all {
            assert_eq!(cid.cmp(other), parts.cmp(others), "{cid} {other}");
        }
    }
}

#[test]
fn bytes_are_read_exactly() {
    let bytes = cid(EMPTY_MAP).as_bytes().to_vec();
    assert_eq!(Cid::try_from(&bytes[..]), Ok(cid(EMPTY_MAP)));
    assert_eq!(Cid::try_from(&bytes[..35]), Err(Error::Cid(CidError::End)));
    assert_eq!(Cid::try_from(&[][..]), Err(Error::Cid(CidError::End)));
    let more = [&bytes[..], &[0]].concat();
    assert_eq!(Cid::try_from(&more[..]), Err(Error::Cid(CidError::TrailingBytes)));
    assert_eq!(Cid::try_from(&[0x80, 0][..]), Err(Error::Cid(CidError::NotShortest)));
    assert_eq!(Cid::try_from(&[0xff; 11][..]), Err(Error::Cid(CidError::VarintTooLarge)));
    assert_eq!(Cid::try_from(&[0][..]), Err(Error::Cid(CidError::ExplicitVersion0)));
    assert_eq!(Cid::try_from(&[2][..]), Err(Error::Cid(CidError::UnknownVersion)));
    assert_eq!(Cid::try_from(&[1, 0x55, 0, 65][..]), Err(Error::Cid(CidError::DigestTooLong)));
}

#[test]
fn the_longest_cid_fits() {
    let mut bytes = vec![1];
    for _ in 0..2 {
        bytes.extend([0xff; 9]);
        bytes.push(1);
    }
    bytes.push(64);
    bytes.extend([7; 64]);
    assert_eq!(bytes.len(), 86);
    let longest = Cid::try_from(&bytes[..]).unwrap();
    assert_eq!(
        (longest.codec(), longest.hash_code(), longest.as_bytes()),
        (u64::MAX, u64::MAX, &bytes[..])
    );
    assert_eq!(longest.to_string_of_base(Base::Base16Lower).unwrap().len(), 173);
    assert_eq!(kombilad::links(&list(&[longest; 3])), Ok(vec![longest; 3]));
}

#[test]
fn texts_round_trip() {
    let bases = [
        (Base::Base16Lower, 'f'),
        (Base::Base32Lower, 'b'),
        (Base::Base32Upper, 'B'),
        (Base::Base36Lower, 'k'),
        (Base::Base58Btc, 'z'),
        (Base::Base64Url, 'u'),
    ];
    for (base, prefix) in bases {
        let text = cid(EMPTY_MAP).to_string_of_base(base).unwrap();
        assert!(text.starts_with(prefix));
        assert_eq!(cid(&text), cid(EMPTY_MAP));
        let of_version_0 = cid(VERSION_0).to_string_of_base(base);
        if base == Base::Base58Btc {
            assert_eq!(of_version_0.as_deref(), Ok(VERSION_0));
        } else {
            assert_eq!(of_version_0, Err(Error::V0Base));
        }
    }
    assert_eq!(cid(&format!("/ipfs/{VERSION_0}")).to_string(), VERSION_0);
    assert_eq!(format!("{:?}", cid("bafkqaaa")), "Cid(bafkqaaa)");
    assert_eq!(format!("{:>10}", cid("bafkqaaa")), "  bafkqaaa");
}

#[test]
fn texts_are_rejected() {
    let error = |text: &str| match Cid::try_from(text) {
        Err(Error::Text(error)) => error,
        other => panic!("{other:?}"),
    };
    assert_eq!(error(""), TextError::UnknownBase);
    assert_eq!(error("mAXASIA"), TextError::UnknownBase);
    assert_eq!(error("bafkqaa1"), TextError::InvalidLetter(7));
    assert_eq!(error("bafkqaab"), TextError::UnusedBits);
    assert_eq!(error("ba"), TextError::InvalidLength);
    assert_eq!(error("bafkq"), TextError::Cid(CidError::End));
    assert_eq!(error(&format!("z{VERSION_0}")), TextError::WrongVersion);
}

#[test]
fn cids_compare_and_hash() {
    let (a, b, c) = (cid(VERSION_0), cid(VERSION_0_AS_1), cid(EMPTY_MAP));
    assert!(a < b && b < c && a == cid(VERSION_0) && a != b);
    assert_eq!(BTreeSet::from([c, a, b, a]).into_iter().collect::<Vec<_>>(), [a, b, c]);
    assert_eq!(HashSet::from([c, a, b, a]).len(), 3);
    assert_eq!(Vec::from(a), a.as_bytes());
}

/// Returns the error of reading a block, and its offset.
fn stop<T: std::fmt::Debug>(result: Result<T, Error>) -> (BlockError, usize) {
    match result {
        Err(Error::Block { error, offset }) => (error, offset),
        other => panic!("{other:?}"),
    }
}

#[test]
fn blocks_are_checked() {
    let error = |block: &[u8]| stop(kombilad::check(block));
    assert_eq!(kombilad::check(b"\xa1\x61a\xf6"), Ok(()));
    assert_eq!(kombilad::check(b"\xfb\x3f\xf0\0\0\0\0\0\0"), Ok(()));
    assert_eq!(error(b""), (BlockError::End, 0));
    assert_eq!(error(b"\x82\x01\x18\x17"), (BlockError::NotShortest, 2));
    assert_eq!(error(b"\xf9\x3c\0"), (BlockError::Float, 0));
    assert_eq!(error(b"\x81\xfb\x7f\xf0\0\0\0\0\0\0"), (BlockError::Float, 1));
    assert_eq!(error(b"\xf7"), (BlockError::Unsupported, 0));
    assert_eq!(error(b"\x61\xff"), (BlockError::Utf8, 0));
    assert_eq!(error(b"\xa1\x01\x01"), (BlockError::KeyNotText, 1));
    assert_eq!(error(b"\xa2\x61a\x01\x61a\x01"), (BlockError::DuplicateKey, 4));
    assert_eq!(error(b"\xd8\x2a\x41\x01"), (BlockError::LinkBytes, 2));
    assert_eq!(error(b"\xd8\x2a\x41\x00"), (BlockError::Cid(CidError::End), 2));
    assert_eq!(error(b"\x01\x01"), (BlockError::TrailingBytes, 1));
    assert_eq!(
        kombilad::check(b"\x81").unwrap_err().to_string(),
        "the bytes end before the item does, at byte 1"
    );
}

#[test]
fn links_are_found() {
    let many: Vec<Cid> = (0..23u8).map(|n| Cid::of_block(kombilad::RAW, &[n])).collect();
    let block = list(&many);
    assert_eq!(kombilad::links(&block).as_ref(), Ok(&many));
    assert_eq!(kombilad::count_links(&block), Ok(23));
    let links = Links::of(&block).unwrap();
    assert_eq!(links.len(), 23);
    let reversed: Vec<Cid> = many.iter().rev().copied().collect();
    assert_eq!(links.rev().collect::<Vec<_>>(), reversed);
    let positions = kombilad::link_positions(&block).unwrap();
    for (cid, position) in many.iter().zip(&positions) {
        assert_eq!(&block[position.clone()], cid.as_bytes());
    }
    assert_eq!(positions.len(), 23);
    // More links than the first allocation has room for.
    let short = list(&[cid("bafkqaaa"); 23]);
    assert_eq!(kombilad::links(&short).map(|links| links.len()), Ok(23));
    assert_eq!(kombilad::link_positions(&short).map(|found| found.len()), Ok(23));
    let cut = b"\x81";
    assert_eq!(stop(kombilad::links(cut)), (BlockError::End, 1));
    assert_eq!(stop(kombilad::link_positions(cut)), (BlockError::End, 1));
    assert_eq!(stop(kombilad::count_links(cut)), (BlockError::End, 1));
}

#[test]
fn blocks_are_rewritten() {
    let mixed = b"\xa3\x62aa\x01\x61b\x02\x61a\x03";
    let ordered = b"\xa3\x61a\x03\x61b\x02\x62aa\x01";
    assert_eq!(kombilad::canonicalize(mixed).as_deref(), Ok(&ordered[..]));
    assert_eq!(kombilad::is_canonical(mixed), Ok(false));
    assert_eq!(kombilad::is_canonical(ordered), Ok(true));
    assert_eq!(stop(kombilad::is_canonical(b"\x81")), (BlockError::End, 1));
    assert_eq!(stop(kombilad::canonicalize(b"\x81")), (BlockError::End, 1));
    let float = b"\xa2\x61b\xfb\x80\0\0\0\0\0\0\0\x61a\xfb\x3f\xf0\0\0\0\0\0\0";
    let ordered = b"\xa2\x61a\xfb\x3f\xf0\0\0\0\0\0\0\x61b\xfb\x80\0\0\0\0\0\0\0";
    assert_eq!(kombilad::canonicalize(float).as_deref(), Ok(&ordered[..]));
}

#[test]
fn blocks_are_json() {
    let link = b"\x83\xd8\x2a\x45\0\x01\x55\0\0\x80\xa0";
    let map = b"\xa2\x61b\xa1\x61/\x02\x62aa\x01";
    let same: [(&str, &[u8]); 7] = [
        ("null", b"\xf6"),
        ("18446744073709551615", b"\x1b\xff\xff\xff\xff\xff\xff\xff\xff"),
        ("-0.0", b"\xfb\x80\0\0\0\0\0\0\0"),
        (r#""\"é\u001f""#, b"\x64\x22\xc3\xa9\x1f"),
        (r#"{"/":{"bytes":"aGk"}}"#, b"\x42hi"),
        (r#"[{"/":"bafkqaaa"},[],{}]"#, link),
        (r#"{"aa":1,"b":{"/":2}}"#, map),
    ];
    for (text, block) in same {
        assert_eq!(kombilad::to_json(block).as_deref(), Ok(text));
        assert_eq!(kombilad::from_json(text).as_deref(), Ok(block));
        assert_eq!(kombilad::from_json(format!(" {text}\n")).as_deref(), Ok(block));
    }
    let unordered = b"\xa2\x62aa\x01\x61b\x02";
    assert_eq!(kombilad::to_json(unordered).as_deref(), Ok(r#"{"aa":1,"b":2}"#));
    // More bytes than the first allocation has room for.
    let escaped = [&b"\x7a\0\x01\x86\xa0"[..], &[1; 100_000]].concat();
    let text = format!(r#""{}""#, r"\u0001".repeat(100_000));
    assert_eq!(kombilad::to_json(&escaped).as_ref(), Ok(&text));
    let floats = format!("[{}1.5]", "1.5,".repeat(9999));
    assert_eq!(kombilad::from_json(floats).map(|block| block.len()), Ok(90_003));
    let wrong: [(&[u8], JsonError, usize); 9] = [
        (b"\"\xff\"", JsonError::Utf8, 1),
        (b"[1,]", JsonError::Syntax, 3),
        (b"", JsonError::End, 0),
        (b"1e400", JsonError::Float, 0),
        (b" 18446744073709551616", JsonError::IntegerRange, 1),
        (br#"{"a":1,"\u0061":2}"#, JsonError::DuplicateKey, 7),
        (br#"{"/":"bafkqaa"}"#, JsonError::Link, 14),
        (br#"{"/":{"bytes":"="}}"#, JsonError::Bytes, 18),
        (br#"{"/":"bafkqaaa","0":1}"#, JsonError::Reserved, 21),
    ];
    for (text, error, offset) in wrong {
        assert_eq!(kombilad::from_json(text), Err(Error::Json { error, offset }));
    }
    let reserved = b"\x82\0\xa1\x61/\x61a";
    assert_eq!(kombilad::to_json(reserved), Err(Error::ReservedMap { offset: 2 }));
    let sentence = "a map would be read as a link or as bytes in DAG-JSON, at byte 2";
    assert_eq!(Error::ReservedMap { offset: 2 }.to_string(), sentence);
    let cut = Error::Json { error: JsonError::End, offset: 1 };
    assert_eq!(cut.to_string(), "the text ends before its value does, at byte 1");
    let flat = Limits { levels: 1, ..Limits::default() };
    assert_eq!(flat.from_json("[[]]"), Err(Error::TooDeep { offset: 1 }));
    assert_eq!(flat.to_json(b"\x81\x80"), Err(Error::TooDeep { offset: 1 }));
    let few = Limits { values: 2, ..Limits::default() };
    assert_eq!(few.from_json(r#"[{"/":"bafkqaaa"}]"#), Err(Error::TooMany { offset: 6 }));
}

#[test]
fn values_are_found_at_paths() {
    let text = r#"{"a":[1,{"b":"cd","é":[{"/":"bafkqaaa"}]}],"l":{"/":"bafkqaaa"},"0":{"1":null}}"#;
    let block = kombilad::from_json(text).unwrap();
    let found = [
        ("", text, ""),
        ("//", text, ""),
        ("a", r#"[1,{"b":"cd","é":[{"/":"bafkqaaa"}]}]"#, ""),
        ("a/+0", "1", ""),
        ("/a//1/b/", r#""cd""#, ""),
        ("a/01/é", r#"[{"/":"bafkqaaa"}]"#, ""),
        ("0/1", "null", ""),
        ("l/", r#"{"/":"bafkqaaa"}"#, ""),
        ("l//x/é/", r#"{"/":"bafkqaaa"}"#, "x/é/"),
        ("a/1/é/0/é", r#"{"/":"bafkqaaa"}"#, "é"),
    ];
    for (path, json, rest) in found {
        let (value, left) = kombilad::get(&block, path).unwrap();
        let json = kombilad::from_json(json).unwrap();
        assert_eq!((value, left), (&json[..], rest), "{path}");
        assert!(block.as_ptr_range().contains(&value.as_ptr()));
    }
    let missing = [
        ("b", PathError::Missing, 1),
        ("a/2/x", PathError::Missing, 2),
        ("a//-1", PathError::Missing, 2),
        ("a/18446744073709551616", PathError::Missing, 2),
        ("a/1/e\u{301}", PathError::Missing, 3),
        ("a/0/0", PathError::NotAContainer, 3),
        ("0/1/x/y", PathError::NotAContainer, 3),
    ];
    for (path, error, segment) in missing {
        assert_eq!(kombilad::get(&block, path), Err(Error::Path { error, segment }), "{path}");
    }
    let missing = Error::Path { error: PathError::Missing, segment: 2 };
    assert_eq!(missing.to_string(), "the path leads to no key or index, at segment 2");
    let ends = "the path continues after a value that is not a list, a map or a link";
    assert_eq!(PathError::NotAContainer.to_string(), ends);

    // The whole block is checked before.
    for len in 0..block.len() {
        assert_eq!(
            kombilad::get(&block[..len], "b"),
            Err(kombilad::check(&block[..len]).unwrap_err())
        );
    }
    let flat = Limits { levels: 3, ..Limits::default() };
    assert_eq!(flat.get(&block, "b"), Err(flat.check(&block).unwrap_err()));
}

#[test]
fn limits_are_kept() {
    let deep = [vec![0x81; 1024], vec![0x80]].concat();
    assert_eq!(kombilad::check(&deep), Err(Error::TooDeep { offset: 1024 }));
    assert_eq!(kombilad::links(&deep), Err(Error::TooDeep { offset: 1024 }));
    let deeper = Limits { levels: 1025, ..Limits::default() };
    assert_eq!(deeper.canonicalize(&deep).as_ref(), Ok(&deep));
    let fewer = Limits { values: 1024, ..deeper };
    assert_eq!(fewer.canonicalize(&deep), Err(Error::TooMany { offset: 1024 }));
    assert_eq!(fewer.count_links(&deep), Err(Error::TooMany { offset: 1024 }));
    assert_eq!(fewer.is_canonical(&deep), Err(Error::TooMany { offset: 1024 }));
}

#[test]
fn threads_call_at_once() {
    let block = list(&[cid(EMPTY_MAP); 20]);
    thread::scope(|scope| {
        for _ in 0..8 {
            scope.spawn(|| {
                for _ in 0..1000 {
                    assert_eq!(kombilad::links(&block).map(|links| links.len()), Ok(20));
                }
            });
        }
    });
}

#[test]
fn the_version_is_this_crates() {
    let (major, minor, patch) = kombilad::version();
    assert_eq!(format!("{major}.{minor}.{patch}"), env!("CARGO_PKG_VERSION"));
}
