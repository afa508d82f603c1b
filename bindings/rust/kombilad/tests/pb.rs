//! Tests of nodes of DAG-PB. The bytes are written by hand from its specification.

use kombilad::{CidError, Error, PbError, PbLink, PbNode};

#[test]
fn parts_of_nodes() {
    assert_eq!(PbNode::of(b""), Ok(PbNode { links: vec![], data: None }));
    assert_eq!(PbNode::of(b"\x0a\x00"), Ok(PbNode { links: vec![], data: Some(b"") }));
    let hash = "bafkqaaa".parse().unwrap();
    let named = PbLink { hash, name: Some("a"), tsize: Some(128) };
    let bare = PbLink { hash, name: None, tsize: None };
    let empty = PbLink { hash, name: Some(""), tsize: Some(u64::MAX) };
    let links = b"\x12\x0c\x0a\x04\x01\x55\x00\x00\x12\x01a\x18\x80\x01\x12\x06\x0a\x04\x01\x55\x00\x00\x12\x13\x0a\x04\x01\x55\x00\x00\x12\x00\x18\xff\xff\xff\xff\xff\xff\xff\xff\xff\x01";
    let (before, after) =
        ([b"\x0a\x02hi", &links[..]].concat(), [&links[..], b"\x0a\x02hi"].concat());
    for block in [before, after] {
        assert_eq!(
            PbNode::of(&block),
            Ok(PbNode { links: vec![named, bare, empty], data: Some(b"hi") })
        );
    }
    let many = b"\x12\x06\x0a\x04\x01\x55\x00\x00".repeat(1000);
    assert_eq!(PbNode::of(&many).unwrap().links, vec![bare; 1000]);
}

#[test]
fn what_is_wrong_and_where() {
    let cases: [(&[u8], PbError, usize); 8] = [
        (b"\x0a", PbError::End, 0),
        (b"\x12\xff\xff\xff\xff\xff\xff\xff\xff\xff\x02", PbError::VarintTooLarge, 0),
        (b"\x12\x06\x0a\x04\x01\x55\x00\x00\x18\x00", PbError::UnknownField, 8),
        (b"\x0a\x00\x0a\x00", PbError::FieldOrder, 2),
        (b"\x12\x00", PbError::NoHash, 2),
        (b"\x12\x05\x0a\x03\x01\x55\x00", PbError::Cid(CidError::End), 2),
        (b"\x12\x09\x0a\x04\x01\x55\x00\x00\x12\x01\xff", PbError::Utf8, 8),
        (b"\x0a\x00\x12\x02\x12\x00", PbError::NoHash, 4),
    ];
    for (block, error, offset) in cases {
        assert_eq!(PbNode::of(block), Err(Error::Pb { error, offset }), "{block:x?}");
    }
    assert_eq!(
        PbNode::of(b"\x0a").unwrap_err().to_string(),
        "the bytes end before the field does, at byte 0"
    );
}
