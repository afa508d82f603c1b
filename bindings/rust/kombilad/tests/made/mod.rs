//! Writes blocks of UnixFS by hand, from the specifications of UnixFS and DAG-PB.

use std::collections::HashMap;

use kombilad::{Cid, DAG_PB};

pub type Blocks = HashMap<Cid, Vec<u8>>;

pub fn varint(mut number: u64) -> Vec<u8> {
    let mut bytes = Vec::new();
    while number > 127 {
        bytes.push(number as u8 | 128);
        number >>= 7;
    }
    bytes.push(number as u8);
    bytes
}

/// Returns a field of Protocol Buffers that has bytes.
pub fn field(number: u8, content: &[u8]) -> Vec<u8> {
    [&[number << 3 | 2], &varint(content.len() as u64)[..], content].concat()
}

/// Adds a block to the others, and returns its CID.
pub fn kept(blocks: &mut Blocks, codec: u64, block: Vec<u8>) -> Cid {
    let cid = Cid::of_block(codec, &block);
    blocks.insert(cid, block);
    cid
}

/// Adds a node with these links and this message.
pub fn node(blocks: &mut Blocks, links: &[(&str, Cid)], message: &[u8]) -> Cid {
    let links = links.iter().flat_map(|(name, cid)| {
        let link = [field(1, cid.as_bytes()), field(2, name.as_bytes()), b"\x18\x07".to_vec()];
        field(2, &link.concat())
    });
    let block = links.chain(field(1, message)).collect();
    kept(blocks, DAG_PB, block)
}

/// Adds a node of a file above these parts, which are blocks with their numbers of bytes.
pub fn file_of(blocks: &mut Blocks, parts: &[(Cid, u64)]) -> Cid {
    let mut message = b"\x08\x02\x18".to_vec();
    message.extend(varint(parts.iter().map(|(_, size)| size).sum()));
    for (_, size) in parts {
        message.push(0x20);
        message.extend(varint(*size));
    }
    let links: Vec<_> = parts.iter().map(|(cid, _)| ("", *cid)).collect();
    node(blocks, &links, &message)
}
