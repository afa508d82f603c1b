//! Blocks read as trees.

use super::header::{self as h, Reader};
use super::{Malformed, Tree, DEEPEST};
use std::collections::BTreeMap;

/// The tree of a block.
pub fn decode(block: &[u8]) -> Result<Tree, Malformed> {
    let mut reader = Reader(block);
    let tree = value(&mut reader, DEEPEST)?;
    reader.end()?;
    Ok(tree)
}

fn value(reader: &mut Reader, deeper: u32) -> Result<Tree, Malformed> {
    Ok(match reader.head()? {
        (h::UNSIGNED, n) => Tree::Integer(i128::from(n)),
        (h::NEGATIVE, n) => Tree::Integer(-1 - i128::from(n)),
        (h::BYTES, length) => Tree::Bytes(reader.bytes(length)?.to_vec()),
        (h::STRING, length) => Tree::String(reader.string(length)?.to_owned()),
        (h::LIST, length) => list(reader, length, deeper)?,
        (h::MAP, length) => map(reader, length, deeper)?,
        (h::TAG, tag) => Tree::Link(reader.link(tag)?),
        (_, h::FALSE) => Tree::Bool(false),
        (_, h::TRUE) => Tree::Bool(true),
        (_, h::NULL) => Tree::Null,
        _ => return Err(Malformed),
    })
}

fn list(reader: &mut Reader, length: u64, deeper: u32) -> Result<Tree, Malformed> {
    let deeper = deeper.checked_sub(1).ok_or(Malformed)?;
    // Each item has a byte at least.
    if length > reader.0.len() as u64 {
        return Err(Malformed);
    }
    let mut items = Vec::with_capacity(length.min(4096) as usize);
    for _ in 0..length {
        items.push(value(reader, deeper)?);
    }
    Ok(Tree::List(items))
}

fn map(reader: &mut Reader, length: u64, deeper: u32) -> Result<Tree, Malformed> {
    let deeper = deeper.checked_sub(1).ok_or(Malformed)?;
    let mut entries = BTreeMap::new();
    let mut before = None;
    for _ in 0..length {
        let key = reader.key(before)?;
        before = Some(key);
        entries.insert(key.to_owned(), value(reader, deeper)?);
    }
    Ok(Tree::Map(entries))
}
