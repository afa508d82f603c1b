//! Trees written as blocks.

use super::header as h;
use super::{Malformed, Tree};

/// The block of a tree.
pub fn encode(tree: &Tree) -> Result<Vec<u8>, Malformed> {
    let mut block = Vec::new();
    value(&mut block, tree)?;
    Ok(block)
}

fn value(block: &mut Vec<u8>, tree: &Tree) -> Result<(), Malformed> {
    match tree {
        Tree::Null => head(block, h::SIMPLE, h::NULL),
        Tree::Bool(true) => head(block, h::SIMPLE, h::TRUE),
        Tree::Bool(false) => head(block, h::SIMPLE, h::FALSE),
        Tree::Integer(n) if *n >= 0 => head(block, h::UNSIGNED, argument(*n)?),
        Tree::Integer(n) => head(block, h::NEGATIVE, argument(-1 - *n)?),
        Tree::String(string) => bytes(block, h::STRING, string.as_bytes()),
        Tree::Bytes(content) => bytes(block, h::BYTES, content),
        Tree::List(items) => {
            head(block, h::LIST, items.len() as u64);
            for item in items {
                value(block, item)?;
            }
        }
        Tree::Map(entries) => {
            head(block, h::MAP, entries.len() as u64);
            let mut entries: Vec<_> = entries.iter().collect();
            // They come in byte order, and keep it where their lengths are the same.
            entries.sort_by_key(|(key, _)| key.len());
            for (key, entry) in entries {
                bytes(block, h::STRING, key.as_bytes());
                value(block, entry)?;
            }
        }
        Tree::Link(cid) => {
            head(block, h::TAG, h::LINK);
            head(block, h::BYTES, 1 + cid.encoded_len() as u64);
            block.push(0);
            cid.write(block);
        }
    }
    Ok(())
}

fn argument(number: i128) -> Result<u64, Malformed> {
    u64::try_from(number).map_err(|_| Malformed)
}

fn bytes(block: &mut Vec<u8>, major: u8, content: &[u8]) {
    head(block, major, content.len() as u64);
    block.extend_from_slice(content);
}

/// A head whose argument is in its shortest form.
#[inline(always)]
fn head(block: &mut Vec<u8>, major: u8, argument: u64) {
    let lead = |information: u8| major << 5 | information;
    if argument < 24 {
        block.push(lead(argument as u8));
    } else if let Ok(short) = u8::try_from(argument) {
        block.extend_from_slice(&[lead(24), short]);
    } else if let Ok(short) = u16::try_from(argument) {
        block.push(lead(25));
        block.extend_from_slice(&short.to_be_bytes());
    } else if let Ok(short) = u32::try_from(argument) {
        block.push(lead(26));
        block.extend_from_slice(&short.to_be_bytes());
    } else {
        block.push(lead(27));
        block.extend_from_slice(&argument.to_be_bytes());
    }
}
