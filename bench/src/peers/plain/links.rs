//! The links of a block, without a tree.

use super::header::{self as h, Reader};
use super::{Cid, Malformed, DEEPEST};

/// The links of a block, in the order of its bytes.
pub fn links(block: &[u8]) -> Result<Vec<Cid>, Malformed> {
    let mut reader = Reader(block);
    let mut found = Vec::new();
    value(&mut reader, DEEPEST, &mut found)?;
    reader.end()?;
    Ok(found)
}

fn value(reader: &mut Reader, deeper: u32, found: &mut Vec<Cid>) -> Result<(), Malformed> {
    match reader.head()? {
        (h::UNSIGNED | h::NEGATIVE, _) => {}
        (h::BYTES, length) => {
            reader.bytes(length)?;
        }
        (h::STRING, length) => {
            reader.string(length)?;
        }
        (h::LIST, length) => {
            let deeper = deeper.checked_sub(1).ok_or(Malformed)?;
            for _ in 0..length {
                value(reader, deeper, found)?;
            }
        }
        (h::MAP, length) => {
            let deeper = deeper.checked_sub(1).ok_or(Malformed)?;
            let mut before = None;
            for _ in 0..length {
                before = Some(reader.key(before)?);
                value(reader, deeper, found)?;
            }
        }
        (h::TAG, tag) => found.push(reader.link(tag)?),
        (_, h::FALSE | h::TRUE | h::NULL) => {}
        _ => return Err(Malformed),
    }
    Ok(())
}
