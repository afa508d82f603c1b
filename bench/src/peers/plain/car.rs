//! A CAR of version 1 in the plain way.

use super::cid::varint;
use super::{links, Cid, Malformed};
use std::collections::HashSet;

const DAG_CBOR: u64 = 0x71;

/// The CIDs that the header and the blocks of DAG-CBOR link to and of which the CAR has no block,
/// each once, in the order in which they come.
pub fn missing(car: &[u8]) -> Result<Vec<Cid>, Malformed> {
    let mut rest = car;
    let mut named = Vec::new();
    let mut known = HashSet::new();
    let mut blocks = HashSet::new();
    let mut add =
        |links: Vec<Cid>| named.extend(links.into_iter().filter(|link| known.insert(*link)));
    add(links(part(&mut rest)?)?);
    while !rest.is_empty() {
        let (cid, block) = Cid::split(part(&mut rest)?)?;
        blocks.insert(cid);
        if cid.codec() == DAG_CBOR {
            add(links(block)?);
        }
    }
    named.retain(|cid| !blocks.contains(cid));
    Ok(named)
}

/// The part that begins here, behind its length.
fn part<'a>(rest: &mut &'a [u8]) -> Result<&'a [u8], Malformed> {
    let length = usize::try_from(varint(rest)?).map_err(|_| Malformed)?;
    let (part, after) = rest.split_at_checked(length).ok_or(Malformed)?;
    *rest = after;
    Ok(part)
}
