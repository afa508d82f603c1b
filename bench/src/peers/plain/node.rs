//! Strict DAG-PB in the plain way: the links of a node, and its data.

use super::{Cid, Malformed};

/// A link: its CID, its name, and how long what it leads to is in all.
pub struct Link<'a> {
    pub hash: Cid,
    pub name: Option<&'a str>,
    pub tsize: Option<u64>,
}

/// A node.
pub struct Node<'a> {
    pub links: Vec<Link<'a>>,
    pub data: Option<&'a [u8]>,
}

const VARINT: u64 = 0;
const BYTES: u64 = 2;

/// The node of a block. Its links stand together, before or behind the data, and the fields of a
/// link in their order.
pub fn node(block: &[u8]) -> Result<Node, Malformed> {
    let mut node = Node { links: Vec::new(), data: None };
    let mut rest = block;
    let mut is_data_first = false;
    while !rest.is_empty() {
        match field(&mut rest)? {
            (1, BYTES) if node.data.is_none() => {
                is_data_first = node.links.is_empty();
                node.data = Some(bytes(&mut rest)?);
            }
            (2, BYTES) if node.data.is_none() || is_data_first => {
                node.links.push(link(bytes(&mut rest)?)?);
            }
            _ => return Err(Malformed),
        }
    }
    Ok(node)
}

fn link(mut rest: &[u8]) -> Result<Link, Malformed> {
    let (mut name, mut tsize) = (None, None);
    let (1, BYTES) = field(&mut rest)? else {
        return Err(Malformed);
    };
    let hash = Cid::from_bytes(bytes(&mut rest)?)?;
    let mut last = 1;
    while !rest.is_empty() {
        let (number, kind) = field(&mut rest)?;
        if number <= last {
            return Err(Malformed);
        }
        last = number;
        match (number, kind) {
            (2, BYTES) => {
                name = Some(std::str::from_utf8(bytes(&mut rest)?).map_err(|_| Malformed)?)
            }
            (3, VARINT) => tsize = Some(varint(&mut rest)?),
            _ => return Err(Malformed),
        }
    }
    Ok(Link { hash, name, tsize })
}

/// The number of a field, and how it is encoded.
fn field(rest: &mut &[u8]) -> Result<(u64, u64), Malformed> {
    let tag = varint(rest)?;
    Ok((tag >> 3, tag & 7))
}

fn bytes<'a>(rest: &mut &'a [u8]) -> Result<&'a [u8], Malformed> {
    let length = usize::try_from(varint(rest)?).map_err(|_| Malformed)?;
    let (bytes, after) = rest.split_at_checked(length).ok_or(Malformed)?;
    *rest = after;
    Ok(bytes)
}

/// The varint that begins here: of protocol buffers, so not the shortest one alone.
fn varint(rest: &mut &[u8]) -> Result<u64, Malformed> {
    let mut number = 0;
    for shift in (0..64).step_by(7) {
        let (&byte, after) = rest.split_first().ok_or(Malformed)?;
        *rest = after;
        number |= u64::from(byte & 0x7f) << shift;
        if byte & 0x80 == 0 {
            return if shift < 63 || byte < 2 { Ok(number) } else { Err(Malformed) };
        }
    }
    Err(Malformed)
}
