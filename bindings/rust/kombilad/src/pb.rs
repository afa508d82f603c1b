//! Nodes of DAG-PB.

use crate::cid::Cid;
use crate::error::Error;
use crate::ffi::{self, kind};

/// A node of DAG-PB, the format of files and folders in IPFS. Names and data are borrowed from the
/// block.
///
/// ```
/// use kombilad::PbNode;
///
/// let node = PbNode::of(b"\x12\x0b\x0a\x04\x01\x55\x00\x00\x12\x01a\x18\x01\x0a\x02hi")?;
/// assert_eq!(node.data, Some(&b"hi"[..]));
/// assert_eq!(node.links[0].hash, "bafkqaaa".parse()?);
/// assert_eq!((node.links[0].name, node.links[0].tsize), (Some("a"), Some(1)));
/// # Ok::<(), Box<dyn std::error::Error>>(())
/// ```
#[derive(Clone, Debug, PartialEq, Eq)]
pub struct PbNode<'a> {
    /// The links, in the order of the block.
    pub links: Vec<PbLink<'a>>,
    /// The data, or `None` if the block has none. Missing data differ from data of no bytes. Their
    /// content, such as UnixFS, is not interpreted.
    pub data: Option<&'a [u8]>,
}

/// A link of a node of DAG-PB.
#[derive(Clone, Copy, Debug, PartialEq, Eq)]
pub struct PbLink<'a> {
    /// The CID of the target.
    pub hash: Cid,
    /// The name of the link, or `None` if it has none. A missing name differs from an empty one.
    pub name: Option<&'a str>,
    /// The size of the target, as the block states it, or `None` if it doesn't. It is not checked.
    pub tsize: Option<u64>,
}

impl<'a> PbNode<'a> {
    /// Decodes a block, all of its bytes.
    ///
    /// # Errors
    ///
    /// [`Error::Pb`] if the bytes are not a node, [`Error::OutOfMemory`] if an allocation fails,
    /// and [`Error::TooLong`] if a name or the data have 2^32 bytes or more.
    pub fn of(block: &'a [u8]) -> Result<Self, Error> {
        let tape = ffi::Tape::of_node(block).map_err(Error::of_pb)?;
        let mut node = PbNode { links: Vec::new(), data: None };
        for part in tape.parts(0..tape.entries().len()) {
            match (part.entry().kind, node.links.last_mut()) {
                (kind::STRING, Some(link)) => link.name = Some(part.text()),
                (kind::UNSIGNED, Some(link)) => link.tsize = Some(part.entry().value),
                (kind::BYTES, _) => node.data = Some(part.content()),
                _ => node.links.push(PbLink {
                    hash: Cid::of_valid(part.content()),
                    name: None,
                    tsize: None,
                }),
            }
        }
        Ok(node)
    }
}
