//! Strict DAG-CBOR in the plain way, by recursion and with the standard library alone: this peer is
//! always there.
//!
//! It rejects what DAG-CBOR forbids: arguments that are not in their shortest form, indefinite
//! lengths, keys that are not strings in ascending length-first order (so none stands twice), other
//! tags than 42, links whose bytes are no CID, and bytes after the block. Like the proved libraries
//! it has no floats. It nests 256 deep. `node` reads DAG-PB, and `missing` a CAR.

mod car;
mod cid;
mod decode;
mod encode;
mod header;
mod links;
mod node;
mod walk;

pub use car::missing;
pub use cid::Cid;
pub use decode::decode;
pub use encode::encode;
pub use links::links;
pub use node::node;

use std::collections::BTreeMap;

/// The bytes are no block.
#[derive(Debug)]
pub struct Malformed;

/// How deep a block may nest.
const DEEPEST: u32 = 256;

/// A tree of the data model, laid out as that of `ipld-core`.
#[derive(Clone, Debug, PartialEq)]
pub enum Tree {
    Null,
    Bool(bool),
    Integer(i128),
    String(String),
    Bytes(Vec<u8>),
    List(Vec<Tree>),
    Map(BTreeMap<String, Tree>),
    Link(Cid),
}
