//! Content identifiers (CIDs), blocks of DAG-CBOR and DAG-PB, and files and folders of UnixFS, read
//! and written by the proved library `libkombilad`.
//!
//! ```
//! use kombilad::Cid;
//!
//! let block = b"\x82\xd8\x2a\x58\x25\x00\x01\x71\x12\x20\xc1\x9a\x79\x7f\xa1\xfd\x59\x0c\xd2\xe5\xb4\x2d\x1c\xf5\xf2\x46\xe2\x9b\x91\x68\x4e\x2f\x87\x40\x4b\x81\xdc\x34\x5c\x7a\x56\xa0\x07";
//! let links = kombilad::links(block)?;
//! assert_eq!(links, ["bafyreigbtj4x7ip5legnfznufuopl4sg4knzc2cof6duas4b3q2fy6swua".parse::<Cid>()?]);
//! # Ok::<(), kombilad::Error>(())
//! ```
//!
//! - [`Cid`] is a CID with a digest of at most 64 bytes.
//! - [`links`] finds every link of a block, [`check`] validates a block, and [`canonicalize`] sorts
//!   its keys.
//! - [`to_json`] converts a block to DAG-JSON, and [`from_json`] converts DAG-JSON to a block.
//! - [`get`] finds the value at a path in a block.
//! - A [`Tape`] reads the values of a block in place, and an [`Ipld`] is a tree of them.
//! - `from_slice` and `to_vec` decode and encode the types of serde. They need the feature `serde`,
//!   which is on by default.
//! - A [`PbNode`] has the links and the data of a block of DAG-PB.
//! - A [`CarReader`] reads the blocks of a CAR file, one at a time, and a [`CarWriter`] writes them.
//!   [`Cid::verify`] checks that a block has the digest of its CID.
//! - [`unixfs`] reads files and folders from blocks that it verifies: a [`unixfs::FileReader`] has
//!   the bytes of a file, and a [`unixfs::Folder`] the entries of a folder. A [`unixfs::Packer`]
//!   makes the blocks.
//!
//! All of them accept untrusted bytes. Each thread keeps up to 64 KiB of buffers from one block for
//! the next.
//!
//! The library itself is proved, and recurses for at most 32 levels of a block. This crate's own
//! code is tested, not proved: the tree, the types of serde, and the tapes that it encodes.
#![deny(unsafe_code)]
#![warn(missing_docs)]

mod block;
mod car;
mod car_writer;
mod cid;
#[cfg(feature = "serde")]
mod de;
mod error;
#[allow(unsafe_code)]
mod ffi;
mod ipld;
mod packer;
mod pb;
mod room;
#[cfg(feature = "serde")]
mod ser;
mod tape;
pub mod unixfs;
mod write;

pub use block::{
    canonicalize, check, count_links, from_json, get, is_canonical, link_positions, links, to_json,
    Limits, Links,
};
pub use car::{CarReadError, CarReader, Section};
pub use car_writer::{CarWriter, IndexedCarWriter};
pub use cid::{Base, Cid, Version};
#[cfg(feature = "serde")]
pub use de::{from_slice, SERDE_LEVELS};
#[cfg(feature = "serde")]
pub use error::DecodeError;
pub use error::{
    BlockError, CarError, CidError, EncodeError, Error, FileError, FolderError, JsonError,
    PathError, PbError, TextError, UnixfsError,
};
pub use ipld::Ipld;
pub use pb::{PbLink, PbNode};
#[cfg(feature = "serde")]
pub use ser::to_vec;
pub use tape::{Items, Kind, Pairs, Tape, TapeRef};

/// The code of DAG-CBOR in the table of multicodecs.
pub const DAG_CBOR: u64 = 0x71;
/// The code of DAG-PB in the table of multicodecs.
pub const DAG_PB: u64 = 0x70;
/// The code of plain bytes in the table of multicodecs.
pub const RAW: u64 = 0x55;
/// The code of SHA2-256 in the table of multicodecs.
pub const SHA2_256: u64 = 0x12;

/// Returns the version of libkombilad, such as `(0, 1, 0)`.
pub fn version() -> (u8, u8, u8) {
    let [_, major, minor, patch] = ffi::version().to_be_bytes();
    (major, minor, patch)
}
