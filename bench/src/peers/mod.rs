//! What does the same work as the proved libraries: one module for each peer.

mod cids;
pub mod plain;
pub mod plainly;

#[cfg(feature = "cid")]
pub mod cid;
#[cfg(feature = "serde_ipld_dagcbor")]
pub mod dag_cbor;
#[cfg(feature = "ipld-core")]
pub mod ipld_core;
#[cfg(any(feature = "serde_ipld_dagcbor", feature = "serde_cbor"))]
mod message;
#[cfg(any(feature = "ipld-core", feature = "serde_cbor"))]
mod person;
#[cfg(any(feature = "serde_ipld_dagcbor", feature = "serde_cbor"))]
mod post;
#[cfg(feature = "serde_cbor")]
pub mod serde_cbor;
