//! The rows of CIDs for any peer, given how it reads and writes one.

use crate::data::{CID_BYTES, CID_LETTERS};
use crate::row::Row;
use std::hint::black_box;
use std::str;

/// The CIDs of these bytes.
fn all<C>(bytes: &[u8], read: impl Fn(&[u8]) -> Option<C>) -> Vec<C> {
    let mut cids = Vec::with_capacity(bytes.len() / CID_BYTES);
    cids.extend(bytes.chunks_exact(CID_BYTES).filter_map(read));
    cids
}

pub fn from_bytes<C>(
    row: Row,
    peer: &'static str,
    bytes: &'static [u8],
    read: impl Fn(&[u8]) -> Option<C> + 'static,
) -> Row {
    row.beside(peer, move || black_box(all(black_box(bytes), &read)).len() as u64)
}

pub fn from_text<C>(
    row: Row,
    peer: &'static str,
    texts: &'static [u8],
    read: impl Fn(&str) -> Option<C> + 'static,
) -> Row {
    row.beside(peer, move || {
        let texts = black_box(texts).chunks_exact(CID_LETTERS);
        let mut cids = Vec::with_capacity(texts.len());
        cids.extend(texts.filter_map(|text| str::from_utf8(text).ok().and_then(&read)));
        black_box(cids).len() as u64
    })
}

/// Writes CIDs, which are read once, as bytes or as texts.
pub fn written<C: 'static, W: AsRef<[u8]>>(
    row: Row,
    peer: &'static str,
    bytes: &'static [u8],
    read: impl Fn(&[u8]) -> Option<C>,
    write: impl Fn(&C) -> W + 'static,
) -> Row {
    let cids = all(bytes, read);
    row.beside(peer, move || {
        let lengths =
            black_box(&cids).iter().map(|cid| black_box(write(cid)).as_ref().len() as u64);
        lengths.sum()
    })
}
