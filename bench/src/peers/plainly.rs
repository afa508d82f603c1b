//! The rows of [`plain`](super::plain).

use super::cids;
use super::plain::{self, Cid, Tree};
use crate::row::Row;
use std::hint::black_box;

const NAME: &str = "plain";

fn read(bytes: &[u8]) -> Option<Cid> {
    Cid::from_bytes(bytes).ok()
}

/// The tree of a block of the benchmark, which is well formed.
pub fn tree(block: &[u8]) -> Tree {
    plain::decode(block).expect("a block of bench/data.py is strict DAG-CBOR")
}

pub fn cid_from_bytes(row: Row, bytes: &'static [u8]) -> Row {
    cids::from_bytes(row, NAME, bytes, read)
}

pub fn cid_to_bytes(row: Row, bytes: &'static [u8]) -> Row {
    cids::written(row, NAME, bytes, read, |cid| cid.to_bytes())
}

pub fn decode(row: Row, block: &'static [u8]) -> Row {
    row.beside(NAME, || u64::from(black_box(plain::decode(black_box(block))).is_ok()))
}

pub fn node(row: Row, block: &'static [u8]) -> Row {
    row.beside(NAME, || {
        black_box(plain::node(black_box(block))).map_or(0, |node| node.links.len() as u64)
    })
}

pub fn missing(row: Row, car: &'static [u8]) -> Row {
    row.beside(NAME, || {
        black_box(plain::missing(black_box(car))).map_or(0, |missing| missing.len() as u64)
    })
}

pub fn links(row: Row, block: &'static [u8]) -> Row {
    row.beside(NAME, || {
        black_box(plain::links(black_box(block))).map_or(0, |links| links.len() as u64)
    })
}

pub fn encode(row: Row, block: &'static [u8]) -> Row {
    let tree = tree(block);
    row.beside(NAME, move || {
        black_box(plain::encode(black_box(&tree))).map_or(0, |block| block.len() as u64)
    })
}

pub fn references(row: Row, block: &'static [u8]) -> Row {
    let tree = tree(block);
    row.beside(NAME, move || black_box(black_box(&tree).references()).len() as u64)
}

pub fn iter(row: Row, block: &'static [u8]) -> Row {
    let tree = tree(block);
    row.beside(NAME, move || black_box(&tree).iter().count() as u64)
}

pub fn clone(row: Row, block: &'static [u8]) -> Row {
    let tree = tree(block);
    row.beside(NAME, move || {
        black_box(black_box(&tree).clone());
        1
    })
}
