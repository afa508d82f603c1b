//! The crate `ipld-core`: its CIDs, its tree, its conversions of typed values. It has no format of
//! its own.

use super::cids;
use super::person::Person;
use super::plain::{self, Tree};
use super::plainly;
use crate::row::Row;
use ipld_core::cid::Cid;
use ipld_core::ipld::Ipld;
use ipld_core::serde::{from_ipld, to_ipld};
use std::hint::black_box;

const NAME: &str = "ipld-core";

fn read(bytes: &[u8]) -> Option<Cid> {
    Cid::try_from(bytes).ok()
}

fn ipld_of(tree: Tree) -> Ipld {
    match tree {
        Tree::Null => Ipld::Null,
        Tree::Bool(value) => Ipld::Bool(value),
        Tree::Integer(number) => Ipld::Integer(number),
        Tree::String(string) => Ipld::String(string),
        Tree::Bytes(bytes) => Ipld::Bytes(bytes),
        Tree::List(items) => Ipld::List(items.into_iter().map(ipld_of).collect()),
        Tree::Map(entries) => {
            let entries = entries.into_iter();
            Ipld::Map(entries.map(|(key, value)| (key, ipld_of(value))).collect())
        }
        Tree::Link(cid) => Ipld::Link(link_of(cid)),
    }
}

fn link_of(cid: plain::Cid) -> Cid {
    read(&cid.to_bytes()).expect("both read the same CIDs")
}

/// The tree of a block of the benchmark.
pub fn tree(block: &[u8]) -> Ipld {
    ipld_of(plainly::tree(block))
}

/// The struct of the typed rows.
pub fn person(block: &[u8]) -> Person<Cid> {
    from_ipld(tree(block)).expect("the block of bench/data.py is a person")
}

pub fn cid_from_bytes(row: Row, bytes: &'static [u8]) -> Row {
    cids::from_bytes(row, NAME, bytes, read)
}

pub fn cid_from_text(row: Row, texts: &'static [u8]) -> Row {
    cids::from_text(row, NAME, texts, |text| Cid::try_from(text).ok())
}

pub fn cid_to_bytes(row: Row, bytes: &'static [u8]) -> Row {
    cids::written(row, NAME, bytes, read, |cid| cid.to_bytes())
}

pub fn cid_to_text(row: Row, bytes: &'static [u8]) -> Row {
    cids::written(row, NAME, bytes, read, |cid| cid.to_string())
}

pub fn references(row: Row, block: &'static [u8]) -> Row {
    let tree = tree(block);
    row.beside(NAME, move || {
        let mut links: Vec<Cid> = Vec::new();
        black_box(&tree).references(&mut links);
        black_box(links).len() as u64
    })
}

pub fn iter(row: Row, block: &'static [u8]) -> Row {
    let tree = tree(block);
    row.beside(NAME, move || black_box(&tree).iter().count() as u64)
}

pub fn clone(row: Row, block: &'static [u8]) -> Row {
    let tree = tree(block);
    row.beside(NAME, move || {
        black_box(black_box(&tree).clone());
        1
    })
}

pub fn struct_to_tree(row: Row, block: &'static [u8]) -> Row {
    let person = person(block);
    row.beside(NAME, move || u64::from(black_box(to_ipld(black_box(&person))).is_ok()))
}

pub fn tree_to_struct(row: Row, block: &'static [u8]) -> Row {
    let tree = tree(block);
    row.beside(NAME, move || {
        let person = from_ipld::<Person<Cid>>(black_box(&tree).clone());
        u64::from(black_box(person).is_ok())
    })
}
