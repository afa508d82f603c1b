//! The crate `serde_ipld_dagcbor`: DAG-CBOR for the trees and the typed values of `ipld-core`.

use super::ipld_core::{person, tree};
use super::message::Message;
use super::person::Person;
use super::post::Post;
use crate::row::Row;
use ipld_core::cid::Cid;
use ipld_core::ipld::Ipld;
use ipld_core::serde::ExtractLinks;
use serde::{de::DeserializeOwned, Serialize};
use serde_ipld_dagcbor::{from_slice, to_vec};
use std::hint::black_box;

const NAME: &str = "serde_ipld_dagcbor";

fn reads<T: DeserializeOwned>(row: Row, block: &'static [u8]) -> Row {
    row.beside(NAME, || u64::from(black_box(from_slice::<T>(black_box(block))).is_ok()))
}

fn writes<T: Serialize + 'static>(row: Row, value: T) -> Row {
    row.beside(NAME, move || {
        black_box(to_vec(black_box(&value))).map_or(0, |block| block.len() as u64)
    })
}

pub fn decode(row: Row, block: &'static [u8]) -> Row {
    reads::<Ipld>(row, block)
}

pub fn links(row: Row, block: &'static [u8]) -> Row {
    row.beside(NAME, || {
        let links = from_slice::<ExtractLinks<64>>(black_box(block));
        black_box(links).map_or(0, |links| links.into_vec().len() as u64)
    })
}

pub fn encode(row: Row, block: &'static [u8]) -> Row {
    writes(row, tree(block))
}

pub fn block_to_struct(row: Row, block: &'static [u8]) -> Row {
    reads::<Person<Cid>>(row, block)
}

pub fn block_to_post(row: Row, block: &'static [u8]) -> Row {
    reads::<Post<Cid>>(row, block)
}

pub fn block_to_message(row: Row, block: &'static [u8]) -> Row {
    reads::<Message>(row, block)
}

pub fn struct_to_block(row: Row, block: &'static [u8]) -> Row {
    writes(row, person(block))
}
