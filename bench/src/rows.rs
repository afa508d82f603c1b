//! All rows.

use crate::data::{load, BLOCKS, CAR, CID_BYTES, MESSAGE, NODE, PERSON, POST};
use crate::ours::{self, run};
use crate::peers::{self, plainly};
use crate::row::Row;
use std::io;
use std::path::Path;

/// Puts a row beside a peer that may not be there.
macro_rules! beside {
    ($row:ident, $bytes:ident: $($feature:literal $peer:ident::$function:ident),*) => {
        $(#[cfg(feature = $feature)]
        let $row = peers::$peer::$function($row, $bytes);)*
    };
}

/// The rows of the data in this folder.
pub fn all(folder: &Path) -> io::Result<Vec<Row>> {
    let mut rows = Vec::from(cids(load(folder, "cids.bin")?, load(folder, "cids.txt")?));
    for name in BLOCKS {
        let block = load(folder, &format!("{name}.cbor"))?;
        rows.extend(blocks(name, block));
        rows.extend(trees(name, block));
    }
    rows.extend(typed(load(folder, &format!("{PERSON}.cbor"))?));
    rows.push(post(load(folder, &format!("{POST}.cbor"))?));
    rows.push(message(load(folder, &format!("{MESSAGE}.cbor"))?));
    rows.push(node(load(folder, &format!("{NODE}.pb"))?));
    rows.push(missing(load(folder, CAR)?));
    Ok(rows)
}

fn cids(bytes: &'static [u8], texts: &'static [u8]) -> [Row; 4] {
    let new = |work: &str, of: &'static [u8], ours| {
        let mut row = Row::new(format!("cid {work}"), of.len(), ours);
        row.pieces = (bytes.len() / CID_BYTES) as u64;
        row
    };

    let row = new("from bytes", bytes, run(ours::bench_cid_from_bytes, bytes));
    let row = plainly::cid_from_bytes(row, bytes);
    beside!(row, bytes: "cid" cid::from_bytes, "ipld-core" ipld_core::cid_from_bytes);
    let from_bytes = row;

    let row = new("to bytes", bytes, run(ours::bench_cid_to_bytes, bytes));
    let row = plainly::cid_to_bytes(row, bytes);
    beside!(row, bytes: "cid" cid::to_bytes, "ipld-core" ipld_core::cid_to_bytes);
    let to_bytes = row;

    let row = new("from text", texts, run(ours::bench_cid_from_text, texts));
    beside!(row, texts: "cid" cid::from_text, "ipld-core" ipld_core::cid_from_text);
    let from_text = row;

    let row = new("to text", bytes, run(ours::bench_cid_to_text, bytes));
    beside!(row, bytes: "cid" cid::to_text, "ipld-core" ipld_core::cid_to_text);
    [from_bytes, to_bytes, from_text, row]
}

fn blocks(name: &str, block: &'static [u8]) -> [Row; 4] {
    let new = |work: &str, ours| Row::new(format!("{work} {name}"), block.len(), ours);

    let row = new("decode", run(ours::bench_decode, block));
    let row = plainly::decode(row, block);
    beside!(row, block: "serde_cbor" serde_cbor::decode, "serde_ipld_dagcbor" dag_cbor::decode);
    let decode = row;

    let row = new("decode within", run(ours::bench_decode_within, block));
    let row = plainly::decode(row, block);
    beside!(row, block: "serde_cbor" serde_cbor::decode, "serde_ipld_dagcbor" dag_cbor::decode);
    let decode_within = row;

    let row = new("links", run(ours::bench_links, block));
    let row = plainly::links(row, block);
    beside!(row, block: "serde_ipld_dagcbor" dag_cbor::links);
    let links = row;

    let row = new("encode", run(ours::bench_encode, block));
    let row = plainly::encode(row, block);
    beside!(row, block: "serde_cbor" serde_cbor::encode, "serde_ipld_dagcbor" dag_cbor::encode);
    [decode, decode_within, links, row]
}

fn trees(name: &str, block: &'static [u8]) -> [Row; 3] {
    let new = |work: &str, ours| Row::new(format!("{work} {name}"), block.len(), ours);

    let row = new("references", run(ours::bench_references, block));
    let row = plainly::references(row, block);
    beside!(row, block: "ipld-core" ipld_core::references);
    let references = row;

    let row = new("iter", run(ours::bench_iter, block));
    let row = plainly::iter(row, block);
    beside!(row, block: "ipld-core" ipld_core::iter);
    let iter = row;

    let row = new("clone", run(ours::bench_clone, block));
    let row = plainly::clone(row, block);
    beside!(row, block: "serde_cbor" serde_cbor::clone, "ipld-core" ipld_core::clone);
    [references, iter, row]
}

fn typed(block: &'static [u8]) -> [Row; 4] {
    let new = |work: &str, ours| Row::new(work, block.len(), ours);

    let row = new("block to struct", run(ours::bench_block_to_struct, block));
    beside!(row, block: "serde_cbor" serde_cbor::block_to_struct,
        "serde_ipld_dagcbor" dag_cbor::block_to_struct);
    let block_to_struct = row;

    let row = new("struct to block", run(ours::bench_struct_to_block, block));
    beside!(row, block: "serde_cbor" serde_cbor::struct_to_block,
        "serde_ipld_dagcbor" dag_cbor::struct_to_block);
    let struct_to_block = row;

    let row = new("struct to tree", run(ours::bench_to_ipld, block));
    beside!(row, block: "ipld-core" ipld_core::struct_to_tree);
    let struct_to_tree = row;

    let row = new("tree to struct", run(ours::bench_from_ipld, block));
    beside!(row, block: "ipld-core" ipld_core::tree_to_struct);
    [block_to_struct, struct_to_block, struct_to_tree, row]
}

fn post(block: &'static [u8]) -> Row {
    let row = Row::new("block to post", block.len(), run(ours::bench_block_to_post, block));
    beside!(row, block: "serde_cbor" serde_cbor::block_to_post,
        "serde_ipld_dagcbor" dag_cbor::block_to_post);
    row
}

fn message(block: &'static [u8]) -> Row {
    let row = Row::new("block to message", block.len(), run(ours::bench_block_to_message, block));
    beside!(row, block: "serde_cbor" serde_cbor::block_to_message,
        "serde_ipld_dagcbor" dag_cbor::block_to_message);
    row
}

fn node(block: &'static [u8]) -> Row {
    let row = Row::new("node of dag-pb", block.len(), run(ours::bench_read_node, block));
    plainly::node(row, block)
}

fn missing(car: &'static [u8]) -> Row {
    let row = Row::new("missing in car", car.len(), run(ours::bench_missing_in_car, car));
    plainly::missing(row, car)
}
