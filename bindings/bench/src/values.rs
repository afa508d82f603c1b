//! Values of blocks, and blocks of values, beside `plain`, and a struct beside `serde_cbor`.

use std::fs;
use std::hint::black_box;
use std::path::Path;

use kombilad::{Cid, Ipld, Tape};
use serde::{Deserialize, Serialize};
use serde_bytes::ByteBuf;

use crate::plain;

pub const BLOCKS: [&str; 6] = ["record", "file", "hamt", "integers", "keys", "strings"];

/// A struct of five fields; `serde_cbor` passes over a link's tag, and reads its bytes.
#[derive(Serialize, Deserialize)]
struct Person<Link> {
    name: String,
    age: u8,
    hobbies: Vec<String>,
    is_cool: bool,
    link: Link,
}

/// Work that this project and a peer do: its name, and a sum of what each found.
pub struct Row {
    pub name: String,
    pub peer: &'static str,
    pub ours: Box<dyn Fn() -> usize>,
    pub theirs: Box<dyn Fn() -> usize>,
}

pub fn rows(folder: &Path) -> Vec<Row> {
    let load = |name: &str| -> &'static [u8] {
        fs::read(folder.join(format!("{name}.cbor"))).expect("the data are there").leak()
    };
    let mut rows = Vec::new();
    for name in BLOCKS {
        let block = load(name);
        rows.push(Row {
            name: format!("tape of `{name}`"),
            peer: "`check`",
            ours: Box::new(|| {
                Tape::of(black_box(block)).map_or(0, |tape| tape.entry_count().min(1))
            }),
            theirs: Box::new(|| kombilad::check(black_box(block)).map_or(0, |()| 1)),
        });
        rows.push(Row {
            name: format!("tree of `{name}`"),
            peer: "`plain`",
            ours: Box::new(|| Ipld::from_block(black_box(block)).map_or(0, |_| 1)),
            theirs: Box::new(|| plain::decode(black_box(block)).map_or(0, |_| 1)),
        });
        let (ours, theirs) =
            (Ipld::from_block(block).expect("a block"), plain::decode(block).expect("a block"));
        rows.push(Row {
            name: format!("block of `{name}`"),
            peer: "`plain`",
            ours: Box::new(move || ours.to_block().map_or(0, |block| block.len())),
            theirs: Box::new(move || plain::encode(&theirs).map_or(0, |block| block.len())),
        });
    }
    let block = load("person");
    rows.push(Row {
        name: "struct from its block".to_owned(),
        peer: "`serde_cbor`",
        ours: Box::new(|| {
            kombilad::from_slice::<Person<Cid>>(black_box(block)).expect("a person").name.len()
        }),
        theirs: Box::new(|| {
            serde_cbor::from_slice::<Person<ByteBuf>>(black_box(block))
                .expect("a person")
                .name
                .len()
        }),
    });
    let (ours, theirs) = (
        kombilad::from_slice::<Person<Cid>>(block).expect("a person"),
        serde_cbor::from_slice::<Person<ByteBuf>>(block).expect("a person"),
    );
    rows.push(Row {
        name: "struct to its block".to_owned(),
        peer: "`serde_cbor`, without the tag",
        ours: Box::new(move || kombilad::to_vec(&ours).map_or(0, |block| block.len().min(1))),
        theirs: Box::new(move || serde_cbor::to_vec(&theirs).map_or(0, |block| block.len().min(1))),
    });
    rows
}
