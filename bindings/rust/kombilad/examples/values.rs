//! Prints the items of the block in a file. Then encodes a struct that has the block's CID, decodes
//! it and prints it.

use std::error::Error;
use std::{env, fs};

use kombilad::{Cid, Ipld, Tape};
use serde::{Deserialize, Serialize};

// [begin: type]
#[derive(Serialize, Deserialize)]
struct Post<'a> {
    text: &'a str,
    of: Cid,
}
// [end: type]

fn main() -> Result<(), Box<dyn Error>> {
    let block = fs::read(env::args().nth(1).ok_or("the name of a file is wanted")?)?;
    // [begin: values]
    let tape = Tape::of(&block)?;
    for item in tape.root().items() {
        println!("{:?}", Ipld::from(item));
    }

    let post = Post { text: "hi", of: Cid::of_block(kombilad::DAG_CBOR, &block) };
    let encoded = kombilad::to_vec(&post)?;
    let read: Post = kombilad::from_slice(&encoded)?;
    println!("{} {}", read.text, read.of);
    // [end: values]
    assert_eq!((read.text, read.of), (post.text, post.of));
    Ok(())
}
