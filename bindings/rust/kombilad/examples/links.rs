//! Prints each link of the block in a file.

use std::error::Error;
use std::{env, fs};

fn main() -> Result<(), Box<dyn Error>> {
    let block = fs::read(env::args().nth(1).ok_or("the name of a file is wanted")?)?;
    // [begin: links]
    for cid in kombilad::links(&block)? {
        println!("{cid}");
    }
    // [end: links]
    Ok(())
}
