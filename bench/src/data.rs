//! The files that `bench/data.py` makes.

use std::path::Path;
use std::{fs, io};

/// How long each CID is, as bytes and as a text.
pub const CID_BYTES: usize = 36;
pub const CID_LETTERS: usize = 59;

/// The blocks of the rows that have one each, and what they are.
pub const BLOCKS: [&str; 6] = ["record", "file", "hamt", "integers", "keys", "strings"];

/// The block of the struct.
pub const PERSON: &str = "person";

/// The blocks of the post and of the message, and of the node of DAG-PB.
pub const POST: &str = "post";
pub const MESSAGE: &str = "message";
pub const NODE: &str = "node";

/// The CAR.
pub const CAR: &str = "blocks.car";

/// A file of the folder. What is loaded stays until the end.
pub fn load(folder: &Path, name: &str) -> io::Result<&'static [u8]> {
    Ok(fs::read(folder.join(name))?.leak())
}
