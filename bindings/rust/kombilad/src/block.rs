//! Blocks of DAG-CBOR.

use std::ops::Range;
use std::{iter, vec};

use crate::cid::Cid;
use crate::error::Error;
use crate::ffi;
use crate::ipld::Ipld;
use crate::tape::Tape;

/// The number of bytes in a block that a link to a CID with a SHA2-256 digest takes. Most links
/// take as many or more.
const USUAL_LINK: usize = 41;

/// The maximum number of links that the first allocation has room for.
const MOST_AT_FIRST: usize = 4096;

/// Limits for untrusted blocks, and the calls that read a block within them.
///
/// ```
/// use kombilad::{Error, Limits};
///
/// let limits = Limits { levels: 2, ..Limits::default() };
/// assert_eq!(limits.check(b"\x81\x80"), Ok(()));
/// assert_eq!(limits.check(b"\x81\x81\x80"), Err(Error::TooDeep { offset: 2 }));
/// ```
///
/// # Errors
///
/// Each call returns [`Error::TooDeep`] or [`Error::TooMany`] if the block exceeds a limit,
/// [`Error::Block`] with the leftmost error if it is invalid, and [`Error::OutOfMemory`] if an
/// allocation fails. If the bytes exceed a limit and have an error, the first of the two is
/// returned.
#[derive(Clone, Copy, Debug, PartialEq, Eq)]
pub struct Limits {
    /// The maximum depth of nested lists and maps. With 0 the block is neither, and with 1 it may
    /// be a list or a map of other values.
    pub levels: usize,
    /// The maximum number of values: the block itself, the items of its lists and the values of its
    /// maps.
    pub values: usize,
}

impl Default for Limits {
    /// Returns limits of 1,024 levels and any number of values.
    fn default() -> Self {
        Limits { levels: 1024, values: usize::MAX }
    }
}

impl Limits {
    /// Returns the tape of a block, which reads its values in place.
    ///
    /// # Errors
    ///
    /// Those of [`Limits`], and [`Error::TooLong`].
    pub fn tape<'a>(&self, block: &'a [u8]) -> Result<Tape<'a>, Error> {
        Tape::within(self.of(block))
    }

    /// Decodes a block to a tree, which nests at most [`Ipld::LEVELS`] deep.
    ///
    /// # Errors
    ///
    /// Those of [`Limits`], and [`Error::TooLong`].
    pub fn ipld(&self, block: &[u8]) -> Result<Ipld, Error> {
        let levels = self.levels.min(Ipld::LEVELS);
        Limits { levels, ..*self }.tape(block).map(|tape| tape.root().into())
    }

    fn of<'a>(&self, bytes: &'a [u8]) -> ffi::Block<'a> {
        ffi::Block { bytes, levels: self.levels, values: self.values }
    }

    /// Checks that the bytes are one block.
    ///
    /// # Errors
    ///
    /// Those of [`Limits`].
    pub fn check(&self, block: &[u8]) -> Result<(), Error> {
        self.of(block).check().map_err(Error::of_block)
    }

    /// Counts the links of a block.
    ///
    /// # Errors
    ///
    /// Those of [`Limits`].
    pub fn count_links(&self, block: &[u8]) -> Result<usize, Error> {
        self.of(block).count_links().map_err(Error::of_block)
    }

    /// Returns the links of a block in the order of its bytes, with repeats.
    ///
    /// The result is allocated only once if the block has at most 4,096 links, and at most one for
    /// every 41 bytes, the length of a link with a SHA2-256 digest.
    ///
    /// # Errors
    ///
    /// Those of [`Limits`].
    pub fn links(&self, block: &[u8]) -> Result<Links, Error> {
        let found = self.of(block).links(capacity_for(block)).map_err(Error::of_block)?;
        Ok(Links(found.into_iter()))
    }

    /// Returns the positions of the CIDs of a block's links, in the order of its bytes.
    ///
    /// # Errors
    ///
    /// Those of [`Limits`].
    pub fn link_positions(&self, block: &[u8]) -> Result<Vec<Range<usize>>, Error> {
        self.of(block).link_positions(capacity_for(block)).map_err(Error::of_block)
    }

    /// Returns whether a block is in canonical form: whether the keys of each map are sorted by
    /// length, then by bytes.
    ///
    /// # Errors
    ///
    /// Those of [`Limits`].
    pub fn is_canonical(&self, block: &[u8]) -> Result<bool, Error> {
        self.of(block).is_canonical().map_err(Error::of_block)
    }

    /// Returns a block in canonical form: with the keys of each map sorted, and otherwise
    /// unchanged.
    ///
    /// # Errors
    ///
    /// Those of [`Limits`], and [`Error::TooLong`].
    pub fn canonicalize(&self, block: &[u8]) -> Result<Vec<u8>, Error> {
        self.of(block).canonicalize().map_err(Error::of_block)
    }

    /// Returns the bytes of the value at a path in a block, and the rest of the path. These bytes are
    /// a block of their own.
    ///
    /// In a map a segment is a key, and in a list an index. Empty segments are skipped, unlike in
    /// [`TapeRef::at_path`](crate::TapeRef::at_path), and the empty path leads to the whole block.
    /// If the path continues after a link, the value is the link, and the rest leads on from its
    /// block. Otherwise the rest is empty.
    ///
    /// # Errors
    ///
    /// Those of [`Limits`], and then [`Error::Path`].
    pub fn get<'a, 'p>(
        &self,
        block: &'a [u8],
        path: &'p str,
    ) -> Result<(&'a [u8], &'p str), Error> {
        let (value, rest) = self.of(block).at(path).map_err(Error::of_path)?;
        Ok((&block[value], &path[rest..]))
    }

    /// Converts a block to DAG-JSON, without blanks, and with the keys of each object in the order
    /// of their bytes.
    ///
    /// # Errors
    ///
    /// Those of [`Limits`], and [`Error::ReservedMap`].
    pub fn to_json(&self, block: &[u8]) -> Result<String, Error> {
        self.of(block).to_json().map_err(Error::of_block)
    }

    /// Converts DAG-JSON to its canonical block. The text may have blanks, and the keys of an
    /// object in any order. The limits count the arrays, objects and values of the text, so a link
    /// is two values.
    ///
    /// # Errors
    ///
    /// [`Error::Json`] with the first error, [`Error::TooDeep`] and [`Error::TooMany`] if the text
    /// exceeds a limit before that, [`Error::TooLong`], and [`Error::OutOfMemory`].
    pub fn from_json(&self, text: impl AsRef<[u8]>) -> Result<Vec<u8>, Error> {
        self.of(text.as_ref()).of_json().map_err(Error::of_json)
    }
}

fn capacity_for(block: &[u8]) -> usize {
    (block.len() / USUAL_LINK).min(MOST_AT_FIRST)
}

/// Checks that the bytes are one block of DAG-CBOR: [`Limits::check`] within the default limits.
///
/// ```
/// use kombilad::{BlockError, Error};
///
/// assert_eq!(kombilad::check(b"\xa1\x61a\xf6"), Ok(()));
/// let twice = Error::Block { error: BlockError::DuplicateKey, offset: 4 };
/// assert_eq!(kombilad::check(b"\xa2\x61a\x01\x61a\x02"), Err(twice));
/// ```
///
/// # Errors
///
/// Those of [`Limits`].
pub fn check(block: &[u8]) -> Result<(), Error> {
    Limits::default().check(block)
}

/// Counts the links of a block without collecting them: [`Limits::count_links`] within the default
/// limits.
///
/// ```
/// assert_eq!(kombilad::count_links(b"\x82\xd8\x2a\x45\0\x01\x55\0\0\x01"), Ok(1));
/// ```
///
/// # Errors
///
/// Those of [`Limits`].
pub fn count_links(block: &[u8]) -> Result<usize, Error> {
    Limits::default().count_links(block)
}

/// Returns the links of a block in the order of its bytes, with repeats: [`Limits::links`] within
/// the default limits.
///
/// ```
/// let links = kombilad::links(b"\x81\xd8\x2a\x45\0\x01\x55\0\0")?;
/// assert_eq!(links, ["bafkqaaa".parse()?]);
/// # Ok::<(), kombilad::Error>(())
/// ```
///
/// # Errors
///
/// Those of [`Limits`].
pub fn links(block: &[u8]) -> Result<Vec<Cid>, Error> {
    Ok(Links::of(block)?.collect())
}

/// Returns the positions of the CIDs of a block's links: [`Limits::link_positions`] within the
/// default limits.
///
/// ```
/// let block = b"\x81\xd8\x2a\x45\0\x01\x55\0\0";
/// let positions = kombilad::link_positions(block)?;
/// assert_eq!(positions, [5..9]);
/// assert_eq!(block[positions[0].clone()], *b"\x01\x55\0\0");
/// # Ok::<(), kombilad::Error>(())
/// ```
///
/// # Errors
///
/// Those of [`Limits`].
pub fn link_positions(block: &[u8]) -> Result<Vec<Range<usize>>, Error> {
    Limits::default().link_positions(block)
}

/// Returns whether a block is in canonical form: [`Limits::is_canonical`] within the default
/// limits.
///
/// ```
/// assert_eq!(kombilad::is_canonical(b"\xa2\x61b\x01\x62aa\x02"), Ok(true));
/// assert_eq!(kombilad::is_canonical(b"\xa2\x62aa\x02\x61b\x01"), Ok(false));
/// ```
///
/// # Errors
///
/// Those of [`Limits`].
pub fn is_canonical(block: &[u8]) -> Result<bool, Error> {
    Limits::default().is_canonical(block)
}

/// Returns a block in canonical form: [`Limits::canonicalize`] within the default limits.
///
/// ```
/// assert_eq!(kombilad::canonicalize(b"\xa2\x62aa\x02\x61b\x01")?, b"\xa2\x61b\x01\x62aa\x02");
/// # Ok::<(), kombilad::Error>(())
/// ```
///
/// # Errors
///
/// Those of [`Limits`], and [`Error::TooLong`].
pub fn canonicalize(block: &[u8]) -> Result<Vec<u8>, Error> {
    Limits::default().canonicalize(block)
}

/// Returns the bytes of the value at a path in a block, and the rest of the path after a link:
/// [`Limits::get`] within the default limits.
///
/// ```
/// use kombilad::Ipld;
///
/// let block = kombilad::from_json(r#"{"a":[1,{"b":"c"}],"l":{"/":"bafkqaaa"}}"#)?;
/// let (value, _) = kombilad::get(&block, "a/1/b")?;
/// assert_eq!(Ipld::from_block(value)?, Ipld::String("c".into()));
///
/// let (value, rest) = kombilad::get(&block, "l/x/y")?;
/// assert_eq!(Ipld::from_block(value)?, Ipld::Link("bafkqaaa".parse()?));
/// assert_eq!(rest, "x/y");
/// # Ok::<(), kombilad::Error>(())
/// ```
///
/// # Errors
///
/// Those of [`Limits`], and then [`Error::Path`].
pub fn get<'a, 'p>(block: &'a [u8], path: &'p str) -> Result<(&'a [u8], &'p str), Error> {
    Limits::default().get(block, path)
}

/// Converts a block to DAG-JSON: [`Limits::to_json`] within the default limits.
///
/// ```
/// let block = b"\xa2\x61b\xfb\x3f\xf8\0\0\0\0\0\0\x61a\xd8\x2a\x45\0\x01\x55\0\0";
/// assert_eq!(kombilad::to_json(block)?, r#"{"a":{"/":"bafkqaaa"},"b":1.5}"#);
/// # Ok::<(), kombilad::Error>(())
/// ```
///
/// # Errors
///
/// Those of [`Limits`], and [`Error::ReservedMap`].
pub fn to_json(block: &[u8]) -> Result<String, Error> {
    Limits::default().to_json(block)
}

/// Converts DAG-JSON to its canonical block: [`Limits::from_json`] within the default limits.
///
/// ```
/// use kombilad::{Error, JsonError};
///
/// assert_eq!(kombilad::from_json(r#"{"bb": 1, "a": [2]}"#)?, b"\xa2\x61a\x81\x02\x62bb\x01");
/// let ends = Error::Json { error: JsonError::End, offset: 5 };
/// assert_eq!(kombilad::from_json("[1, 2"), Err(ends));
/// # Ok::<(), kombilad::Error>(())
/// ```
///
/// # Errors
///
/// Those of [`Limits::from_json`].
pub fn from_json(text: impl AsRef<[u8]>) -> Result<Vec<u8>, Error> {
    Limits::default().from_json(text)
}

/// An iterator over the links of a block. It owns them.
#[derive(Clone, Debug)]
pub struct Links(vec::IntoIter<Cid>);

impl Links {
    /// Returns the links of a block: [`Limits::links`] within the default limits.
    ///
    /// ```
    /// for cid in kombilad::Links::of(b"\x80")? {
    ///     println!("{cid}");
    /// }
    /// # Ok::<(), kombilad::Error>(())
    /// ```
    ///
    /// # Errors
    ///
    /// Those of [`Limits`].
    pub fn of(block: &[u8]) -> Result<Self, Error> {
        Limits::default().links(block)
    }
}

impl Iterator for Links {
    type Item = Cid;

    fn next(&mut self) -> Option<Cid> {
        self.0.next()
    }

    fn size_hint(&self) -> (usize, Option<usize>) {
        self.0.size_hint()
    }
}

impl DoubleEndedIterator for Links {
    fn next_back(&mut self) -> Option<Cid> {
        self.0.next_back()
    }
}

impl ExactSizeIterator for Links {}
impl iter::FusedIterator for Links {}
