//! The values of a block, read in place.

use std::iter;

use crate::block::Limits;
use crate::cid::Cid;
use crate::error::Error;
use crate::ffi::{self, kind};

/// The values of a block, without a copy of their content. A tape has 16 bytes for each value and
/// each key, in the order of the block.
///
/// ```
/// use kombilad::{Kind, Tape};
///
/// let block = b"\xa2\x61a\x82\x01\x20\x61b\x63yes";
/// let tape = Tape::of(block)?;
/// let root = tape.root();
/// assert_eq!((root.kind(), root.len()), (Kind::Map, 2));
/// assert_eq!(root.get("b").and_then(|value| value.as_str()), Some("yes"));
/// let numbers: Vec<_> = root.get("a").unwrap().items().map(|value| value.as_integer().unwrap()).collect();
/// assert_eq!(numbers, [1, -1]);
/// # Ok::<(), kombilad::Error>(())
/// ```
#[derive(Clone, Debug)]
pub struct Tape<'a>(ffi::Tape<'a>);

impl<'a> Tape<'a> {
    /// Returns the tape of a block: [`Limits::tape`] within the default limits.
    ///
    /// # Errors
    ///
    /// Those of [`Limits`], and [`Error::TooLong`].
    pub fn of(block: &'a [u8]) -> Result<Self, Error> {
        Limits::default().tape(block)
    }

    pub(crate) fn within(block: ffi::Block<'a>) -> Result<Self, Error> {
        ffi::Tape::of(block).map(Tape).map_err(Error::of_block)
    }

    /// Returns the value of the block.
    pub fn root(&self) -> TapeRef<'_, 'a> {
        TapeRef { tape: &self.0, at: 0 }
    }

    /// Returns the number of values and keys.
    pub fn entry_count(&self) -> usize {
        self.0.entries().len()
    }
}

/// The kind of a value.
#[derive(Clone, Copy, Debug, PartialEq, Eq, Hash)]
pub enum Kind {
    /// Null.
    Null,
    /// A bool.
    Bool,
    /// An integer from -2^64 to 2^64 - 1.
    Integer,
    /// A finite float of 64 bits.
    Float,
    /// A string.
    String,
    /// Bytes.
    Bytes,
    /// A list of values.
    List,
    /// A map from strings to values.
    Map,
    /// A CID.
    Link,
}

/// A value of a block, in place. Strings and bytes that it returns are borrowed from the block.
#[derive(Clone, Copy, Debug)]
pub struct TapeRef<'t, 'a> {
    pub(crate) tape: &'t ffi::Tape<'a>,
    pub(crate) at: usize,
}

impl<'t, 'a> TapeRef<'t, 'a> {
    #[inline]
    pub(crate) fn entry(self) -> ffi::Entry {
        self.tape.part(self.at).entry()
    }

    /// Returns the kind of the value.
    pub fn kind(self) -> Kind {
        match self.entry().kind {
            kind::FALSE | kind::TRUE => Kind::Bool,
            kind::UNSIGNED | kind::NEGATIVE => Kind::Integer,
            kind::FLOAT => Kind::Float,
            kind::STRING => Kind::String,
            kind::BYTES => Kind::Bytes,
            kind::LINK => Kind::Link,
            kind::LIST => Kind::List,
            kind::MAP => Kind::Map,
            _ => Kind::Null,
        }
    }

    /// Returns whether the value is null.
    pub fn is_null(self) -> bool {
        self.entry().kind == kind::NULL
    }

    /// Returns the bool, or `None` for another kind of value.
    pub fn as_bool(self) -> Option<bool> {
        match self.entry().kind {
            kind::FALSE => Some(false),
            kind::TRUE => Some(true),
            _ => None,
        }
    }

    /// Returns the integer, or `None` for another kind of value.
    pub fn as_integer(self) -> Option<i128> {
        match self.entry() {
            ffi::Entry { kind: kind::UNSIGNED, value, .. } => Some(value.into()),
            ffi::Entry { kind: kind::NEGATIVE, value, .. } => Some(-1 - i128::from(value)),
            _ => None,
        }
    }

    /// Returns the float, or `None` for another kind of value.
    pub fn as_float(self) -> Option<f64> {
        let bytes = self.content_of(kind::FLOAT)?;
        Some(f64::from_be_bytes(bytes.try_into().ok()?))
    }

    /// Returns the string, or `None` for another kind of value.
    pub fn as_str(self) -> Option<&'a str> {
        let part = self.tape.part(self.at);
        (part.entry().kind == kind::STRING).then(|| part.text())
    }

    /// Returns the bytes, or `None` for another kind of value.
    pub fn as_bytes(self) -> Option<&'a [u8]> {
        self.content_of(kind::BYTES)
    }

    /// Returns the CID of a link, or `None` for another kind of value.
    pub fn as_link(self) -> Option<Cid> {
        self.as_link_bytes().map(Cid::of_valid)
    }

    /// Returns the bytes of a link's CID, or `None` for another kind of value.
    pub fn as_link_bytes(self) -> Option<&'a [u8]> {
        self.content_of(kind::LINK)
    }

    fn content_of(self, kind: u32) -> Option<&'a [u8]> {
        let part = self.tape.part(self.at);
        (part.entry().kind == kind).then(|| part.content())
    }

    fn is_container(self) -> bool {
        matches!(self.entry().kind, kind::LIST | kind::MAP)
    }

    /// Returns the number of items of a list, or of pairs of a map, or 0 for any other value.
    #[allow(clippy::len_without_is_empty)]
    pub fn len(self) -> usize {
        if self.is_container() {
            self.entry().value as usize
        } else {
            0
        }
    }

    /// Returns the index after the last entry that the value spans.
    pub(crate) fn end(self) -> usize {
        self.at + if self.is_container() { self.entry().len as usize } else { 1 }
    }

    /// Returns the items of a list. For any other value the iterator is empty.
    pub fn items(self) -> Items<'t, 'a> {
        let left = if self.entry().kind == kind::LIST { self.len() } else { 0 };
        Items { next: TapeRef { tape: self.tape, at: self.at + 1 }, left }
    }

    /// Returns the pairs of a map, in the order of the block. For any other value the iterator is
    /// empty.
    pub fn pairs(self) -> Pairs<'t, 'a> {
        let left = if self.entry().kind == kind::MAP { self.len() } else { 0 };
        Pairs { next: TapeRef { tape: self.tape, at: self.at + 1 }, left }
    }

    /// Returns the value of a key in a map. It compares one key after another, in linear time.
    pub fn get(self, key: &str) -> Option<TapeRef<'t, 'a>> {
        self.pairs().find_map(|(other, value)| (other == key).then_some(value))
    }

    /// Returns the item at an index of a list. It skips the items before it, each in one step.
    pub fn index(self, place: usize) -> Option<TapeRef<'t, 'a>> {
        self.items().nth(place)
    }

    /// Returns the value at a path of keys and indices with slashes between them. In a map a part
    /// is a key, and in a list it is an index. The empty path leads to this value itself.
    ///
    /// ```
    /// let block = b"\xa1\x64list\x82\x01\xa1\x61a\xf5";
    /// let tape = kombilad::Tape::of(block)?;
    /// assert_eq!(tape.root().at_path("list/1/a").and_then(|value| value.as_bool()), Some(true));
    /// assert!(tape.root().at_path("list/2").is_none());
    /// # Ok::<(), kombilad::Error>(())
    /// ```
    pub fn at_path(self, path: &str) -> Option<TapeRef<'t, 'a>> {
        let mut parts = path.split('/').filter(|_| !path.is_empty());
        parts.try_fold(self, |value, part| match value.kind() {
            Kind::Map => value.get(part),
            Kind::List => value.index(number(part)?),
            _ => None,
        })
    }
}

/// Parses a decimal number without a sign or leading zeros.
fn number(part: &str) -> Option<usize> {
    let digits =
        part.bytes().all(|byte| byte.is_ascii_digit()) && (part == "0" || !part.starts_with('0'));
    if digits {
        part.parse().ok()
    } else {
        None
    }
}

/// An iterator over the items of a list.
#[derive(Clone, Debug)]
pub struct Items<'t, 'a> {
    next: TapeRef<'t, 'a>,
    left: usize,
}

impl<'t, 'a> Iterator for Items<'t, 'a> {
    type Item = TapeRef<'t, 'a>;

    fn next(&mut self) -> Option<Self::Item> {
        self.left = self.left.checked_sub(1)?;
        let item = self.next;
        self.next.at = item.end();
        Some(item)
    }

    fn size_hint(&self) -> (usize, Option<usize>) {
        (self.left, Some(self.left))
    }
}

/// An iterator over the pairs of a map.
#[derive(Clone, Debug)]
pub struct Pairs<'t, 'a> {
    next: TapeRef<'t, 'a>,
    left: usize,
}

impl<'t, 'a> Iterator for Pairs<'t, 'a> {
    type Item = (&'a str, TapeRef<'t, 'a>);

    fn next(&mut self) -> Option<Self::Item> {
        self.left = self.left.checked_sub(1)?;
        let key = self.next.tape.part(self.next.at).text();
        let value = TapeRef { at: self.next.at + 1, ..self.next };
        self.next.at = value.end();
        Some((key, value))
    }

    fn size_hint(&self) -> (usize, Option<usize>) {
        (self.left, Some(self.left))
    }
}

impl ExactSizeIterator for Items<'_, '_> {}
impl ExactSizeIterator for Pairs<'_, '_> {}
impl iter::FusedIterator for Items<'_, '_> {}
impl iter::FusedIterator for Pairs<'_, '_> {}
