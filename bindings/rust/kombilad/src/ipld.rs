//! The values of a block as a tree.

use std::collections::BTreeMap;
use std::mem;
use std::ops::Range;

use crate::block::Limits;
use crate::cid::Cid;
use crate::error::{EncodeError, Error};
use crate::ffi::{self, kind};
use crate::tape::TapeRef;
use crate::write::Writer;

/// A value of the IPLD data model, with the names of the crate `ipld-core`.
///
/// ```
/// use kombilad::Ipld;
///
/// let block = b"\xa1\x61a\x82\x01\xf6";
/// let value = Ipld::from_block(block)?;
/// assert_eq!(value, Ipld::Map([("a".to_owned(), Ipld::List(vec![Ipld::Integer(1), Ipld::Null]))].into()));
/// assert_eq!(value.to_block()?, block);
/// # Ok::<(), Box<dyn std::error::Error>>(())
/// ```
///
/// Rust's derived code to drop, clone, compare or print a value is recursive. So decoding returns
/// only values that nest at most [`Ipld::LEVELS`] deep.
#[derive(Clone, Debug, PartialEq)]
pub enum Ipld {
    /// Null.
    Null,
    /// A bool.
    Bool(bool),
    /// An integer. In a block it is from -2^64 to 2^64 - 1.
    Integer(i128),
    /// A float. In a block it is finite.
    Float(f64),
    /// A string.
    String(String),
    /// Bytes.
    Bytes(Vec<u8>),
    /// A list of values.
    List(Vec<Ipld>),
    /// A map from strings to values.
    Map(BTreeMap<String, Ipld>),
    /// A CID.
    Link(Cid),
}

/// A map of more pairs than this is built from all of them at once.
const FEW_PAIRS: usize = 16;

impl Ipld {
    /// The maximum depth of a value that is decoded or encoded. If [`Limits`] allow more levels,
    /// this is the limit.
    pub const LEVELS: usize = 1024;

    /// Decodes a block: [`Limits::ipld`] within the default limits.
    ///
    /// # Errors
    ///
    /// Those of [`Limits`], and [`Error::TooLong`].
    pub fn from_block(block: &[u8]) -> Result<Self, Error> {
        Limits::default().ipld(block)
    }

    /// Encodes the value as its canonical block: the keys of each map are sorted by length, then by
    /// bytes. The library encodes it from a tape of the value.
    ///
    /// # Errors
    ///
    /// - [`EncodeError::Integer`] or [`EncodeError::Float`] if a block can't have the number.
    /// - [`EncodeError::OutOfMemory`] if an allocation fails.
    /// - [`EncodeError::TooDeep`] if the value nests deeper than [`Ipld::LEVELS`].
    /// - [`EncodeError::TooLong`] if a part of the value is too long for an entry of a tape.
    pub fn to_block(&self) -> Result<Vec<u8>, EncodeError> {
        let mut writer = Writer::new();
        let mut open: Vec<Left<'_>> = Vec::new();
        // The pairs that are left of the open maps. Those of a map come after those of the map
        // around it, and the next one is the last.
        let mut pairs: Vec<(&String, &Ipld)> = Vec::new();
        let mut next = Some(self);
        while let Some(value) = next {
            match value {
                Ipld::Null => writer.null()?,
                Ipld::Bool(value) => writer.bool(*value)?,
                Ipld::Integer(number) => writer.integer(*number)?,
                Ipld::Float(number) => writer.float(*number)?,
                Ipld::String(text) => writer.string(text)?,
                Ipld::Bytes(bytes) => writer.bytes(bytes)?,
                Ipld::Link(cid) => writer.link(cid.as_bytes())?,
                Ipld::List(items) => {
                    let begin = writer.list()?;
                    opened(
                        &mut open,
                        Left { begin, count: items.len(), values: Values::Items(items.iter()) },
                    )?;
                }
                Ipld::Map(map) => {
                    let begin = writer.map()?;
                    opened(
                        &mut open,
                        Left { begin, count: map.len(), values: Values::Pairs(pairs.len()) },
                    )?;
                    let first = pairs.len();
                    pairs.try_reserve(map.len()).map_err(|_| EncodeError::OutOfMemory)?;
                    pairs.extend(map.iter().rev());
                    pairs[first..].sort_unstable_by(|(one, _), (other, _)| {
                        (other.len(), *other).cmp(&(one.len(), *one))
                    });
                }
            }
            next = loop {
                let left = match open.last_mut() {
                    None => break None,
                    Some(left) => left,
                };
                match &mut left.values {
                    Values::Items(items) => {
                        if let Some(item) = items.next() {
                            break Some(item);
                        }
                    }
                    Values::Pairs(behind) => {
                        if pairs.len() > *behind {
                            if let Some((key, value)) = pairs.pop() {
                                writer.key(key)?;
                                break Some(value);
                            }
                        }
                    }
                }
                writer.end(left.begin, left.count)?;
                open.pop();
            };
        }
        writer.finish()
    }
}

/// A list or a map that is being written: the index of its entry, the number of its values, and
/// the values that are left.
struct Left<'v> {
    begin: usize,
    count: usize,
    values: Values<'v>,
}

enum Values<'v> {
    Items(std::slice::Iter<'v, Ipld>),
    /// The pairs after this many others.
    Pairs(usize),
}

fn opened<'v>(open: &mut Vec<Left<'v>>, left: Left<'v>) -> Result<(), EncodeError> {
    if open.len() >= Ipld::LEVELS {
        return Err(EncodeError::TooDeep);
    }
    open.try_reserve(1).map_err(|_| EncodeError::OutOfMemory)?;
    open.push(left);
    Ok(())
}

/// A list or a map of which some values have been read.
enum Open {
    List(Vec<Ipld>),
    Pairs(Vec<(String, Ipld)>),
    Map(BTreeMap<String, Ipld>),
}

struct Level {
    read: Open,
    /// The key of the list or the map that is being read for this map.
    key: String,
    left: usize,
}

impl Level {
    fn of(entry: ffi::Entry) -> Self {
        let count = entry.value as usize;
        let read = match entry.kind {
            kind::LIST => Open::List(Vec::with_capacity(count)),
            _ if count > FEW_PAIRS => Open::Pairs(Vec::with_capacity(count)),
            _ => Open::Map(BTreeMap::new()),
        };
        Level { read, key: String::new(), left: count }
    }

    /// Reads the values from an entry on, up to one that isn't flat or to the last one. Returns the
    /// index of the next entry. In a map that is the entry after the key.
    fn read_flat(&mut self, tape: &ffi::Tape<'_>, mut at: usize) -> usize {
        if let Open::List(items) = &mut self.read {
            while self.left > 0 {
                match flat_end(tape, at) {
                    Some(end) => items.push(flat(tape, mem::replace(&mut at, end)..end)),
                    None => return at,
                }
                self.left -= 1;
            }
            return at;
        }
        while self.left > 0 {
            let key = tape.part(at).text().to_owned();
            at += 1;
            match flat_end(tape, at) {
                Some(end) => self.insert(key, flat(tape, mem::replace(&mut at, end)..end)),
                None => {
                    self.key = key;
                    return at;
                }
            }
        }
        at
    }

    #[inline]
    fn insert(&mut self, key: String, value: Ipld) {
        match &mut self.read {
            Open::List(items) => items.push(value),
            Open::Pairs(pairs) => pairs.push((key, value)),
            Open::Map(map) => {
                map.insert(key, value);
            }
        }
        self.left -= 1;
    }

    fn whole(self) -> Ipld {
        match self.read {
            Open::List(items) => Ipld::List(items),
            Open::Pairs(pairs) => Ipld::Map(pairs.into_iter().collect()),
            Open::Map(map) => Ipld::Map(map),
        }
    }
}

#[inline]
fn is_integer(entry: ffi::Entry) -> bool {
    matches!(entry.kind, kind::UNSIGNED | kind::NEGATIVE)
}

/// Returns the number of an integer's entry.
#[inline]
fn integer(entry: ffi::Entry) -> i128 {
    // The bits of a negative one are inverted.
    i128::from(entry.value) ^ -i128::from(entry.kind == kind::NEGATIVE)
}

/// Returns the value of an entry that is not a list or a map, unless it is an empty one.
#[inline(always)]
fn scalar(part: ffi::Part<'_, '_>) -> Ipld {
    let entry = part.entry();
    match entry.kind {
        kind::FALSE => Ipld::Bool(false),
        kind::TRUE => Ipld::Bool(true),
        kind::UNSIGNED | kind::NEGATIVE => Ipld::Integer(integer(entry)),
        kind::FLOAT => Ipld::Float(part.content().try_into().map_or(0.0, f64::from_be_bytes)),
        kind::STRING => Ipld::String(part.text().to_owned()),
        kind::BYTES => Ipld::Bytes(part.content().to_owned()),
        kind::LINK => Ipld::Link(Cid::of_valid(part.content())),
        kind::LIST => Ipld::List(Vec::new()),
        kind::MAP => Ipld::Map(BTreeMap::new()),
        _ => Ipld::Null,
    }
}

/// Returns the end of a flat value's entries, or `None` for another value. A flat value contains no
/// lists or maps except empty ones.
#[inline(always)]
fn flat_end(tape: &ffi::Tape<'_>, at: usize) -> Option<usize> {
    let ffi::Entry { kind, len, value } = tape.part(at).entry();
    // Then each entry inside is an item, a key or a value. A list or a map inside that isn't empty
    // would have more entries.
    let entries = match kind {
        kind::LIST => value,
        kind::MAP => 2 * value,
        _ => return Some(at + 1),
    };
    (entries + 1 == u64::from(len)).then_some(at + len as usize)
}

/// Returns the flat value of these entries.
#[inline(always)]
fn flat(tape: &ffi::Tape<'_>, whole: Range<usize>) -> Ipld {
    let part = tape.part(whole.start);
    match part.entry().kind {
        kind::LIST => Ipld::List(flat_list(tape, whole.start + 1..whole.end)),
        kind::MAP => Ipld::Map(flat_map(tape, whole.start + 1..whole.end)),
        _ => scalar(part),
    }
}

/// Returns a list of which each entry is an item.
fn flat_list(tape: &ffi::Tape<'_>, inside: Range<usize>) -> Vec<Ipld> {
    // If all are integers, each value is made in place in the list.
    if tape.entries()[inside.clone()].iter().all(|entry| is_integer(*entry)) {
        tape.parts(inside).map(|part| Ipld::Integer(integer(part.entry()))).collect()
    } else {
        tape.parts(inside).map(scalar).collect()
    }
}

/// Returns a map of which each entry is a key or a value.
fn flat_map(tape: &ffi::Tape<'_>, inside: Range<usize>) -> BTreeMap<String, Ipld> {
    let pairs = tape.pairs(inside).map(|(key, value)| (key.text().to_owned(), scalar(value)));
    if pairs.len() > FEW_PAIRS {
        return pairs.collect();
    }
    let mut map = BTreeMap::new();
    pairs.for_each(|(key, value)| {
        map.insert(key, value);
    });
    map
}

impl From<TapeRef<'_, '_>> for Ipld {
    /// Copies the value. If it nests deeper than [`Ipld::LEVELS`], dropping or comparing the copy
    /// may overflow the call stack.
    fn from(value: TapeRef<'_, '_>) -> Self {
        let (tape, mut at) = (value.tape, value.at);
        if let Some(end) = flat_end(tape, at) {
            return flat(tape, at..end);
        }
        let mut above: Vec<Level> = Vec::new();
        let mut level = Level::of(value.entry());
        at += 1;
        loop {
            at = level.read_flat(tape, at);
            if level.left > 0 {
                let inner = Level::of(tape.part(at).entry());
                above.push(mem::replace(&mut level, inner));
                at += 1;
                continue;
            }
            let whole = level.whole();
            level = match above.pop() {
                None => return whole,
                Some(level) => level,
            };
            let key = mem::take(&mut level.key);
            level.insert(key, whole);
        }
    }
}
