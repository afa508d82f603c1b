//! Writes the tape of a value: its entries in order, and their content. The library encodes the
//! tape as a block.

use crate::error::EncodeError;
use crate::ffi::{self, kind, Entry};
use crate::room::{Bytes, Entries};

/// The tape as far as it is written.
pub(crate) struct Writer {
    entries: Entries,
    data: Bytes,
    /// The maximum number of bytes of the block.
    size: usize,
}

impl Writer {
    pub(crate) fn new() -> Self {
        Writer { entries: Entries::new(), data: Bytes::new(), size: 0 }
    }

    /// Returns the canonical block of the value, or the error if it has none.
    pub(crate) fn finish(self) -> Result<Vec<u8>, EncodeError> {
        ffi::encode(&self.entries.0, &self.data.0, self.size)
            .map_err(|(status, _)| EncodeError::of_tape(status))
    }

    #[inline(always)]
    fn push(&mut self, kind: u32, len: u32, value: u64) -> Result<(), EncodeError> {
        if self.entries.0.len() == self.entries.0.capacity() {
            self.grow()?;
        }
        self.entries.0.push(Entry { kind, len, value });
        Ok(())
    }

    #[cold]
    fn grow(&mut self) -> Result<(), EncodeError> {
        self.entries
            .0
            .try_reserve(self.entries.0.capacity().max(64))
            .map_err(|_| EncodeError::OutOfMemory)
    }

    #[cold]
    fn grow_data(&mut self, more: usize) -> Result<(), EncodeError> {
        self.data.0.try_reserve(more.max(512)).map_err(|_| EncodeError::OutOfMemory)
    }

    #[inline(always)]
    fn number(&mut self, kind: u32, value: u64) -> Result<(), EncodeError> {
        self.size += head_len(value);
        self.push(kind, 0, value)
    }

    #[inline(always)]
    fn content(&mut self, kind: u32, bytes: &[u8]) -> Result<(), EncodeError> {
        let len = u32::try_from(bytes.len()).map_err(|_| EncodeError::TooLong)?;
        let offset = self.data.0.len() as u64;
        if self.data.0.capacity() - self.data.0.len() < bytes.len() {
            self.grow_data(bytes.len())?;
        }
        self.data.0.extend_from_slice(bytes);
        self.size += head_len(bytes.len() as u64) + bytes.len();
        self.push(kind, len, offset)
    }

    pub(crate) fn null(&mut self) -> Result<(), EncodeError> {
        self.size += 1;
        self.push(kind::NULL, 0, 0)
    }

    pub(crate) fn bool(&mut self, value: bool) -> Result<(), EncodeError> {
        self.size += 1;
        self.push(if value { kind::TRUE } else { kind::FALSE }, 0, 0)
    }

    #[inline]
    pub(crate) fn integer(&mut self, number: i128) -> Result<(), EncodeError> {
        let (kind, value) =
            if number < 0 { (kind::NEGATIVE, !number) } else { (kind::UNSIGNED, number) };
        let value = u64::try_from(value).map_err(|_| EncodeError::Integer)?;
        self.number(kind, value)
    }

    /// Writes a float. The library rejects NaN and the infinities later.
    #[inline(never)]
    pub(crate) fn float(&mut self, number: f64) -> Result<(), EncodeError> {
        self.content(kind::FLOAT, &number.to_be_bytes())
    }

    #[inline]
    pub(crate) fn string(&mut self, text: &str) -> Result<(), EncodeError> {
        self.content(kind::STRING, text.as_bytes())
    }

    #[inline]
    pub(crate) fn key(&mut self, text: &str) -> Result<(), EncodeError> {
        self.content(kind::KEY, text.as_bytes())
    }

    pub(crate) fn bytes(&mut self, bytes: &[u8]) -> Result<(), EncodeError> {
        self.content(kind::BYTES, bytes)
    }

    /// Writes a link. The library checks later whether the bytes are a CID.
    pub(crate) fn link(&mut self, cid: &[u8]) -> Result<(), EncodeError> {
        // The tag takes two bytes, and the zero byte before the CID takes one. That byte may make
        // the head longer than the one that `content` counts.
        self.size += 5;
        self.content(kind::LINK, cid)
    }

    /// Begins a list. Pass the result to `end`.
    pub(crate) fn list(&mut self) -> Result<usize, EncodeError> {
        self.begin(kind::LIST)
    }

    /// Begins a map. Each pair is a key and its value. Pass the result to `end`.
    pub(crate) fn map(&mut self) -> Result<usize, EncodeError> {
        self.begin(kind::MAP)
    }

    #[inline]
    fn begin(&mut self, kind: u32) -> Result<usize, EncodeError> {
        let begin = self.entries.0.len();
        self.push(kind, 0, 0)?;
        Ok(begin)
    }

    /// Ends the list or the map that began at an entry, with the number of its items or pairs.
    #[inline]
    pub(crate) fn end(&mut self, begin: usize, count: usize) -> Result<(), EncodeError> {
        let len = u32::try_from(self.entries.0.len() - begin).map_err(|_| EncodeError::TooLong)?;
        self.size += head_len(count as u64);
        self.entries.0[begin].len = len;
        self.entries.0[begin].value = count as u64;
        Ok(())
    }
}

/// The calls that only serde's types need.
#[cfg(feature = "serde")]
impl Writer {
    /// Returns the number of entries.
    pub(crate) fn len(&self) -> usize {
        self.entries.0.len()
    }

    pub(crate) fn unsigned(&mut self, number: u64) -> Result<(), EncodeError> {
        self.number(kind::UNSIGNED, number)
    }

    pub(crate) fn signed(&mut self, number: i64) -> Result<(), EncodeError> {
        if number < 0 {
            self.number(kind::NEGATIVE, !number as u64)
        } else {
            self.number(kind::UNSIGNED, number as u64)
        }
    }

    /// Sorts the pairs of a map by their keys. They are all of its pairs, and the last one ends
    /// with the last entry.
    pub(crate) fn sort_pairs(&mut self, pairs: &mut [Pair]) -> Result<(), EncodeError> {
        let (entries, data) = (&mut self.entries.0, &self.data.0);
        let compare = |one: &Pair, other: &Pair| {
            let key = |pair: &Pair| {
                let Entry { len, value, .. } = entries[pair.begin];
                (len, &data[value as usize..value as usize + len as usize])
            };
            key(one).cmp(&key(other))
        };
        if pairs.windows(2).all(|pair| compare(&pair[0], &pair[1]).is_le()) {
            return Ok(());
        }
        let (first, end) = (pairs[0].begin, entries.len());
        pairs.iter_mut().rev().fold(end, |next, pair| {
            pair.end = next;
            pair.begin
        });
        pairs.sort_unstable_by(compare);
        // A sorted copy behind the entries, which then takes their place.
        entries.try_reserve(end - first).map_err(|_| EncodeError::OutOfMemory)?;
        for pair in pairs {
            entries.extend_from_within(pair.begin..pair.end);
        }
        entries.copy_within(end.., first);
        entries.truncate(end);
        Ok(())
    }
}

/// A pair of a map.
#[cfg(feature = "serde")]
pub(crate) struct Pair {
    /// The index of the entry of its key.
    begin: usize,
    /// The index of the entry after its value, while the pairs are sorted.
    end: usize,
}

#[cfg(feature = "serde")]
impl Pair {
    /// Creates a pair whose key is at this entry.
    pub(crate) fn at(begin: usize) -> Self {
        Pair { begin, end: begin }
    }
}

/// Returns the number of bytes of a head with this argument.
#[inline(always)]
fn head_len(argument: u64) -> usize {
    match argument {
        0..=23 => 1,
        24..=0xff => 2,
        0x100..=0xffff => 3,
        0x1_0000..=0xffff_ffff => 5,
        _ => 9,
    }
}
