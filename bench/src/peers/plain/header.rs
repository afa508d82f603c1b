//! Heads of items, and the bytes after them.

use super::{Cid, Malformed};

/// The tag of a link.
pub const LINK: u64 = 42;

pub const UNSIGNED: u8 = 0;
pub const NEGATIVE: u8 = 1;
pub const BYTES: u8 = 2;
pub const STRING: u8 = 3;
pub const LIST: u8 = 4;
pub const MAP: u8 = 5;
pub const TAG: u8 = 6;
pub const SIMPLE: u8 = 7;

pub const FALSE: u64 = 20;
pub const TRUE: u64 = 21;
pub const NULL: u64 = 22;

/// What is left of a block.
pub struct Reader<'a>(pub &'a [u8]);

impl<'a> Reader<'a> {
    /// The major type of the next item, and its argument.
    #[inline(always)]
    pub fn head(&mut self) -> Result<(u8, u64), Malformed> {
        let (&first, rest) = self.0.split_first().ok_or(Malformed)?;
        self.0 = rest;
        let major = first >> 5;
        let (argument, least) = match first & 31 {
            short @ 0..=23 => return Ok((major, u64::from(short))),
            _ if major == SIMPLE => return Err(Malformed),
            24 => (u64::from(u8::from_be_bytes(self.array()?)), 24),
            25 => (u64::from(u16::from_be_bytes(self.array()?)), 1 << 8),
            26 => (u64::from(u32::from_be_bytes(self.array()?)), 1 << 16),
            27 => (u64::from_be_bytes(self.array()?), 1 << 32),
            _ => return Err(Malformed),
        };
        if argument < least {
            return Err(Malformed);
        }
        Ok((major, argument))
    }

    #[inline(always)]
    fn array<const N: usize>(&mut self) -> Result<[u8; N], Malformed> {
        let (array, rest) = self.0.split_first_chunk().ok_or(Malformed)?;
        self.0 = rest;
        Ok(*array)
    }

    #[inline(always)]
    pub fn bytes(&mut self, length: u64) -> Result<&'a [u8], Malformed> {
        let length = usize::try_from(length).map_err(|_| Malformed)?;
        let (bytes, rest) = self.0.split_at_checked(length).ok_or(Malformed)?;
        self.0 = rest;
        Ok(bytes)
    }

    #[inline(always)]
    pub fn string(&mut self, length: u64) -> Result<&'a str, Malformed> {
        std::str::from_utf8(self.bytes(length)?).map_err(|_| Malformed)
    }

    /// The key of a pair, which has to come after the key before it.
    #[inline(always)]
    pub fn key(&mut self, before: Option<&str>) -> Result<&'a str, Malformed> {
        let (STRING, length) = self.head()? else {
            return Err(Malformed);
        };
        let key = self.string(length)?;
        match before {
            Some(before) if (before.len(), before) >= (key.len(), key) => Err(Malformed),
            _ => Ok(key),
        }
    }

    /// The CID behind a tag.
    #[inline(always)]
    pub fn link(&mut self, tag: u64) -> Result<Cid, Malformed> {
        let (BYTES, length) = self.head()? else {
            return Err(Malformed);
        };
        match self.bytes(length)? {
            [0, cid @ ..] if tag == LINK => Cid::from_bytes(cid),
            _ => Err(Malformed),
        }
    }

    /// Nothing is left.
    pub fn end(&self) -> Result<(), Malformed> {
        if self.0.is_empty() {
            Ok(())
        } else {
            Err(Malformed)
        }
    }
}
