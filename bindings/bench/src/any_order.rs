//! The links of a block as somebody would write it in Rust, by recursion, who rejects what the
//! proved library rejects and nothing else: keys come in any order and none twice, and floats have
//! 64 bits and are finite. `plain` asks for keys in order, which is less to do.

use std::collections::BTreeSet;
use std::str;

pub struct Malformed;

const DEEPEST: u32 = 1024;

pub fn links(block: &[u8]) -> Result<Vec<Cid>, Malformed> {
    let mut reader = Reader(block);
    let mut found = Vec::new();
    reader.value(DEEPEST, &mut found)?;
    if reader.0.is_empty() {
        Ok(found)
    } else {
        Err(Malformed)
    }
}

/// A CID by its parts.
#[allow(dead_code)]
#[derive(Clone, Copy)]
pub struct Cid {
    version: u64,
    codec: u64,
    hash: u64,
    size: u8,
    digest: [u8; 64],
}

fn cid(version: u64, codec: u64, hash: u64, bytes: &[u8]) -> Cid {
    let mut digest = [0; 64];
    digest[..bytes.len()].copy_from_slice(bytes);
    Cid { version, codec, hash, size: bytes.len() as u8, digest }
}

struct Reader<'a>(&'a [u8]);

impl<'a> Reader<'a> {
    fn head(&mut self) -> Result<(u8, u8, u64), Malformed> {
        let (&first, rest) = self.0.split_first().ok_or(Malformed)?;
        self.0 = rest;
        let (major, more) = (first >> 5, first & 31);
        let (argument, least) = match more {
            0..=23 => return Ok((major, more, u64::from(more))),
            24 if major != 7 => (u64::from(u8::from_be_bytes(self.array()?)), 24),
            25 if major != 7 => (u64::from(u16::from_be_bytes(self.array()?)), 1 << 8),
            26 if major != 7 => (u64::from(u32::from_be_bytes(self.array()?)), 1 << 16),
            27 => (u64::from_be_bytes(self.array()?), if major == 7 { 0 } else { 1 << 32 }),
            _ => return Err(Malformed),
        };
        if argument < least {
            return Err(Malformed);
        }
        Ok((major, more, argument))
    }

    fn array<const N: usize>(&mut self) -> Result<[u8; N], Malformed> {
        let (array, rest) = self.0.split_first_chunk().ok_or(Malformed)?;
        self.0 = rest;
        Ok(*array)
    }

    fn bytes(&mut self, length: u64) -> Result<&'a [u8], Malformed> {
        let length = usize::try_from(length).map_err(|_| Malformed)?;
        let (bytes, rest) = self.0.split_at_checked(length).ok_or(Malformed)?;
        self.0 = rest;
        Ok(bytes)
    }

    fn string(&mut self, length: u64) -> Result<&'a str, Malformed> {
        str::from_utf8(self.bytes(length)?).map_err(|_| Malformed)
    }

    fn value(&mut self, deeper: u32, found: &mut Vec<Cid>) -> Result<(), Malformed> {
        match self.head()? {
            (0 | 1, _, _) => {}
            (2, _, length) => {
                self.bytes(length)?;
            }
            (3, _, length) => {
                self.string(length)?;
            }
            (4, _, length) => {
                let deeper = deeper.checked_sub(1).ok_or(Malformed)?;
                for _ in 0..length {
                    self.value(deeper, found)?;
                }
            }
            (5, _, length) => {
                let deeper = deeper.checked_sub(1).ok_or(Malformed)?;
                let mut keys = BTreeSet::new();
                for _ in 0..length {
                    let (3, _, length) = self.head()? else {
                        return Err(Malformed);
                    };
                    if !keys.insert(self.string(length)?) {
                        return Err(Malformed);
                    }
                    self.value(deeper, found)?;
                }
            }
            (6, _, 42) => found.push(self.link()?),
            (7, 20..=22, _) => {}
            (7, 27, bits) if f64::from_bits(bits).is_finite() => {}
            _ => return Err(Malformed),
        }
        Ok(())
    }

    fn link(&mut self) -> Result<Cid, Malformed> {
        let (2, _, length) = self.head()? else {
            return Err(Malformed);
        };
        let [0, rest @ ..] = self.bytes(length)? else {
            return Err(Malformed);
        };
        if let [0x12, 0x20, digest @ ..] = rest {
            let digest = (digest.len() == 32).then_some(digest).ok_or(Malformed)?;
            return Ok(cid(0, 0x70, 0x12, digest));
        }
        let mut rest = rest;
        if varint(&mut rest)? != 1 {
            return Err(Malformed);
        }
        let (codec, hash, size) = (varint(&mut rest)?, varint(&mut rest)?, varint(&mut rest)?);
        if size > 64 || rest.len() as u64 != size {
            return Err(Malformed);
        }
        Ok(cid(1, codec, hash, rest))
    }
}

fn varint(bytes: &mut &[u8]) -> Result<u64, Malformed> {
    let mut number = 0;
    for place in 0..10 {
        let (&byte, rest) = bytes.split_first().ok_or(Malformed)?;
        *bytes = rest;
        if (place == 9 && byte > 1) || (place > 0 && byte == 0) {
            return Err(Malformed);
        }
        number |= u64::from(byte & 127) << (7 * place);
        if byte < 128 {
            return Ok(number);
        }
    }
    Err(Malformed)
}
