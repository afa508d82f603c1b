//! CIDs, as the crate `cid` lays them out.

use super::Malformed;

const LONGEST_DIGEST: usize = 64;
const DAG_PB: u64 = 0x70;
const SHA2_256: u64 = 0x12;

#[derive(Clone, Copy, Debug, PartialEq, Eq, Hash)]
enum Version {
    V0,
    V1,
}

#[derive(Clone, Copy, Debug, PartialEq, Eq, Hash)]
pub struct Cid {
    version: Version,
    codec: u64,
    hash: u64,
    size: u8,
    digest: [u8; LONGEST_DIGEST],
}

impl Cid {
    pub fn from_bytes(bytes: &[u8]) -> Result<Cid, Malformed> {
        if let [0x12, 0x20, digest @ ..] = bytes {
            return Cid::new(Version::V0, DAG_PB, SHA2_256, 32, digest);
        }
        let mut rest = bytes;
        if varint(&mut rest)? != 1 {
            return Err(Malformed);
        }
        let codec = varint(&mut rest)?;
        let hash = varint(&mut rest)?;
        let size = varint(&mut rest)?;
        Cid::new(Version::V1, codec, hash, size, rest)
    }

    fn new(
        version: Version,
        codec: u64,
        hash: u64,
        size: u64,
        bytes: &[u8],
    ) -> Result<Cid, Malformed> {
        if bytes.len() > LONGEST_DIGEST || bytes.len() as u64 != size {
            return Err(Malformed);
        }
        let mut digest = [0; LONGEST_DIGEST];
        digest[..bytes.len()].copy_from_slice(bytes);
        Ok(Cid { version, codec, hash, size: size as u8, digest })
    }

    /// The CID at the front of bytes, and the bytes after it.
    pub fn split(bytes: &[u8]) -> Result<(Cid, &[u8]), Malformed> {
        let mut rest = bytes;
        if !bytes.starts_with(&[0x12, 0x20]) {
            varint(&mut rest)?;
            varint(&mut rest)?;
        }
        varint(&mut rest)?;
        let size = usize::try_from(varint(&mut rest)?).map_err(|_| Malformed)?;
        let end = (bytes.len() - rest.len()).checked_add(size).ok_or(Malformed)?;
        let (cid, rest) = bytes.split_at_checked(end).ok_or(Malformed)?;
        Ok((Cid::from_bytes(cid)?, rest))
    }

    pub fn codec(&self) -> u64 {
        self.codec
    }

    pub fn to_bytes(self) -> Vec<u8> {
        let mut bytes = Vec::with_capacity(self.encoded_len());
        self.write(&mut bytes);
        bytes
    }

    pub fn encoded_len(&self) -> usize {
        let codec = match self.version {
            Version::V0 => 0,
            Version::V1 => 1 + varint_len(self.codec),
        };
        codec + varint_len(self.hash) + 1 + usize::from(self.size)
    }

    pub fn write(&self, bytes: &mut Vec<u8>) {
        if self.version == Version::V1 {
            bytes.push(1);
            put_varint(bytes, self.codec);
        }
        put_varint(bytes, self.hash);
        bytes.push(self.size);
        bytes.extend_from_slice(&self.digest[..usize::from(self.size)]);
    }
}

/// The varint that begins here, in its shortest form.
#[inline(always)]
pub fn varint(bytes: &mut &[u8]) -> Result<u64, Malformed> {
    let mut number = 0;
    for shift in (0..64).step_by(7) {
        let (&byte, rest) = bytes.split_first().ok_or(Malformed)?;
        *bytes = rest;
        number |= u64::from(byte & 0x7f) << shift;
        if byte & 0x80 == 0 {
            let is_shortest = byte != 0 || shift == 0;
            let fits = shift < 63 || byte == 1;
            return if is_shortest && fits { Ok(number) } else { Err(Malformed) };
        }
    }
    Err(Malformed)
}

fn put_varint(bytes: &mut Vec<u8>, mut number: u64) {
    while number >= 0x80 {
        bytes.push(number as u8 | 0x80);
        number >>= 7;
    }
    bytes.push(number as u8);
}

fn varint_len(number: u64) -> usize {
    (64 - (number | 1).leading_zeros()).div_ceil(7) as usize
}
