//! Content identifiers.

use std::cmp::Ordering;
use std::fmt;
use std::hash::{Hash, Hasher};
use std::str::FromStr;

use crate::error::Error;
use crate::ffi;

/// The maximum number of characters of a CID's text, in any base.
const LONGEST_TEXT: usize = 173;

/// The version of a CID.
#[derive(Clone, Copy, Debug, PartialEq, Eq, PartialOrd, Ord, Hash)]
pub enum Version {
    /// The SHA2-256 hash of a DAG-PB block, without a codec.
    V0,
    /// Any codec with any hash.
    V1,
}

/// A base of a CID's text (multibase).
#[derive(Clone, Copy, Debug, PartialEq, Eq, Hash)]
#[repr(u8)]
pub enum Base {
    /// Hexadecimal digits in lower case, prefix `f`.
    Base16Lower = b'f',
    /// Base32 in lower case and without padding, prefix `b`.
    Base32Lower = b'b',
    /// Base32 in upper case and without padding, prefix `B`.
    Base32Upper = b'B',
    /// Base36 in lower case, prefix `k`.
    Base36Lower = b'k',
    /// Base58 with the alphabet of Bitcoin, prefix `z`.
    Base58Btc = b'z',
    /// Base64 with the alphabet for URLs and without padding, prefix `u`.
    Base64Url = b'u',
}

/// A content identifier with a digest of at most 64 bytes.
///
/// Each value is a valid CID. It is `Copy`, and contains the CID's bytes in place. `Display` writes
/// base32 for version 1, and base58btc (`Qm..`) for version 0. [`FromStr`] parses a string in any
/// [`Base`], with or without `/ipfs/` before it.
///
/// CIDs are ordered by version, codec, hash code, length of the digest, and digest.
#[derive(Clone, Copy)]
#[repr(transparent)]
pub struct Cid(ffi::CidBytes);

impl Cid {
    /// Returns the CID of a block: version 1 with this codec and the block's SHA2-256 digest.
    ///
    /// ```
    /// let cid = kombilad::Cid::of_block(kombilad::DAG_CBOR, b"\xa0");
    /// assert_eq!(cid.to_string(), "bafyreigbtj4x7ip5legnfznufuopl4sg4knzc2cof6duas4b3q2fy6swua");
    /// ```
    pub fn of_block(codec: u64, block: &[u8]) -> Self {
        Cid(ffi::cid_of_block(codec, block))
    }

    /// Checks that a block has the digest of this CID.
    ///
    /// ```
    /// use kombilad::{Cid, Error, DAG_CBOR};
    ///
    /// let cid = Cid::of_block(DAG_CBOR, b"\xa0");
    /// assert_eq!(cid.verify(b"\xa0"), Ok(()));
    /// assert_eq!(cid.verify(b"\x80"), Err(Error::WrongDigest));
    /// ```
    ///
    /// # Errors
    ///
    /// [`Error::WrongDigest`] if it has another digest, and [`Error::UnknownHash`] if the hash
    /// function is not SHA2-256, SHA2-512, BLAKE2b-256 or identity.
    pub fn verify(&self, block: &[u8]) -> Result<(), Error> {
        ffi::verify(self.as_bytes(), block).map_err(Error::of_digest)
    }

    /// Returns the CID of bytes that the library has checked.
    #[inline]
    pub(crate) fn of_valid(bytes: &[u8]) -> Self {
        let mut cid = ffi::NO_CID;
        // A CID has at most 86 bytes.
        cid.bytes[..bytes.len()].copy_from_slice(bytes);
        cid.len = bytes.len() as u8;
        Cid(cid)
    }

    /// Returns the CID of a record that the library wrote.
    #[inline]
    pub(crate) fn of_record(record: ffi::CidBytes) -> Self {
        Cid(record)
    }

    /// Returns the record of the CID.
    pub(crate) fn record(&self) -> ffi::CidBytes {
        self.0
    }

    /// Returns the CID's bytes, at most 86.
    pub fn as_bytes(&self) -> &[u8] {
        &self.0.bytes[..usize::from(self.0.len)]
    }

    /// Returns a copy of the CID's bytes.
    pub fn to_bytes(&self) -> Vec<u8> {
        self.as_bytes().to_vec()
    }

    fn parts(&self) -> ffi::CidParts {
        ffi::cid_parts(self.as_bytes()).expect("the bytes of a CID are one")
    }

    /// Returns the version.
    pub fn version(&self) -> Version {
        match self.parts().version {
            0 => Version::V0,
            _ => Version::V1,
        }
    }

    /// Returns the codec of the block, as in the multicodec table.
    pub fn codec(&self) -> u64 {
        self.parts().codec
    }

    /// Returns the code of the hash function, as in the multicodec table.
    pub fn hash_code(&self) -> u64 {
        self.parts().hash
    }

    /// Returns the digest.
    pub fn digest(&self) -> &[u8] {
        self.last(self.parts().digest_len as usize)
    }

    /// Returns the last `len` of the CID's bytes.
    fn last(&self, len: usize) -> &[u8] {
        let bytes = self.as_bytes();
        &bytes[bytes.len() - len..]
    }

    /// Returns the string in a base. For version 1 it begins with the multibase prefix.
    ///
    /// ```
    /// use kombilad::{Base, Cid};
    ///
    /// let cid: Cid = "bafkqaaa".parse()?;
    /// assert_eq!(cid.to_string_of_base(Base::Base16Lower)?, "f01550000");
    /// # Ok::<(), kombilad::Error>(())
    /// ```
    ///
    /// # Errors
    ///
    /// [`Error::V0Base`] if the CID has version 0 and the base isn't base58btc, and
    /// [`Error::OutOfMemory`] if an allocation fails.
    pub fn to_string_of_base(&self, base: Base) -> Result<String, Error> {
        let mut buffer = [0; LONGEST_TEXT];
        self.text(base as u32, &mut buffer).map(str::to_owned)
    }

    fn text<'a>(&self, base: u32, buffer: &'a mut [u8; LONGEST_TEXT]) -> Result<&'a str, Error> {
        ffi::cid_to_text(self.as_bytes(), base, buffer).map_err(Error::of_bytes)
    }
}

impl TryFrom<&[u8]> for Cid {
    type Error = Error;

    /// Reads the bytes as a CID, with nothing after it.
    fn try_from(bytes: &[u8]) -> Result<Self, Error> {
        ffi::cid_check(bytes).map_err(Error::of_bytes)?;
        Ok(Cid::of_valid(bytes))
    }
}

impl TryFrom<Vec<u8>> for Cid {
    type Error = Error;

    fn try_from(bytes: Vec<u8>) -> Result<Self, Error> {
        Cid::try_from(&bytes[..])
    }
}

impl TryFrom<&str> for Cid {
    type Error = Error;

    fn try_from(text: &str) -> Result<Self, Error> {
        ffi::cid_from_text(text).map(Cid).map_err(|(status, place)| Error::of_text(status, place))
    }
}

impl FromStr for Cid {
    type Err = Error;

    fn from_str(text: &str) -> Result<Self, Error> {
        Cid::try_from(text)
    }
}

impl fmt::Display for Cid {
    fn fmt(&self, f: &mut fmt::Formatter<'_>) -> fmt::Result {
        let mut buffer = [0; LONGEST_TEXT];
        let text = self.text(0, &mut buffer).map_err(|_| fmt::Error)?;
        f.pad(text)
    }
}

impl fmt::Debug for Cid {
    fn fmt(&self, f: &mut fmt::Formatter<'_>) -> fmt::Result {
        write!(f, "Cid({self})")
    }
}

impl AsRef<[u8]> for Cid {
    fn as_ref(&self) -> &[u8] {
        self.as_bytes()
    }
}

impl From<Cid> for Vec<u8> {
    fn from(cid: Cid) -> Vec<u8> {
        cid.to_bytes()
    }
}

impl PartialEq for Cid {
    fn eq(&self, other: &Self) -> bool {
        self.as_bytes() == other.as_bytes()
    }
}

impl Eq for Cid {}

impl Hash for Cid {
    fn hash<H: Hasher>(&self, state: &mut H) {
        self.as_bytes().hash(state);
    }
}

impl Ord for Cid {
    fn cmp(&self, other: &Self) -> Ordering {
        if have_one_head(self.as_bytes(), other.as_bytes()) {
            return self.as_bytes().cmp(other.as_bytes());
        }
        let (a, b) = (self.parts(), other.parts());
        (a.version, a.codec, a.hash, a.digest_len)
            .cmp(&(b.version, b.codec, b.hash, b.digest_len))
            .then_with(|| self.last(a.digest_len as usize).cmp(other.last(b.digest_len as usize)))
    }
}

/// Returns true if two CIDs are known, without parsing them, to have the same bytes before their
/// digests: both have version 0, or the same four varints of one byte each. Most CIDs that a
/// program compares do, so sorting them doesn't parse them.
fn have_one_head(a: &[u8], b: &[u8]) -> bool {
    // 0x12 is the code of SHA2-256, with which only version 0 begins.
    a[0] == 0x12 && b[0] == 0x12 || a[..4] == b[..4] && a[..4].iter().all(|&byte| byte < 0x80)
}

impl PartialOrd for Cid {
    fn partial_cmp(&self, other: &Self) -> Option<Ordering> {
        Some(self.cmp(other))
    }
}
