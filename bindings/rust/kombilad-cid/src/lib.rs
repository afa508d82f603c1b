//! Conversions between [`kombilad::Cid`] and the `Cid` of the crate `cid`, of any version from
//! 0.5.1 to 0.11.
//!
//! ```
//! let ours: kombilad::Cid = "bafkqaaa".parse()?;
//! let theirs = kombilad_cid::to_cid(&ours)?;
//! assert_eq!(theirs.to_string(), "bafkqaaa");
//! assert_eq!(kombilad_cid::from_cid(&theirs)?, ours);
//! # Ok::<(), Box<dyn std::error::Error>>(())
//! ```
#![forbid(unsafe_code)]
#![warn(missing_docs)]

/// Converts a CID to the `Cid` of the crate `cid`.
///
/// # Errors
///
/// Returns the error of `cid` if it rejects the bytes. Versions of it that know only some hash
/// codes reject the others.
pub fn to_cid(cid: &kombilad::Cid) -> Result<cid::Cid, cid::Error> {
    cid::Cid::try_from(cid.as_bytes())
}

/// Converts a `Cid` of the crate `cid`.
///
/// # Errors
///
/// [`kombilad::CidError::DigestTooLong`] if the digest has more than 64 bytes.
pub fn from_cid(cid: &cid::Cid) -> Result<kombilad::Cid, kombilad::Error> {
    kombilad::Cid::try_from(cid.to_bytes().as_slice())
}
