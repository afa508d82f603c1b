//! The crate `cid`, in the version that is there.

use super::cids;
use crate::row::Row;
use cid::Cid;

const NAME: &str = "cid";

fn read(bytes: &[u8]) -> Option<Cid> {
    Cid::try_from(bytes).ok()
}

pub fn from_bytes(row: Row, bytes: &'static [u8]) -> Row {
    cids::from_bytes(row, NAME, bytes, read)
}

pub fn from_text(row: Row, texts: &'static [u8]) -> Row {
    cids::from_text(row, NAME, texts, |text| Cid::try_from(text).ok())
}

pub fn to_bytes(row: Row, bytes: &'static [u8]) -> Row {
    cids::written(row, NAME, bytes, read, Cid::to_bytes)
}

pub fn to_text(row: Row, bytes: &'static [u8]) -> Row {
    cids::written(row, NAME, bytes, read, Cid::to_string)
}
