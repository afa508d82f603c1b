//! The message of the typed rows: one of Filecoin, which is the list of its ten fields.

use serde::Deserialize;
use serde_bytes::ByteBuf;

/// Version, to, from, nonce, value, gas limit, gas fee cap, gas premium, method, parameters.
#[derive(Deserialize)]
#[allow(dead_code)]
pub struct Message(
    pub u64,
    pub ByteBuf,
    pub ByteBuf,
    pub u64,
    pub ByteBuf,
    pub i64,
    pub ByteBuf,
    pub ByteBuf,
    pub u64,
    pub ByteBuf,
);
