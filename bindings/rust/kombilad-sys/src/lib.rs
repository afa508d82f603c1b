//! The C interface of libkombilad. `kombilad.h` documents each call, the statuses that it returns,
//! and its output with each status. The crate `kombilad` is a safe interface to it.
//!
//! # Safety
//!
//! - A pointer before a length points to that many bytes or records. If the length is 0, it may be
//!   null.
//! - Any other pointer points to one value.
//! - Memory that a call writes to must not overlap another argument. During the call no other
//!   thread may read or write it.
//! - During the call no thread may write to memory that the call reads.
//!
//! No call keeps a pointer after it returns. A `kombilad_walk` is used by one call at a time, and
//! its walk is freed by `kombilad_walk_free`. So is a `kombilad_packing`, by `kombilad_pack_free`.
#![no_std]
#![warn(missing_docs)]
#![allow(non_camel_case_types)]

/// The bytes of a CID: `len` of them, at most 86, and zeros after them.
#[repr(C)]
#[derive(Clone, Copy, Debug, PartialEq, Eq)]
pub struct kombilad_cid {
    /// The number of bytes of the CID.
    pub len: u8,
    /// Its bytes, and zeros after them.
    pub bytes: [u8; 87],
}

/// The CID of a block in the payload of a CAR, and the number of bytes of the payload before its
/// section.
#[repr(C)]
#[derive(Clone, Copy, Debug, PartialEq, Eq)]
pub struct kombilad_car_row {
    /// The CID of the block.
    pub cid: kombilad_cid,
    /// The number of bytes of the payload before the section.
    pub offset: u64,
}

/// The parts of a CID. The digest is the last `digest_len` of its bytes.
#[repr(C)]
#[derive(Clone, Copy, Debug, PartialEq, Eq)]
pub struct kombilad_cid_parts {
    /// The version, 0 or 1.
    pub version: u64,
    /// The codec of the content, as in the table of multicodecs.
    pub codec: u64,
    /// The code of the hash function, as in that table.
    pub hash: u64,
    /// The number of bytes of the digest.
    pub digest_len: u64,
}

/// A range of bytes, such as that of a CID in a block.
#[repr(C)]
#[derive(Clone, Copy, Debug, PartialEq, Eq)]
pub struct kombilad_span {
    /// The offset of the first byte.
    pub offset: u64,
    /// The number of bytes.
    pub len: u64,
}

/// A value or a key of a block. `kombilad.h` lists the meaning of the two numbers for each kind.
#[repr(C)]
#[derive(Clone, Copy, Debug, PartialEq, Eq)]
pub struct kombilad_entry {
    /// The kind, from 0 for null to 11 for a key.
    pub kind: u32,
    /// The number of bytes of the content, or the number of entries that a list or a map spans.
    pub len: u32,
    /// The number, the offset of the content, or the number of items or pairs.
    pub value: u64,
}

/// The place of the next section of a CAR.
#[repr(C)]
#[derive(Clone, Copy, Debug, PartialEq, Eq)]
pub struct kombilad_car_place {
    /// The version, 1 or 2.
    pub version: u64,
    /// The byte at which the section begins.
    pub at: u64,
    /// The byte at which the last section ends, by the header of version 2. For version 1 it is
    /// `u64::MAX`.
    pub end: u64,
}

/// A walk over the blocks of a file or a folder, or none if both numbers are 0. Only the calls may
/// read or write it after the first one. It may be moved, but only one copy of it may be used.
#[repr(C)]
#[derive(Debug, Default)]
pub struct kombilad_walk {
    /// 1 if there is a walk.
    pub is_open: u64,
    /// The address of the walk.
    pub walk: u64,
}

/// An entry of a folder.
#[repr(C)]
#[derive(Clone, Copy, Debug, PartialEq, Eq)]
pub struct kombilad_folder_entry {
    /// The CID of the file, the folder or the symbolic link.
    pub cid: kombilad_cid,
    /// The place of the name in the names of the call. The name is UTF-8, is not empty, `.` or
    /// `..`, and has no `/` and no zero byte.
    pub name: kombilad_span,
    /// The size that the link states of its block and all blocks below it, or 0 if it states none.
    /// Nothing checks it.
    pub tsize: u64,
    /// 1 if the link states a size, and otherwise 0.
    pub has_tsize: u64,
}

/// What a block says of a file, a folder or a symbolic link. A field that it doesn't have is 0.
#[repr(C)]
#[derive(Clone, Copy, Debug, Default, PartialEq, Eq)]
pub struct kombilad_node {
    /// The kind, such as [`KOMBILAD_NODE_FILE`].
    pub kind: u32,
    /// The sum of the numbers of the fields that it has, such as [`KOMBILAD_NODE_SIZE`].
    pub fields: u32,
    /// The number of bytes of the file.
    pub size: u64,
    /// When the content was last changed, in seconds since the beginning of 1970 in UTC.
    pub seconds: i64,
    /// The nanoseconds after these seconds, at most 999,999,999.
    pub nanoseconds: u32,
    /// The permissions, as chmod has them in its low twelve bits.
    pub mode: u32,
}

/// A file, a folder or a symbolic link that is packed, or nothing if both numbers are 0. Only the
/// calls may read or write it after the first one. It may be moved, but only one copy of it may be
/// used.
#[repr(C)]
#[derive(Debug, Default)]
pub struct kombilad_packing {
    /// 1 if something is packed.
    pub is_open: u64,
    /// The address of what is packed.
    pub packing: u64,
}

/// A block that was packed.
#[repr(C)]
#[derive(Clone, Copy, Debug, PartialEq, Eq)]
pub struct kombilad_packed_block {
    /// The CID of the block.
    pub cid: kombilad_cid,
    /// The number of bytes of the file in the block and in all blocks below it, or 0 for folders
    /// and symbolic links.
    pub size: u64,
    /// The number of bytes of the block and of all blocks below it.
    pub total: u64,
}

/// The call succeeded.
pub const KOMBILAD_OK: u32 = 0;
/// An allocation failed.
pub const KOMBILAD_NO_MEMORY: u32 = 1;
/// The buffer is too short for the content.
pub const KOMBILAD_TOO_SHORT: u32 = 2;
/// The block is valid, but the keys of its maps are not in canonical order.
pub const KOMBILAD_NOT_CANONICAL: u32 = 3;
/// The number of the base is not one of those below.
pub const KOMBILAD_UNKNOWN_BASE: u32 = 4;
/// A CID of version 0 has a text only in base58btc.
pub const KOMBILAD_V0_BASE: u32 = 5;
/// Lists and maps nest deeper than the limit.
pub const KOMBILAD_TOO_DEEP: u32 = 6;
/// There are more values than the limit.
pub const KOMBILAD_TOO_MANY: u32 = 7;
/// A string, a byte string, a list or a map is too long for an entry of a tape.
pub const KOMBILAD_TOO_LONG: u32 = 8;
/// No call of this version returns this.
pub const KOMBILAD_OTHER: u32 = 15;

/// The bytes end before the CID does.
pub const KOMBILAD_CID_END: u32 = 16;
/// A varint is not in its shortest form.
pub const KOMBILAD_CID_NOT_SHORTEST: u32 = 17;
/// A varint encodes a number of 2^64 or more.
pub const KOMBILAD_CID_VARINT_TOO_LARGE: u32 = 18;
/// The bytes begin with the version 0, as no CID does.
pub const KOMBILAD_CID_EXPLICIT_VERSION_0: u32 = 19;
/// The version is neither 0 nor 1.
pub const KOMBILAD_CID_UNKNOWN_VERSION: u32 = 20;
/// The digest is longer than 64 bytes.
pub const KOMBILAD_CID_DIGEST_TOO_LONG: u32 = 21;
/// More bytes follow the CID.
pub const KOMBILAD_CID_TRAILING_BYTES: u32 = 22;

/// The text is empty, or doesn't begin with the prefix of a base below.
pub const KOMBILAD_TEXT_UNKNOWN_BASE: u32 = 32;
/// No CID has a text of this length in its base.
pub const KOMBILAD_TEXT_INVALID_LENGTH: u32 = 33;
/// A character is not a letter of its base.
pub const KOMBILAD_TEXT_INVALID_LETTER: u32 = 34;
/// Bits after the last byte are set.
pub const KOMBILAD_TEXT_UNUSED_BITS: u32 = 35;
/// A CID of version 0 has no text with a prefix.
pub const KOMBILAD_TEXT_WRONG_VERSION: u32 = 36;
/// The text is not UTF-8.
pub const KOMBILAD_TEXT_UTF8: u32 = 37;

/// The bytes end before the item does.
pub const KOMBILAD_BLOCK_END: u32 = 48;
/// An argument is not in its shortest form.
pub const KOMBILAD_BLOCK_NOT_SHORTEST: u32 = 49;
/// A float of other than 64 bits, NaN or an infinity.
pub const KOMBILAD_BLOCK_FLOAT: u32 = 50;
/// A simple value, a tag or an indefinite length that DAG-CBOR doesn't allow.
pub const KOMBILAD_BLOCK_UNSUPPORTED: u32 = 51;
/// A text string is not UTF-8.
pub const KOMBILAD_BLOCK_UTF8: u32 = 52;
/// The key of a map is not a text string.
pub const KOMBILAD_BLOCK_KEY_NOT_TEXT: u32 = 53;
/// A map has the same key twice.
pub const KOMBILAD_BLOCK_DUPLICATE_KEY: u32 = 54;
/// The tag of a link isn't followed by a byte string that begins with a zero byte.
pub const KOMBILAD_BLOCK_LINK_BYTES: u32 = 55;
/// More bytes follow the item.
pub const KOMBILAD_BLOCK_TRAILING_BYTES: u32 = 56;
/// A segment of a path is not a key of the map, or not an index of the list.
pub const KOMBILAD_PATH_MISSING: u32 = 64;
/// A path continues after a value that is not a list, a map or a link.
pub const KOMBILAD_PATH_NOT_A_CONTAINER: u32 = 65;

/// The bytes of a link in a block are not a CID: the bytes end before the CID does.
pub const KOMBILAD_LINK_END: u32 = 80;
/// The bytes of a link in a block are not a CID: a varint is not in its shortest form.
pub const KOMBILAD_LINK_NOT_SHORTEST: u32 = 81;
/// The bytes of a link in a block are not a CID: a varint encodes a number of 2^64 or more.
pub const KOMBILAD_LINK_VARINT_TOO_LARGE: u32 = 82;
/// The bytes of a link in a block are not a CID: the bytes begin with the version 0, as no CID
/// does.
pub const KOMBILAD_LINK_EXPLICIT_VERSION_0: u32 = 83;
/// The bytes of a link in a block are not a CID: the version is neither 0 nor 1.
pub const KOMBILAD_LINK_UNKNOWN_VERSION: u32 = 84;
/// The bytes of a link in a block are not a CID: the digest is longer than 64 bytes.
pub const KOMBILAD_LINK_DIGEST_TOO_LONG: u32 = 85;
/// The bytes of a link in a block are not a CID: more bytes follow the CID.
pub const KOMBILAD_LINK_TRAILING_BYTES: u32 = 86;
/// No section is left, which isn't an error.
pub const KOMBILAD_CAR_DONE: u32 = 96;
/// The bytes, or the payload of version 2, end before a header or a section does.
pub const KOMBILAD_CAR_UNEXPECTED_END: u32 = 97;
/// The varint before a header or a section is not in its shortest form.
pub const KOMBILAD_CAR_LENGTH_NOT_SHORTEST: u32 = 98;
/// The varint before a header or a section encodes a number of 2^64 or more.
pub const KOMBILAD_CAR_LENGTH_TOO_LARGE: u32 = 99;
/// A header or a section has the length zero.
pub const KOMBILAD_CAR_EMPTY: u32 = 100;
/// A header or a section is longer than the limit.
pub const KOMBILAD_CAR_TOO_LONG: u32 = 101;
/// The header is a block, but not a map of roots and of the version 1.
pub const KOMBILAD_CAR_NOT_A_HEADER: u32 = 102;
/// Version 2 places its payload before its own end, or the payload's end at 2^64 or more.
pub const KOMBILAD_CAR_PAYLOAD: u32 = 103;
/// The bytes end before the payload of version 2 does.
pub const KOMBILAD_CAR_SHORT_PAYLOAD: u32 = 104;
/// The hash function of the CID is not SHA2-256, SHA2-512, BLAKE2b-256 or identity.
pub const KOMBILAD_UNKNOWN_HASH: u32 = 112;
/// The block has another digest.
pub const KOMBILAD_WRONG_DIGEST: u32 = 113;
/// A value or a key is missing.
pub const KOMBILAD_TAPE_MISSING: u32 = 128;
/// More entries follow than the list, the map or the tape has values or pairs.
pub const KOMBILAD_TAPE_LEFT_OVER: u32 = 129;
/// The kind is unknown, a key instead of a value, or a value instead of a key.
pub const KOMBILAD_TAPE_KIND: u32 = 130;
/// A list or a map spans zero entries, or more than its container has left.
pub const KOMBILAD_TAPE_SPAN: u32 = 131;
/// The length or the value is invalid for the kind of the entry.
pub const KOMBILAD_TAPE_FIELDS: u32 = 132;
/// The content is not within the data.
pub const KOMBILAD_TAPE_CONTENT: u32 = 133;
/// A string or a key is not UTF-8.
pub const KOMBILAD_TAPE_UTF8: u32 = 134;
/// A float is NaN or an infinity.
pub const KOMBILAD_TAPE_FLOAT: u32 = 135;
/// A map has the same key twice.
pub const KOMBILAD_TAPE_DUPLICATE_KEY: u32 = 137;
/// The bytes of the node of DAG-PB, or of one of its links, end before the field does.
pub const KOMBILAD_PB_END: u32 = 144;
/// A varint encodes a number of 2^64 or more, or has more than ten bytes.
pub const KOMBILAD_PB_VARINT_TOO_LARGE: u32 = 145;
/// DAG-PB doesn't allow the number and wire type of a field there.
pub const KOMBILAD_PB_UNKNOWN_FIELD: u32 = 146;
/// A field comes twice or out of order, or links come both before and after the data.
pub const KOMBILAD_PB_FIELD_ORDER: u32 = 147;
/// A link does not begin with its hash.
pub const KOMBILAD_PB_NO_HASH: u32 = 148;
/// The name of a link is not UTF-8.
pub const KOMBILAD_PB_UTF8: u32 = 149;
/// The text is not UTF-8.
pub const KOMBILAD_JSON_UTF8: u32 = 160;
/// The text is not JSON, or continues after its value.
pub const KOMBILAD_JSON_SYNTAX: u32 = 161;
/// The text ends before its value does.
pub const KOMBILAD_JSON_END: u32 = 162;
/// A number with a fraction or an exponent is beyond the greatest float of 64 bits.
pub const KOMBILAD_JSON_FLOAT: u32 = 163;
/// An integer is below -2^64 or above 2^64 - 1.
pub const KOMBILAD_JSON_INTEGER_RANGE: u32 = 164;
/// An object has the same key twice.
pub const KOMBILAD_JSON_DUPLICATE_KEY: u32 = 165;
/// The text of a link is not that of a CID in DAG-JSON.
pub const KOMBILAD_JSON_LINK: u32 = 166;
/// The text of bytes is not base64 without padding.
pub const KOMBILAD_JSON_BYTES: u32 = 167;
/// An object has the key `/` as links and bytes do, and is neither.
pub const KOMBILAD_JSON_RESERVED: u32 = 168;
/// A map of the block has no DAG-JSON: its text would be read as a link or as bytes.
pub const KOMBILAD_JSON_RESERVED_MAP: u32 = 169;
/// More bytes of a CAR are needed.
pub const KOMBILAD_CAR_MORE: u32 = 176;
/// The walk has taken all its blocks, which isn't an error of `kombilad_walk_wanted`.
pub const KOMBILAD_WALK_DONE: u32 = 192;
/// The `kombilad_walk` has no walk, or one that is not over what the call reads.
pub const KOMBILAD_WALK_CLOSED: u32 = 193;
/// The codec of the CID is neither raw nor dag-pb.
pub const KOMBILAD_FILE_CODEC: u32 = 194;
/// The node has no data.
pub const KOMBILAD_FILE_NO_DATA: u32 = 195;
/// The node is a folder, a symbolic link or metadata.
pub const KOMBILAD_FILE_NOT_FILE: u32 = 196;
/// The number of sizes in the node is not that of its links.
pub const KOMBILAD_FILE_SIZE_COUNT: u32 = 197;
/// The size of the file in the node is not that of its bytes and its links.
pub const KOMBILAD_FILE_SIZE: u32 = 198;
/// The node has another number of bytes of the file than the node above it states.
pub const KOMBILAD_FILE_PART_SIZE: u32 = 199;
/// The file has more bytes than the limit.
pub const KOMBILAD_FILE_TOO_LARGE: u32 = 200;
/// The file has more blocks than the limit.
pub const KOMBILAD_FILE_TOO_MANY_BLOCKS: u32 = 201;
/// The blocks of the file nest deeper than the limit.
pub const KOMBILAD_FILE_TOO_DEEP: u32 = 202;
/// More blocks of the file wait to be read than the limit.
pub const KOMBILAD_FILE_TOO_MANY_PARTS: u32 = 203;
/// The data of a node end within a field.
pub const KOMBILAD_UNIXFS_END: u32 = 208;
/// A varint in the data of a node encodes a number of 2^64 or more, or has more than ten bytes.
pub const KOMBILAD_UNIXFS_VARINT_TOO_LARGE: u32 = 209;
/// The number and wire type of a field are not allowed in the data of a node.
pub const KOMBILAD_UNIXFS_UNKNOWN_FIELD: u32 = 210;
/// A field in the data of a node comes twice or out of order.
pub const KOMBILAD_UNIXFS_FIELD_ORDER: u32 = 211;
/// The data of a node do not begin with a type.
pub const KOMBILAD_UNIXFS_NO_TYPE: u32 = 212;
/// No type of node has this number.
pub const KOMBILAD_UNIXFS_UNKNOWN_TYPE: u32 = 213;
/// The mode of a node has more than 32 bits.
pub const KOMBILAD_UNIXFS_MODE_TOO_LARGE: u32 = 214;
/// The time of a node does not begin with its seconds.
pub const KOMBILAD_UNIXFS_NO_SECONDS: u32 = 215;
/// The nanoseconds of a node's time are not from 1 to 999,999,999.
pub const KOMBILAD_UNIXFS_NANOSECONDS: u32 = 216;
/// The codec of the CID is not dag-pb.
pub const KOMBILAD_FOLDER_CODEC: u32 = 224;
/// The node is not a folder.
pub const KOMBILAD_FOLDER_NOT_FOLDER: u32 = 225;
/// The hash function of a shard is not murmur3-x64-64.
pub const KOMBILAD_FOLDER_HASH_FUNCTION: u32 = 226;
/// A shard doesn't have 256 slots.
pub const KOMBILAD_FOLDER_FANOUT: u32 = 227;
/// The name of an entry is missing, empty, `.` or `..`, or has a `/` or a zero byte.
pub const KOMBILAD_FOLDER_INVALID_NAME: u32 = 228;
/// A name in a plain folder is not greater than the one before it.
pub const KOMBILAD_FOLDER_NAME_ORDER: u32 = 229;
/// The name of a link in a shard doesn't begin with two upper-case hexadecimal digits.
pub const KOMBILAD_FOLDER_INVALID_SLOT: u32 = 230;
/// A slot of a shard is not greater than the one before it.
pub const KOMBILAD_FOLDER_SLOT_ORDER: u32 = 231;
/// The bit field of a shard is not that of its slots.
pub const KOMBILAD_FOLDER_BIT_FIELD: u32 = 232;
/// A shard leads to a plain folder as if it were a shard.
pub const KOMBILAD_FOLDER_NOT_SHARD: u32 = 233;
/// The hash of a name in a shard doesn't lead there.
pub const KOMBILAD_FOLDER_WRONG_SLOT: u32 = 234;
/// A shard at the eighth level leads to another one.
pub const KOMBILAD_FOLDER_TOO_DEEP: u32 = 235;
/// The folder has no entry with the name, which isn't an error.
pub const KOMBILAD_FOLDER_MISSING: u32 = 236;
/// The search needs one more block, which isn't an error.
pub const KOMBILAD_FOLDER_MORE: u32 = 237;
/// A block above others needs room for at least two links.
pub const KOMBILAD_PACK_WIDTH: u32 = 240;
/// The file or the folder has 2^64 bytes or more, with all its blocks.
pub const KOMBILAD_PACK_TOO_LARGE: u32 = 241;
/// The nanoseconds of the time are more than 999,999,999.
pub const KOMBILAD_PACK_NANOSECONDS: u32 = 242;
/// The name of an entry is empty, `.` or `..`, or has a `/` or a zero byte.
pub const KOMBILAD_PACK_INVALID_NAME: u32 = 243;
/// The names of the entries do not ascend by their bytes, each once.
pub const KOMBILAD_PACK_NAME_ORDER: u32 = 244;
/// Two names of a sharded folder have the same hash.
pub const KOMBILAD_PACK_SAME_HASH: u32 = 245;
/// Blocks that were packed before have not been taken.
pub const KOMBILAD_PACK_WAITING: u32 = 246;

/// Base32 in lower case for a CID of version 1, and base58btc for one of version 0.
pub const KOMBILAD_BASE_USUAL: u32 = 0;
/// Base16: hexadecimal digits, lower case.
pub const KOMBILAD_BASE16: u32 = b'f' as u32;
/// Base32: RFC 4648, lower case, without padding.
pub const KOMBILAD_BASE32: u32 = b'b' as u32;
/// Base32: RFC 4648, upper case, without padding.
pub const KOMBILAD_BASE32_UPPER: u32 = b'B' as u32;
/// Base36: lower case.
pub const KOMBILAD_BASE36: u32 = b'k' as u32;
/// Base58 with the alphabet of Bitcoin.
pub const KOMBILAD_BASE58BTC: u32 = b'z' as u32;
/// Base64url: RFC 4648, section 5, without padding.
pub const KOMBILAD_BASE64URL: u32 = b'u' as u32;

/// The limit on the blocks of an untrusted file: a file of 1 TiB in chunks of 256 KiB, with 174
/// links in a block, has about 4,200,000.
pub const KOMBILAD_FILE_BLOCKS: u64 = 1 << 24;
/// The limit on the blocks of an untrusted file that wait while another is read: that file has
/// fewer than 1,000.
pub const KOMBILAD_FILE_WAITING: usize = 1 << 18;
/// The limit on the levels of blocks below the root of an untrusted file: that file has four.
pub const KOMBILAD_FILE_LEVELS: usize = 64;

/// Bytes of a file: a raw block, or a leaf of an old writer.
pub const KOMBILAD_NODE_RAW: u32 = 0;
/// A plain folder.
pub const KOMBILAD_NODE_FOLDER: u32 = 1;
/// A file.
pub const KOMBILAD_NODE_FILE: u32 = 2;
/// Metadata of a file.
pub const KOMBILAD_NODE_METADATA: u32 = 3;
/// A symbolic link.
pub const KOMBILAD_NODE_SYMLINK: u32 = 4;
/// A sharded folder, or a part of one.
pub const KOMBILAD_NODE_SHARD: u32 = 5;

/// The node has a size.
pub const KOMBILAD_NODE_SIZE: u32 = 1;
/// The node has a mode.
pub const KOMBILAD_NODE_MODE: u32 = 2;
/// The node has a time.
pub const KOMBILAD_NODE_TIME: u32 = 4;

/// The maximum number of bytes that a section of a CAR has before its block.
pub const KOMBILAD_CAR_SECTION: usize = 96;
/// The number of bytes of a CAR of version 2 before its payload.
pub const KOMBILAD_CAR_FRONT: usize = 51;

/// The number of bytes of a chunk in the layout of `ipfs add`.
pub const KOMBILAD_PACK_CHUNK: usize = 1 << 18;
/// The maximum number of links of a block in that layout.
pub const KOMBILAD_PACK_LINKS: usize = 174;
/// The number of bytes of names and CIDs above which that layout shards a folder.
pub const KOMBILAD_PACK_SHARDED_ABOVE: u64 = 1 << 18;
/// A block of a file in that layout has fewer bytes than this.
pub const KOMBILAD_PACK_BLOCK: usize = (1 << 18) + 64;

/// Returns the number of entries that a block of so many bytes has at most.
#[allow(non_snake_case)]
pub const fn KOMBILAD_FOLDER_ENTRIES(len: usize) -> usize {
    len / 6
}

extern "C" {
    /// Writes the sentence of a status, at most 80 bytes of ASCII.
    pub fn kombilad_status_text(
        status: u32,
        text: *mut u8,
        text_len: usize,
        needed: *mut usize,
    ) -> u32;
    /// Checks that the bytes are a CID, with nothing after it.
    pub fn kombilad_cid_check(bytes: *const u8, len: usize) -> u32;
    /// Writes the parts of a CID.
    pub fn kombilad_cid_parts_of(
        bytes: *const u8,
        len: usize,
        parts: *mut kombilad_cid_parts,
    ) -> u32;
    /// Writes the text of a CID in a base.
    pub fn kombilad_cid_to_text(
        bytes: *const u8,
        len: usize,
        base: u32,
        text: *mut u8,
        text_len: usize,
        needed: *mut usize,
    ) -> u32;
    /// Reads the text of a CID.
    pub fn kombilad_cid_from_text(
        text: *const u8,
        len: usize,
        cid: *mut kombilad_cid,
        place: *mut usize,
    ) -> u32;
    /// Writes the CID of a block: version 1, with this codec and the block's SHA2-256 digest.
    pub fn kombilad_cid_of_block(codec: u64, block: *const u8, len: usize, cid: *mut kombilad_cid);

    /// Checks that the bytes are one block.
    pub fn kombilad_block_check(
        block: *const u8,
        len: usize,
        levels: usize,
        values: usize,
        offset: *mut usize,
    ) -> u32;
    /// Checks that the bytes are one block in canonical form.
    pub fn kombilad_block_check_canonical(
        block: *const u8,
        len: usize,
        levels: usize,
        values: usize,
        offset: *mut usize,
    ) -> u32;
    /// Writes the block in canonical form: with the keys of each map sorted, and otherwise
    /// unchanged.
    pub fn kombilad_block_canonicalize(
        block: *const u8,
        len: usize,
        levels: usize,
        values: usize,
        out: *mut u8,
        out_len: usize,
        needed: *mut usize,
        offset: *mut usize,
    ) -> u32;
    /// Finds the value at a path in the block, or the link after which the path continues.
    pub fn kombilad_block_at(
        block: *const u8,
        len: usize,
        levels: usize,
        values: usize,
        path: *const u8,
        path_len: usize,
        value: *mut kombilad_span,
        rest: *mut usize,
        place: *mut usize,
    ) -> u32;
    /// Writes the DAG-JSON of the block.
    pub fn kombilad_block_to_json(
        block: *const u8,
        len: usize,
        levels: usize,
        values: usize,
        text: *mut u8,
        text_len: usize,
        needed: *mut usize,
        offset: *mut usize,
    ) -> u32;
    /// Writes the canonical block of a text in DAG-JSON.
    pub fn kombilad_block_of_json(
        text: *const u8,
        len: usize,
        levels: usize,
        values: usize,
        out: *mut u8,
        out_len: usize,
        needed: *mut usize,
        offset: *mut usize,
    ) -> u32;
    /// Counts the links of the block.
    pub fn kombilad_links_count(
        block: *const u8,
        len: usize,
        levels: usize,
        values: usize,
        count: *mut usize,
        offset: *mut usize,
    ) -> u32;
    /// Lists the CIDs of the block's links.
    pub fn kombilad_links(
        block: *const u8,
        len: usize,
        levels: usize,
        values: usize,
        links: *mut kombilad_cid,
        links_len: usize,
        needed: *mut usize,
        offset: *mut usize,
    ) -> u32;
    /// Lists the positions of the CIDs of the block's links.
    pub fn kombilad_link_positions(
        block: *const u8,
        len: usize,
        levels: usize,
        values: usize,
        spans: *mut kombilad_span,
        spans_len: usize,
        needed: *mut usize,
        offset: *mut usize,
    ) -> u32;
    /// Lists the values and keys of the block.
    pub fn kombilad_tape(
        block: *const u8,
        len: usize,
        levels: usize,
        values: usize,
        entries: *mut kombilad_entry,
        entries_len: usize,
        needed: *mut usize,
        offset: *mut usize,
    ) -> u32;
    /// Writes the canonical block of the value that the entries describe. The data has their
    /// content.
    pub fn kombilad_encode(
        entries: *const kombilad_entry,
        entries_len: usize,
        data: *const u8,
        data_len: usize,
        out: *mut u8,
        out_len: usize,
        needed: *mut usize,
        at: *mut usize,
    ) -> u32;

    /// Lists the links of a node of DAG-PB, and its data.
    pub fn kombilad_pb_tape(
        block: *const u8,
        len: usize,
        entries: *mut kombilad_entry,
        entries_len: usize,
        needed: *mut usize,
        offset: *mut usize,
    ) -> u32;

    /// Reads the header of a CAR that begins with these bytes.
    pub fn kombilad_car_open_part(
        bytes: *const u8,
        len: usize,
        is_all: u32,
        limit: usize,
        place: *mut kombilad_car_place,
        roots: *mut kombilad_cid,
        roots_len: usize,
        needed: *mut usize,
        more: *mut u64,
        offset: *mut u64,
    ) -> u32;
    /// Reads the section at a place of a CAR. The CAR's bytes from there on begin with these.
    pub fn kombilad_car_next_part(
        bytes: *const u8,
        len: usize,
        is_all: u32,
        limit: usize,
        place: *mut kombilad_car_place,
        cid: *mut kombilad_span,
        block: *mut kombilad_span,
        more: *mut u64,
        offset: *mut u64,
    ) -> u32;
    /// Writes the header of a CAR of version 1 with these roots.
    pub fn kombilad_car_header(
        roots: *const kombilad_cid,
        roots_len: usize,
        bytes: *mut u8,
        bytes_len: usize,
        needed: *mut usize,
        place: *mut usize,
    ) -> u32;
    /// Writes what a section of a CAR has before a block of `block_len` bytes.
    pub fn kombilad_car_section(
        cid: *const u8,
        cid_len: usize,
        block_len: u64,
        bytes: *mut u8,
        bytes_len: usize,
        needed: *mut usize,
    ) -> u32;
    /// Writes what a CAR of version 2 has around a payload of `payload_len` bytes: the first
    /// [`KOMBILAD_CAR_FRONT`] bytes, and an index of the blocks in `rows`.
    pub fn kombilad_car_index(
        rows: *const kombilad_car_row,
        rows_len: usize,
        payload_len: u64,
        bytes: *mut u8,
        bytes_len: usize,
        needed: *mut usize,
        place: *mut usize,
    ) -> u32;
    /// Compares the digest of a block with that of a CID.
    pub fn kombilad_verify(cid: *const u8, cid_len: usize, block: *const u8, len: usize) -> u32;

    /// Writes the CID of the block that the walk wants next.
    pub fn kombilad_walk_wanted(walk: *mut kombilad_walk, cid: *mut kombilad_cid) -> u32;
    /// Frees the walk, if there is one.
    pub fn kombilad_walk_free(walk: *mut kombilad_walk);

    /// Begins a walk over a range of the file of a CID, and frees the walk that `walk` had.
    pub fn kombilad_file_new(
        root: *const u8,
        root_len: usize,
        start: u64,
        length: u64,
        max_bytes: u64,
        max_blocks: u64,
        max_waiting: usize,
        max_levels: usize,
        walk: *mut kombilad_walk,
    ) -> u32;
    /// Takes the block that the walk wants, and writes the bytes of the file in it.
    pub fn kombilad_file_take(
        walk: *mut kombilad_walk,
        block: *const u8,
        len: usize,
        bytes: *mut u8,
        bytes_len: usize,
        needed: *mut usize,
        offset: *mut usize,
    ) -> u32;

    /// Begins a walk over the entries of the folder of a CID, and frees the walk that `walk` had.
    pub fn kombilad_folder_new(root: *const u8, root_len: usize, walk: *mut kombilad_walk) -> u32;
    /// Takes the block that the walk wants, and writes the entries in it.
    pub fn kombilad_folder_take(
        walk: *mut kombilad_walk,
        block: *const u8,
        len: usize,
        entries: *mut kombilad_folder_entry,
        entries_len: usize,
        names: *mut u8,
        names_len: usize,
        needed: *mut usize,
        place: *mut usize,
    ) -> u32;
    /// Looks for the entry with this name in the folder of a CID, in the blocks at these places of
    /// the bytes.
    pub fn kombilad_folder_lookup(
        folder: *const u8,
        folder_len: usize,
        name: *const u8,
        name_len: usize,
        bytes: *const u8,
        bytes_len: usize,
        blocks: *const kombilad_span,
        blocks_len: usize,
        cid: *mut kombilad_cid,
        place: *mut usize,
    ) -> u32;

    /// Verifies the block of a CID, and writes what it says of a file, a folder or a symbolic link.
    pub fn kombilad_unixfs_node(
        cid: *const u8,
        cid_len: usize,
        block: *const u8,
        len: usize,
        node: *mut kombilad_node,
        target: *mut u8,
        target_len: usize,
        needed: *mut usize,
        place: *mut usize,
    ) -> u32;
    /// Returns 1 if a symbolic link with this target leads to nothing outside of a folder, if it is
    /// in a folder `depth` levels below that one. Otherwise it returns 0.
    pub fn kombilad_symlink_stays_inside(target: *const u8, len: usize, depth: usize) -> u32;

    /// Begins a file, and frees what `packing` had.
    pub fn kombilad_pack_file(
        version: u32,
        raw_leaves: u32,
        links: usize,
        packing: *mut kombilad_packing,
    ) -> u32;
    /// Adds a chunk that isn't the last to the file.
    pub fn kombilad_pack_chunk(packing: *mut kombilad_packing, chunk: *const u8, len: usize)
        -> u32;
    /// Adds the last chunk of the file. The root has the mode and the time of the attributes.
    pub fn kombilad_pack_last_chunk(
        packing: *mut kombilad_packing,
        chunk: *const u8,
        len: usize,
        attributes: *const kombilad_node,
    ) -> u32;
    /// Packs a symbolic link with this target, and frees what `packing` had.
    pub fn kombilad_pack_symlink(
        version: u32,
        attributes: *const kombilad_node,
        target: *const u8,
        len: usize,
        packing: *mut kombilad_packing,
    ) -> u32;
    /// Packs a folder of these entries, and frees what `packing` had. The names are at their places
    /// in `names`, and ascend by their bytes.
    pub fn kombilad_pack_folder(
        version: u32,
        attributes: *const kombilad_node,
        sharded_above: u64,
        entries: *const kombilad_folder_entry,
        entries_len: usize,
        names: *const u8,
        names_len: usize,
        packing: *mut kombilad_packing,
        place: *mut usize,
    ) -> u32;
    /// Takes the next block that waits, and writes its row and its bytes.
    pub fn kombilad_pack_take(
        packing: *mut kombilad_packing,
        row: *mut kombilad_packed_block,
        bytes: *mut u8,
        bytes_len: usize,
        needed: *mut usize,
    ) -> u32;
    /// Frees what `packing` has.
    pub fn kombilad_pack_free(packing: *mut kombilad_packing);

    /// Returns the version: 65,536 times the major number, plus 256 times the minor, plus the
    /// patch.
    pub fn kombilad_version() -> u32;
}
