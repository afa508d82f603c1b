//! The errors of the calls.

use std::{error, fmt};

use kombilad_sys as sys;

use crate::ffi;

/// The leftmost error of bytes that are not a CID.
#[derive(Clone, Copy, Debug, PartialEq, Eq, Hash)]
#[non_exhaustive]
pub enum CidError {
    /// The bytes end before the CID does.
    End,
    /// A varint is not in its shortest form.
    NotShortest,
    /// A varint encodes a number of 2^64 or more.
    VarintTooLarge,
    /// The bytes begin with the version 0, as no CID does.
    ExplicitVersion0,
    /// The version is neither 0 nor 1.
    UnknownVersion,
    /// The digest is longer than 64 bytes.
    DigestTooLong,
    /// More bytes follow the CID.
    TrailingBytes,
}

/// The error of a text that is not that of a CID.
#[derive(Clone, Copy, Debug, PartialEq, Eq, Hash)]
#[non_exhaustive]
pub enum TextError {
    /// The text is empty, or doesn't begin with the prefix of a [`Base`](crate::Base).
    UnknownBase,
    /// No CID has a text of this length in its base.
    InvalidLength,
    /// The character at this byte of the text is not a letter of its base.
    InvalidLetter(usize),
    /// Bits after the last byte are set.
    UnusedBits,
    /// A CID of version 0 has no text with a prefix.
    WrongVersion,
    /// The text encodes bytes that are not a CID.
    Cid(CidError),
}

/// The leftmost error of bytes that are not a block of DAG-CBOR.
#[derive(Clone, Copy, Debug, PartialEq, Eq, Hash)]
#[non_exhaustive]
pub enum BlockError {
    /// The bytes end before the item does.
    End,
    /// An argument is not in its shortest form.
    NotShortest,
    /// A float of other than 64 bits, NaN or an infinity.
    Float,
    /// A simple value, a tag or an indefinite length that DAG-CBOR doesn't allow.
    Unsupported,
    /// A text string is not UTF-8.
    Utf8,
    /// The key of a map is not a text string.
    KeyNotText,
    /// A map has the same key twice.
    DuplicateKey,
    /// The tag of a link isn't followed by a byte string that begins with a zero byte.
    LinkBytes,
    /// The bytes of a link are not a CID.
    Cid(CidError),
    /// More bytes follow the item.
    TrailingBytes,
}

/// The leftmost error of bytes that are not a CAR.
#[derive(Clone, Copy, Debug, PartialEq, Eq, Hash)]
#[non_exhaustive]
pub enum CarError {
    /// The bytes, or the payload of version 2, end before a header or a section does.
    UnexpectedEnd,
    /// The length of a header or a section is not in its shortest form.
    LengthNotShortest,
    /// The length of a header or a section is 2^64 or more.
    LengthTooLarge,
    /// A header or a section has the length zero.
    Empty,
    /// A header or a section is longer than the limit.
    TooLong,
    /// The header is a block, but not a map of roots and of the version 1.
    NotAHeader,
    /// The header of version 2 places the payload before its own end, or the payload's end at 2^64
    /// or more.
    Payload,
    /// The bytes end before the payload of version 2 does.
    ShortPayload,
    /// A section doesn't begin with a CID.
    Cid(CidError),
}

/// The leftmost error of bytes that are not a node of DAG-PB.
#[derive(Clone, Copy, Debug, PartialEq, Eq, Hash)]
#[non_exhaustive]
pub enum PbError {
    /// The bytes of the block or of a link end before the field does.
    End,
    /// A varint encodes a number of 2^64 or more, or has more than ten bytes.
    VarintTooLarge,
    /// DAG-PB doesn't allow the number and wire type of a field there.
    UnknownField,
    /// A field comes twice or out of order, or links come both before and after the data.
    FieldOrder,
    /// A link doesn't begin with its hash.
    NoHash,
    /// The hash of a link is not a CID.
    Cid(CidError),
    /// The name of a link isn't UTF-8.
    Utf8,
}

/// The leftmost error of the data of a node that are not a message of UnixFS.
#[derive(Clone, Copy, Debug, PartialEq, Eq, Hash)]
#[non_exhaustive]
pub enum UnixfsError {
    /// The data end within a field.
    End,
    /// A varint encodes a number of 2^64 or more, or has more than ten bytes.
    VarintTooLarge,
    /// The number and wire type of a field are not allowed there.
    UnknownField,
    /// A field comes twice or out of order.
    FieldOrder,
    /// The data do not begin with a type.
    NoType,
    /// No type has this number.
    UnknownType,
    /// The mode has more than 32 bits.
    ModeTooLarge,
    /// The time does not begin with its seconds.
    NoSeconds,
    /// The nanoseconds of the time are not from 1 to 999,999,999.
    Nanoseconds,
}

/// The first reason why a block is not a part of a file.
#[derive(Clone, Copy, Debug, PartialEq, Eq, Hash)]
#[non_exhaustive]
pub enum FileError {
    /// The codec of the CID is neither [`RAW`](crate::RAW) nor [`DAG_PB`](crate::DAG_PB).
    Codec,
    /// The node has no data. Blocks of folders and symbolic links have this error too.
    NoData,
    /// The node is a folder, a symbolic link or metadata.
    NotFile,
    /// The number of sizes in the node is not that of its links.
    SizeCount,
    /// The size of the file in the node is not that of its bytes and its links.
    Size,
    /// The node has another number of bytes of the file than the node above it states.
    PartSize,
    /// The file has more bytes than the limit.
    TooLarge,
    /// The file has more blocks than the limit.
    TooManyBlocks,
    /// The blocks of the file nest deeper than the limit.
    TooDeep,
    /// More blocks of the file wait to be read than the limit.
    TooManyParts,
}

/// The first reason why a block is not a folder, or a part of one. The number is that of the link
/// at fault, counted from 0.
#[derive(Clone, Copy, Debug, PartialEq, Eq, Hash)]
#[non_exhaustive]
pub enum FolderError {
    /// The codec of the CID is not [`DAG_PB`](crate::DAG_PB).
    Codec,
    /// The node is not a folder.
    NotFolder,
    /// The hash function of a shard is not murmur3-x64-64.
    HashFunction,
    /// A shard doesn't have 256 slots.
    Fanout,
    /// The name of an entry is missing, empty, `.` or `..`, or has a `/` or a zero byte.
    InvalidName(usize),
    /// A name in a plain folder is not greater than the one before it.
    NameOrder(usize),
    /// The name of a link in a shard doesn't begin with two upper-case hexadecimal digits.
    InvalidSlot(usize),
    /// A slot of a shard is not greater than the one before it.
    SlotOrder(usize),
    /// The bit field of a shard is not that of its slots.
    BitField,
    /// A shard leads to a plain folder as if it were a shard.
    NotShard,
    /// The hash of a name in a shard doesn't lead there.
    WrongSlot(usize),
    /// A shard at the eighth level leads to another one.
    TooDeep,
}

/// The error of a text that is not DAG-JSON, at its first invalid token.
#[derive(Clone, Copy, Debug, PartialEq, Eq, Hash)]
#[non_exhaustive]
pub enum JsonError {
    /// The text is not UTF-8.
    Utf8,
    /// The text is not JSON, or continues after its value.
    Syntax,
    /// The text ends before its value does.
    End,
    /// A number with a fraction or an exponent is beyond the greatest float of 64 bits.
    Float,
    /// An integer is below -2^64 or above 2^64 - 1.
    IntegerRange,
    /// An object has the same key twice.
    DuplicateKey,
    /// The text of a link is not that of a CID: base58btc for version 0, and base32 after a `b` for
    /// version 1.
    Link,
    /// The text of bytes is not base64 without padding.
    Bytes,
    /// An object has the key `/` as links and bytes do, and is neither.
    Reserved,
}

/// The reason why a path leads to nothing in a block.
#[derive(Clone, Copy, Debug, PartialEq, Eq, Hash)]
#[non_exhaustive]
pub enum PathError {
    /// The segment is not a key of the map, or not an index of the list.
    Missing,
    /// The path continues after a value that is not a list, a map or a link.
    NotAContainer,
}

/// An error of a call that reads, converts or verifies bytes or text.
#[derive(Clone, Copy, Debug, PartialEq, Eq, Hash)]
#[non_exhaustive]
pub enum Error {
    /// An allocation failed.
    OutOfMemory,
    /// A CID of version 0 has a text only in base58btc.
    V0Base,
    /// Lists and maps nest deeper than the limit.
    TooDeep {
        /// The byte at which the first list or map that is too deep begins.
        offset: usize,
    },
    /// There are more values than the limit.
    TooMany {
        /// The byte at which the first value over the limit begins.
        offset: usize,
    },
    /// A string, a byte string or a key of the block has 2^32 bytes or more, or a list or a map
    /// spans 2^32 entries of a tape or more.
    TooLong,
    /// The bytes are not a CID.
    Cid(CidError),
    /// The text is not that of a CID.
    Text(TextError),
    /// The bytes are not a block.
    Block {
        /// The error.
        error: BlockError,
        /// The first byte of the item, the key, the byte string of a link or the trailing bytes at
        /// fault.
        offset: usize,
    },
    /// A path leads to nothing in a block.
    Path {
        /// The error.
        error: PathError,
        /// The number of the segment that leads to nothing, counted from 1.
        segment: usize,
    },
    /// The bytes are not a CAR.
    Car {
        /// The error.
        error: CarError,
        /// The byte at fault.
        offset: usize,
    },
    /// The bytes are not a node of DAG-PB.
    Pb {
        /// The error.
        error: PbError,
        /// The first byte of the invalid field.
        offset: usize,
    },
    /// The data of a node of DAG-PB are not a message of UnixFS.
    Unixfs {
        /// The error.
        error: UnixfsError,
        /// The byte of the data at which the invalid field begins.
        offset: usize,
    },
    /// The block is not a part of a file, or the file exceeds a limit.
    File(FileError),
    /// The block is not a folder, or a part of one.
    Folder(FolderError),
    /// The text is not DAG-JSON.
    Json {
        /// The error.
        error: JsonError,
        /// The byte of the text at which the token at fault begins, or its length if it ends too
        /// early.
        offset: usize,
    },
    /// A map of a block has no DAG-JSON: its text would be read as a link or as bytes.
    ReservedMap {
        /// The byte of the block at which the map begins.
        offset: usize,
    },
    /// The hash function of the CID is not SHA2-256, SHA2-512, BLAKE2b-256 or identity, so a block
    /// can't be verified.
    UnknownHash,
    /// The block has another digest than the CID.
    WrongDigest,
    /// A status that this version doesn't know.
    Other(u32),
}

/// The error of a value that has no block.
#[derive(Clone, Debug, PartialEq, Eq)]
#[non_exhaustive]
pub enum EncodeError {
    /// An allocation failed.
    OutOfMemory,
    /// Lists and maps nest deeper than the limit.
    TooDeep,
    /// An integer is below -2^64, or 2^64 or more.
    Integer,
    /// NaN or an infinity.
    Float,
    /// The key of a map is not a string.
    KeyNotText,
    /// A map has the same key twice.
    DuplicateKey,
    /// The bytes of a link are not a CID.
    Cid(CidError),
    /// A string, a key or bytes have 2^32 bytes or more, or a list or a map spans 2^32 entries of a
    /// tape or more.
    TooLong,
    /// The error message of a serde type.
    Message(String),
    /// A status that this version doesn't know.
    Other(u32),
}

/// The error of a block that can't be decoded to a type.
#[cfg(feature = "serde")]
#[derive(Clone, Debug, PartialEq, Eq)]
#[non_exhaustive]
pub enum DecodeError {
    /// The bytes are not a block, or exceed a limit.
    Block(Error),
    /// The type rejects the value of the block, with this message.
    Message(String),
}

fn cid_error(status: u32) -> Option<CidError> {
    Some(match status {
        sys::KOMBILAD_CID_END => CidError::End,
        sys::KOMBILAD_CID_NOT_SHORTEST => CidError::NotShortest,
        sys::KOMBILAD_CID_VARINT_TOO_LARGE => CidError::VarintTooLarge,
        sys::KOMBILAD_CID_EXPLICIT_VERSION_0 => CidError::ExplicitVersion0,
        sys::KOMBILAD_CID_UNKNOWN_VERSION => CidError::UnknownVersion,
        sys::KOMBILAD_CID_DIGEST_TOO_LONG => CidError::DigestTooLong,
        sys::KOMBILAD_CID_TRAILING_BYTES => CidError::TrailingBytes,
        _ => return None,
    })
}

/// Returns the error of the bytes of a link.
fn link_error(status: u32) -> Option<CidError> {
    Some(match status {
        sys::KOMBILAD_LINK_END => CidError::End,
        sys::KOMBILAD_LINK_NOT_SHORTEST => CidError::NotShortest,
        sys::KOMBILAD_LINK_VARINT_TOO_LARGE => CidError::VarintTooLarge,
        sys::KOMBILAD_LINK_EXPLICIT_VERSION_0 => CidError::ExplicitVersion0,
        sys::KOMBILAD_LINK_UNKNOWN_VERSION => CidError::UnknownVersion,
        sys::KOMBILAD_LINK_DIGEST_TOO_LONG => CidError::DigestTooLong,
        sys::KOMBILAD_LINK_TRAILING_BYTES => CidError::TrailingBytes,
        _ => return None,
    })
}

fn file_error(status: u32) -> Option<FileError> {
    Some(match status {
        sys::KOMBILAD_FILE_CODEC => FileError::Codec,
        sys::KOMBILAD_FILE_NO_DATA => FileError::NoData,
        sys::KOMBILAD_FILE_NOT_FILE => FileError::NotFile,
        sys::KOMBILAD_FILE_SIZE_COUNT => FileError::SizeCount,
        sys::KOMBILAD_FILE_SIZE => FileError::Size,
        sys::KOMBILAD_FILE_PART_SIZE => FileError::PartSize,
        sys::KOMBILAD_FILE_TOO_LARGE => FileError::TooLarge,
        sys::KOMBILAD_FILE_TOO_MANY_BLOCKS => FileError::TooManyBlocks,
        sys::KOMBILAD_FILE_TOO_DEEP => FileError::TooDeep,
        sys::KOMBILAD_FILE_TOO_MANY_PARTS => FileError::TooManyParts,
        _ => return None,
    })
}

fn folder_error(status: u32, link: usize) -> Option<FolderError> {
    Some(match status {
        sys::KOMBILAD_FOLDER_CODEC => FolderError::Codec,
        sys::KOMBILAD_FOLDER_NOT_FOLDER => FolderError::NotFolder,
        sys::KOMBILAD_FOLDER_HASH_FUNCTION => FolderError::HashFunction,
        sys::KOMBILAD_FOLDER_FANOUT => FolderError::Fanout,
        sys::KOMBILAD_FOLDER_INVALID_NAME => FolderError::InvalidName(link),
        sys::KOMBILAD_FOLDER_NAME_ORDER => FolderError::NameOrder(link),
        sys::KOMBILAD_FOLDER_INVALID_SLOT => FolderError::InvalidSlot(link),
        sys::KOMBILAD_FOLDER_SLOT_ORDER => FolderError::SlotOrder(link),
        sys::KOMBILAD_FOLDER_BIT_FIELD => FolderError::BitField,
        sys::KOMBILAD_FOLDER_NOT_SHARD => FolderError::NotShard,
        sys::KOMBILAD_FOLDER_WRONG_SLOT => FolderError::WrongSlot(link),
        sys::KOMBILAD_FOLDER_TOO_DEEP => FolderError::TooDeep,
        _ => return None,
    })
}

impl Error {
    /// Returns the error of a call that reads bytes. Here and below the status isn't `KOMBILAD_OK`.
    pub(crate) fn of_bytes(status: u32) -> Self {
        match status {
            sys::KOMBILAD_NO_MEMORY => Error::OutOfMemory,
            sys::KOMBILAD_V0_BASE => Error::V0Base,
            _ => cid_error(status).map_or(Error::Other(status), Error::Cid),
        }
    }

    /// Returns the error of a call that reads a text. `place` is used only for an invalid letter.
    pub(crate) fn of_text(status: u32, place: usize) -> Self {
        Error::Text(match status {
            sys::KOMBILAD_TEXT_UNKNOWN_BASE => TextError::UnknownBase,
            sys::KOMBILAD_TEXT_INVALID_LENGTH => TextError::InvalidLength,
            sys::KOMBILAD_TEXT_INVALID_LETTER => TextError::InvalidLetter(place),
            sys::KOMBILAD_TEXT_UNUSED_BITS => TextError::UnusedBits,
            sys::KOMBILAD_TEXT_WRONG_VERSION => TextError::WrongVersion,
            _ => match cid_error(status) {
                Some(error) => TextError::Cid(error),
                None => return Error::Other(status),
            },
        })
    }

    /// Returns the error of a call that reads a CAR.
    pub(crate) fn of_car((status, offset): (u32, usize)) -> Self {
        let error = match status {
            sys::KOMBILAD_CAR_UNEXPECTED_END => CarError::UnexpectedEnd,
            sys::KOMBILAD_CAR_LENGTH_NOT_SHORTEST => CarError::LengthNotShortest,
            sys::KOMBILAD_CAR_LENGTH_TOO_LARGE => CarError::LengthTooLarge,
            sys::KOMBILAD_CAR_EMPTY => CarError::Empty,
            sys::KOMBILAD_CAR_TOO_LONG => CarError::TooLong,
            sys::KOMBILAD_CAR_NOT_A_HEADER => CarError::NotAHeader,
            sys::KOMBILAD_CAR_PAYLOAD => CarError::Payload,
            sys::KOMBILAD_CAR_SHORT_PAYLOAD => CarError::ShortPayload,
            _ => match cid_error(status) {
                Some(error) => CarError::Cid(error),
                None => return Error::of_block((status, offset)),
            },
        };
        Error::Car { error, offset }
    }

    /// Returns the error of a call that reads a node of DAG-PB.
    pub(crate) fn of_pb((status, offset): (u32, usize)) -> Self {
        let error = match status {
            sys::KOMBILAD_NO_MEMORY => return Error::OutOfMemory,
            sys::KOMBILAD_TOO_LONG => return Error::TooLong,
            sys::KOMBILAD_PB_END => PbError::End,
            sys::KOMBILAD_PB_VARINT_TOO_LARGE => PbError::VarintTooLarge,
            sys::KOMBILAD_PB_UNKNOWN_FIELD => PbError::UnknownField,
            sys::KOMBILAD_PB_FIELD_ORDER => PbError::FieldOrder,
            sys::KOMBILAD_PB_NO_HASH => PbError::NoHash,
            sys::KOMBILAD_PB_UTF8 => PbError::Utf8,
            _ => match link_error(status) {
                Some(error) => PbError::Cid(error),
                None => return Error::Other(status),
            },
        };
        Error::Pb { error, offset }
    }

    /// Returns the error of a call that reads a block of a file or a folder. `place` is the byte or
    /// the link at fault.
    pub(crate) fn of_unixfs((status, place): (u32, usize)) -> Self {
        let error = match status {
            sys::KOMBILAD_UNIXFS_END => UnixfsError::End,
            sys::KOMBILAD_UNIXFS_VARINT_TOO_LARGE => UnixfsError::VarintTooLarge,
            sys::KOMBILAD_UNIXFS_UNKNOWN_FIELD => UnixfsError::UnknownField,
            sys::KOMBILAD_UNIXFS_FIELD_ORDER => UnixfsError::FieldOrder,
            sys::KOMBILAD_UNIXFS_NO_TYPE => UnixfsError::NoType,
            sys::KOMBILAD_UNIXFS_UNKNOWN_TYPE => UnixfsError::UnknownType,
            sys::KOMBILAD_UNIXFS_MODE_TOO_LARGE => UnixfsError::ModeTooLarge,
            sys::KOMBILAD_UNIXFS_NO_SECONDS => UnixfsError::NoSeconds,
            sys::KOMBILAD_UNIXFS_NANOSECONDS => UnixfsError::Nanoseconds,
            sys::KOMBILAD_UNKNOWN_HASH | sys::KOMBILAD_WRONG_DIGEST => {
                return Error::of_digest(status)
            }
            _ => match (file_error(status), folder_error(status, place)) {
                (Some(error), _) => return Error::File(error),
                (_, Some(error)) => return Error::Folder(error),
                _ => return Error::of_pb((status, place)),
            },
        };
        Error::Unixfs { error, offset: place }
    }

    /// Returns the error of a call that compares digests.
    pub(crate) fn of_digest(status: u32) -> Self {
        match status {
            sys::KOMBILAD_UNKNOWN_HASH => Error::UnknownHash,
            sys::KOMBILAD_WRONG_DIGEST => Error::WrongDigest,
            status => Error::of_bytes(status),
        }
    }

    /// Returns the error of a call that reads a text in DAG-JSON.
    pub(crate) fn of_json((status, offset): (u32, usize)) -> Self {
        let error = match status {
            sys::KOMBILAD_JSON_UTF8 => JsonError::Utf8,
            sys::KOMBILAD_JSON_SYNTAX => JsonError::Syntax,
            sys::KOMBILAD_JSON_END => JsonError::End,
            sys::KOMBILAD_JSON_FLOAT => JsonError::Float,
            sys::KOMBILAD_JSON_INTEGER_RANGE => JsonError::IntegerRange,
            sys::KOMBILAD_JSON_DUPLICATE_KEY => JsonError::DuplicateKey,
            sys::KOMBILAD_JSON_LINK => JsonError::Link,
            sys::KOMBILAD_JSON_BYTES => JsonError::Bytes,
            sys::KOMBILAD_JSON_RESERVED => JsonError::Reserved,
            _ => return Error::of_block((status, offset)),
        };
        Error::Json { error, offset }
    }

    /// Returns the error of a call that finds the value at a path. `place` is the byte of the block,
    /// or the number of the segment.
    pub(crate) fn of_path((status, place): (u32, usize)) -> Self {
        let error = match status {
            sys::KOMBILAD_PATH_MISSING => PathError::Missing,
            sys::KOMBILAD_PATH_NOT_A_CONTAINER => PathError::NotAContainer,
            _ => return Error::of_block((status, place)),
        };
        Error::Path { error, segment: place }
    }

    /// Returns the error of a call that reads a block.
    pub(crate) fn of_block((status, offset): (u32, usize)) -> Self {
        let error = match status {
            sys::KOMBILAD_JSON_RESERVED_MAP => return Error::ReservedMap { offset },
            sys::KOMBILAD_NO_MEMORY => return Error::OutOfMemory,
            sys::KOMBILAD_TOO_DEEP => return Error::TooDeep { offset },
            sys::KOMBILAD_TOO_MANY => return Error::TooMany { offset },
            sys::KOMBILAD_TOO_LONG => return Error::TooLong,
            sys::KOMBILAD_BLOCK_END => BlockError::End,
            sys::KOMBILAD_BLOCK_NOT_SHORTEST => BlockError::NotShortest,
            sys::KOMBILAD_BLOCK_FLOAT => BlockError::Float,
            sys::KOMBILAD_BLOCK_UNSUPPORTED => BlockError::Unsupported,
            sys::KOMBILAD_BLOCK_UTF8 => BlockError::Utf8,
            sys::KOMBILAD_BLOCK_KEY_NOT_TEXT => BlockError::KeyNotText,
            sys::KOMBILAD_BLOCK_DUPLICATE_KEY => BlockError::DuplicateKey,
            sys::KOMBILAD_BLOCK_LINK_BYTES => BlockError::LinkBytes,
            sys::KOMBILAD_BLOCK_TRAILING_BYTES => BlockError::TrailingBytes,
            _ => match link_error(status) {
                Some(error) => BlockError::Cid(error),
                None => return Error::Other(status),
            },
        };
        Error::Block { error, offset }
    }
}

impl EncodeError {
    /// Returns the error of the call that encodes a tape. The status isn't `KOMBILAD_OK`. An error
    /// that no tape of this crate has, such as a missing entry, is `Other`.
    pub(crate) fn of_tape(status: u32) -> Self {
        match status {
            sys::KOMBILAD_NO_MEMORY => EncodeError::OutOfMemory,
            sys::KOMBILAD_TAPE_FLOAT => EncodeError::Float,
            sys::KOMBILAD_TAPE_DUPLICATE_KEY => EncodeError::DuplicateKey,
            _ => link_error(status).map_or(EncodeError::Other(status), EncodeError::Cid),
        }
    }
}

/// Writes the library's sentence of a status.
pub(crate) fn write_status(f: &mut fmt::Formatter<'_>, status: u32) -> fmt::Result {
    f.write_str(ffi::status_text(status, &mut [0; 80]))
}

impl CidError {
    fn status(self) -> u32 {
        match self {
            CidError::End => sys::KOMBILAD_CID_END,
            CidError::NotShortest => sys::KOMBILAD_CID_NOT_SHORTEST,
            CidError::VarintTooLarge => sys::KOMBILAD_CID_VARINT_TOO_LARGE,
            CidError::ExplicitVersion0 => sys::KOMBILAD_CID_EXPLICIT_VERSION_0,
            CidError::UnknownVersion => sys::KOMBILAD_CID_UNKNOWN_VERSION,
            CidError::DigestTooLong => sys::KOMBILAD_CID_DIGEST_TOO_LONG,
            CidError::TrailingBytes => sys::KOMBILAD_CID_TRAILING_BYTES,
        }
    }

    /// Returns the status of the same error in the bytes of a link.
    fn link_status(self) -> u32 {
        self.status() - sys::KOMBILAD_CID_END + sys::KOMBILAD_LINK_END
    }
}

impl fmt::Display for CidError {
    fn fmt(&self, f: &mut fmt::Formatter<'_>) -> fmt::Result {
        write_status(f, self.status())
    }
}

impl fmt::Display for TextError {
    fn fmt(&self, f: &mut fmt::Formatter<'_>) -> fmt::Result {
        let status = match *self {
            TextError::UnknownBase => sys::KOMBILAD_TEXT_UNKNOWN_BASE,
            TextError::InvalidLength => sys::KOMBILAD_TEXT_INVALID_LENGTH,
            TextError::InvalidLetter(place) => {
                write_status(f, sys::KOMBILAD_TEXT_INVALID_LETTER)?;
                return write!(f, ", at byte {place}");
            }
            TextError::UnusedBits => sys::KOMBILAD_TEXT_UNUSED_BITS,
            TextError::WrongVersion => sys::KOMBILAD_TEXT_WRONG_VERSION,
            TextError::Cid(error) => error.status(),
        };
        write_status(f, status)
    }
}

impl fmt::Display for BlockError {
    fn fmt(&self, f: &mut fmt::Formatter<'_>) -> fmt::Result {
        let status = match *self {
            BlockError::End => sys::KOMBILAD_BLOCK_END,
            BlockError::NotShortest => sys::KOMBILAD_BLOCK_NOT_SHORTEST,
            BlockError::Float => sys::KOMBILAD_BLOCK_FLOAT,
            BlockError::Unsupported => sys::KOMBILAD_BLOCK_UNSUPPORTED,
            BlockError::Utf8 => sys::KOMBILAD_BLOCK_UTF8,
            BlockError::KeyNotText => sys::KOMBILAD_BLOCK_KEY_NOT_TEXT,
            BlockError::DuplicateKey => sys::KOMBILAD_BLOCK_DUPLICATE_KEY,
            BlockError::LinkBytes => sys::KOMBILAD_BLOCK_LINK_BYTES,
            BlockError::Cid(error) => error.link_status(),
            BlockError::TrailingBytes => sys::KOMBILAD_BLOCK_TRAILING_BYTES,
        };
        write_status(f, status)
    }
}

impl fmt::Display for PathError {
    fn fmt(&self, f: &mut fmt::Formatter<'_>) -> fmt::Result {
        let status = match *self {
            PathError::Missing => sys::KOMBILAD_PATH_MISSING,
            PathError::NotAContainer => sys::KOMBILAD_PATH_NOT_A_CONTAINER,
        };
        write_status(f, status)
    }
}

impl fmt::Display for CarError {
    fn fmt(&self, f: &mut fmt::Formatter<'_>) -> fmt::Result {
        let status = match *self {
            CarError::UnexpectedEnd => sys::KOMBILAD_CAR_UNEXPECTED_END,
            CarError::LengthNotShortest => sys::KOMBILAD_CAR_LENGTH_NOT_SHORTEST,
            CarError::LengthTooLarge => sys::KOMBILAD_CAR_LENGTH_TOO_LARGE,
            CarError::Empty => sys::KOMBILAD_CAR_EMPTY,
            CarError::TooLong => sys::KOMBILAD_CAR_TOO_LONG,
            CarError::NotAHeader => sys::KOMBILAD_CAR_NOT_A_HEADER,
            CarError::Payload => sys::KOMBILAD_CAR_PAYLOAD,
            CarError::ShortPayload => sys::KOMBILAD_CAR_SHORT_PAYLOAD,
            CarError::Cid(error) => error.status(),
        };
        write_status(f, status)
    }
}

impl fmt::Display for PbError {
    fn fmt(&self, f: &mut fmt::Formatter<'_>) -> fmt::Result {
        let status = match *self {
            PbError::End => sys::KOMBILAD_PB_END,
            PbError::VarintTooLarge => sys::KOMBILAD_PB_VARINT_TOO_LARGE,
            PbError::UnknownField => sys::KOMBILAD_PB_UNKNOWN_FIELD,
            PbError::FieldOrder => sys::KOMBILAD_PB_FIELD_ORDER,
            PbError::NoHash => sys::KOMBILAD_PB_NO_HASH,
            PbError::Cid(error) => error.link_status(),
            PbError::Utf8 => sys::KOMBILAD_PB_UTF8,
        };
        write_status(f, status)
    }
}

impl fmt::Display for UnixfsError {
    fn fmt(&self, f: &mut fmt::Formatter<'_>) -> fmt::Result {
        let status = match *self {
            UnixfsError::End => sys::KOMBILAD_UNIXFS_END,
            UnixfsError::VarintTooLarge => sys::KOMBILAD_UNIXFS_VARINT_TOO_LARGE,
            UnixfsError::UnknownField => sys::KOMBILAD_UNIXFS_UNKNOWN_FIELD,
            UnixfsError::FieldOrder => sys::KOMBILAD_UNIXFS_FIELD_ORDER,
            UnixfsError::NoType => sys::KOMBILAD_UNIXFS_NO_TYPE,
            UnixfsError::UnknownType => sys::KOMBILAD_UNIXFS_UNKNOWN_TYPE,
            UnixfsError::ModeTooLarge => sys::KOMBILAD_UNIXFS_MODE_TOO_LARGE,
            UnixfsError::NoSeconds => sys::KOMBILAD_UNIXFS_NO_SECONDS,
            UnixfsError::Nanoseconds => sys::KOMBILAD_UNIXFS_NANOSECONDS,
        };
        write_status(f, status)
    }
}

impl fmt::Display for FileError {
    fn fmt(&self, f: &mut fmt::Formatter<'_>) -> fmt::Result {
        let status = match *self {
            FileError::Codec => sys::KOMBILAD_FILE_CODEC,
            FileError::NoData => sys::KOMBILAD_FILE_NO_DATA,
            FileError::NotFile => sys::KOMBILAD_FILE_NOT_FILE,
            FileError::SizeCount => sys::KOMBILAD_FILE_SIZE_COUNT,
            FileError::Size => sys::KOMBILAD_FILE_SIZE,
            FileError::PartSize => sys::KOMBILAD_FILE_PART_SIZE,
            FileError::TooLarge => sys::KOMBILAD_FILE_TOO_LARGE,
            FileError::TooManyBlocks => sys::KOMBILAD_FILE_TOO_MANY_BLOCKS,
            FileError::TooDeep => sys::KOMBILAD_FILE_TOO_DEEP,
            FileError::TooManyParts => sys::KOMBILAD_FILE_TOO_MANY_PARTS,
        };
        write_status(f, status)
    }
}

impl fmt::Display for FolderError {
    fn fmt(&self, f: &mut fmt::Formatter<'_>) -> fmt::Result {
        let (status, link) = match *self {
            FolderError::Codec => (sys::KOMBILAD_FOLDER_CODEC, None),
            FolderError::NotFolder => (sys::KOMBILAD_FOLDER_NOT_FOLDER, None),
            FolderError::HashFunction => (sys::KOMBILAD_FOLDER_HASH_FUNCTION, None),
            FolderError::Fanout => (sys::KOMBILAD_FOLDER_FANOUT, None),
            FolderError::InvalidName(link) => (sys::KOMBILAD_FOLDER_INVALID_NAME, Some(link)),
            FolderError::NameOrder(link) => (sys::KOMBILAD_FOLDER_NAME_ORDER, Some(link)),
            FolderError::InvalidSlot(link) => (sys::KOMBILAD_FOLDER_INVALID_SLOT, Some(link)),
            FolderError::SlotOrder(link) => (sys::KOMBILAD_FOLDER_SLOT_ORDER, Some(link)),
            FolderError::BitField => (sys::KOMBILAD_FOLDER_BIT_FIELD, None),
            FolderError::NotShard => (sys::KOMBILAD_FOLDER_NOT_SHARD, None),
            FolderError::WrongSlot(link) => (sys::KOMBILAD_FOLDER_WRONG_SLOT, Some(link)),
            FolderError::TooDeep => (sys::KOMBILAD_FOLDER_TOO_DEEP, None),
        };
        write_status(f, status)?;
        link.map_or(Ok(()), |link| write!(f, ", at link {link}"))
    }
}

impl fmt::Display for JsonError {
    fn fmt(&self, f: &mut fmt::Formatter<'_>) -> fmt::Result {
        let status = match *self {
            JsonError::Utf8 => sys::KOMBILAD_JSON_UTF8,
            JsonError::Syntax => sys::KOMBILAD_JSON_SYNTAX,
            JsonError::End => sys::KOMBILAD_JSON_END,
            JsonError::Float => sys::KOMBILAD_JSON_FLOAT,
            JsonError::IntegerRange => sys::KOMBILAD_JSON_INTEGER_RANGE,
            JsonError::DuplicateKey => sys::KOMBILAD_JSON_DUPLICATE_KEY,
            JsonError::Link => sys::KOMBILAD_JSON_LINK,
            JsonError::Bytes => sys::KOMBILAD_JSON_BYTES,
            JsonError::Reserved => sys::KOMBILAD_JSON_RESERVED,
        };
        write_status(f, status)
    }
}

impl fmt::Display for Error {
    fn fmt(&self, f: &mut fmt::Formatter<'_>) -> fmt::Result {
        let (status, offset) = match *self {
            Error::OutOfMemory => (sys::KOMBILAD_NO_MEMORY, None),
            Error::V0Base => (sys::KOMBILAD_V0_BASE, None),
            Error::TooDeep { offset } => (sys::KOMBILAD_TOO_DEEP, Some(offset)),
            Error::TooMany { offset } => (sys::KOMBILAD_TOO_MANY, Some(offset)),
            Error::TooLong => (sys::KOMBILAD_TOO_LONG, None),
            Error::Cid(error) => return error.fmt(f),
            Error::Text(error) => return error.fmt(f),
            Error::Block { error, offset } => return write!(f, "{error}, at byte {offset}"),
            Error::Path { error, segment } => return write!(f, "{error}, at segment {segment}"),
            Error::Car { error, offset } => return write!(f, "{error}, at byte {offset}"),
            Error::Pb { error, offset } => return write!(f, "{error}, at byte {offset}"),
            Error::Unixfs { error, offset } => {
                return write!(f, "{error}, at byte {offset} of the data")
            }
            Error::File(error) => return error.fmt(f),
            Error::Folder(error) => return error.fmt(f),
            Error::Json { error, offset } => return write!(f, "{error}, at byte {offset}"),
            Error::ReservedMap { offset } => (sys::KOMBILAD_JSON_RESERVED_MAP, Some(offset)),
            Error::UnknownHash => (sys::KOMBILAD_UNKNOWN_HASH, None),
            Error::WrongDigest => (sys::KOMBILAD_WRONG_DIGEST, None),
            Error::Other(status) => return write!(f, "the status {status} of libkombilad"),
        };
        write_status(f, status)?;
        offset.map_or(Ok(()), |offset| write!(f, ", at byte {offset}"))
    }
}

impl fmt::Display for EncodeError {
    fn fmt(&self, f: &mut fmt::Formatter<'_>) -> fmt::Result {
        let status = match self {
            EncodeError::OutOfMemory => sys::KOMBILAD_NO_MEMORY,
            EncodeError::TooDeep => sys::KOMBILAD_TOO_DEEP,
            EncodeError::Integer => {
                return f.write_str("an integer must be from -2^64 to 2^64 - 1")
            }
            EncodeError::Float => sys::KOMBILAD_TAPE_FLOAT,
            EncodeError::KeyNotText => sys::KOMBILAD_BLOCK_KEY_NOT_TEXT,
            EncodeError::DuplicateKey => sys::KOMBILAD_TAPE_DUPLICATE_KEY,
            EncodeError::Cid(error) => error.link_status(),
            EncodeError::TooLong => sys::KOMBILAD_TOO_LONG,
            EncodeError::Message(message) => return f.write_str(message),
            EncodeError::Other(status) => return write!(f, "the status {status} of libkombilad"),
        };
        write_status(f, status)
    }
}

#[cfg(feature = "serde")]
impl fmt::Display for DecodeError {
    fn fmt(&self, f: &mut fmt::Formatter<'_>) -> fmt::Result {
        match self {
            DecodeError::Block(error) => error.fmt(f),
            DecodeError::Message(message) => f.write_str(message),
        }
    }
}

#[cfg(feature = "serde")]
impl error::Error for DecodeError {}
impl error::Error for EncodeError {}
impl error::Error for CarError {}
impl error::Error for CidError {}
impl error::Error for TextError {}
impl error::Error for BlockError {}
impl error::Error for PbError {}
impl error::Error for UnixfsError {}
impl error::Error for FileError {}
impl error::Error for FolderError {}
impl error::Error for JsonError {}
impl error::Error for Error {}
