package kombilad

// #include "kombilad.h"
import "C"

// Status is the reason of an [Error]. It is an error too, so errors.Is(err, kombilad.ErrTooDeep)
// reports whether an error has this reason.
type Status uint32

// The reasons that concern more than one kind of input.
const (
	ErrNoMemory     Status = C.KOMBILAD_NO_MEMORY     // an allocation in C failed
	ErrNotCanonical Status = C.KOMBILAD_NOT_CANONICAL // the keys of a map are out of order
	ErrUnknownBase  Status = C.KOMBILAD_UNKNOWN_BASE  // a Base is not one of the constants
	ErrV0Base       Status = C.KOMBILAD_V0_BASE       // a CIDv0 has no text in this base
	ErrTooDeep      Status = C.KOMBILAD_TOO_DEEP      // lists and maps nest too deeply
	ErrTooMany      Status = C.KOMBILAD_TOO_MANY      // there are too many values
	ErrTooLong      Status = C.KOMBILAD_TOO_LONG      // a value has 2^32 bytes or parts, or more
	ErrUnknownHash  Status = C.KOMBILAD_UNKNOWN_HASH  // Verify doesn't know the hash function
	ErrWrongDigest  Status = C.KOMBILAD_WRONG_DIGEST  // the block has another digest
)

// The bytes, or those in a section of a CAR, are not a CID.
const (
	ErrCidEnd              Status = C.KOMBILAD_CID_END                // the bytes end too early
	ErrCidNotShortest      Status = C.KOMBILAD_CID_NOT_SHORTEST       // a varint isn't the shortest
	ErrCidVarintTooLarge   Status = C.KOMBILAD_CID_VARINT_TOO_LARGE   // a varint is 2^64 or more
	ErrCidExplicitVersion0 Status = C.KOMBILAD_CID_EXPLICIT_VERSION_0 // the first byte is 0
	ErrCidUnknownVersion   Status = C.KOMBILAD_CID_UNKNOWN_VERSION    // the version isn't 0 or 1
	ErrCidDigestTooLong    Status = C.KOMBILAD_CID_DIGEST_TOO_LONG    // more than 64 bytes
	ErrCidTrailingBytes    Status = C.KOMBILAD_CID_TRAILING_BYTES     // bytes follow the CID
)

// The text is not a CID. Its error may also be one of the bytes that it encodes.
const (
	ErrTextUnknownBase   Status = C.KOMBILAD_TEXT_UNKNOWN_BASE   // the text has no prefix of a base
	ErrTextInvalidLength Status = C.KOMBILAD_TEXT_INVALID_LENGTH // no CID has this length
	ErrTextInvalidLetter Status = C.KOMBILAD_TEXT_INVALID_LETTER // a letter isn't in the base
	ErrTextUnusedBits    Status = C.KOMBILAD_TEXT_UNUSED_BITS    // bits after the last byte are 1
	ErrTextWrongVersion  Status = C.KOMBILAD_TEXT_WRONG_VERSION  // a CIDv0 has a prefix
	ErrTextUTF8          Status = C.KOMBILAD_TEXT_UTF8           // the text is not UTF-8
)

// The bytes are not a block of DAG-CBOR.
const (
	ErrBlockEnd           Status = C.KOMBILAD_BLOCK_END            // the bytes end too early
	ErrBlockNotShortest   Status = C.KOMBILAD_BLOCK_NOT_SHORTEST   // a number isn't in its shortest form
	ErrBlockFloat         Status = C.KOMBILAD_BLOCK_FLOAT          // not 64 bits, NaN or an infinity
	ErrBlockUnsupported   Status = C.KOMBILAD_BLOCK_UNSUPPORTED    // not allowed in DAG-CBOR
	ErrBlockUTF8          Status = C.KOMBILAD_BLOCK_UTF8           // a string is not UTF-8
	ErrBlockKeyNotText    Status = C.KOMBILAD_BLOCK_KEY_NOT_TEXT   // a key is not a string
	ErrBlockDuplicateKey  Status = C.KOMBILAD_BLOCK_DUPLICATE_KEY  // a map has a key twice
	ErrBlockLinkBytes     Status = C.KOMBILAD_BLOCK_LINK_BYTES     // tag 42 without bytes after 0x00
	ErrBlockTrailingBytes Status = C.KOMBILAD_BLOCK_TRAILING_BYTES // bytes follow the value
)

// A path leads to nothing in a block.
const (
	ErrPathMissing       Status = C.KOMBILAD_PATH_MISSING         // no such key or index
	ErrPathNotAContainer Status = C.KOMBILAD_PATH_NOT_A_CONTAINER // it goes on after another value
)

// The bytes of a link in a block are not a CID.
const (
	ErrLinkEnd              Status = C.KOMBILAD_LINK_END                // as ErrCidEnd
	ErrLinkNotShortest      Status = C.KOMBILAD_LINK_NOT_SHORTEST       // as ErrCidNotShortest
	ErrLinkVarintTooLarge   Status = C.KOMBILAD_LINK_VARINT_TOO_LARGE   // as ErrCidVarintTooLarge
	ErrLinkExplicitVersion0 Status = C.KOMBILAD_LINK_EXPLICIT_VERSION_0 // as ErrCidExplicitVersion0
	ErrLinkUnknownVersion   Status = C.KOMBILAD_LINK_UNKNOWN_VERSION    // as ErrCidUnknownVersion
	ErrLinkDigestTooLong    Status = C.KOMBILAD_LINK_DIGEST_TOO_LONG    // as ErrCidDigestTooLong
	ErrLinkTrailingBytes    Status = C.KOMBILAD_LINK_TRAILING_BYTES     // as ErrCidTrailingBytes
)

// The bytes are not a CAR. The error of a header may also be one of a block.
const (
	ErrCarUnexpectedEnd     Status = C.KOMBILAD_CAR_UNEXPECTED_END      // the bytes end too early
	ErrCarLengthNotShortest Status = C.KOMBILAD_CAR_LENGTH_NOT_SHORTEST // a varint isn't the shortest
	ErrCarLengthTooLarge    Status = C.KOMBILAD_CAR_LENGTH_TOO_LARGE    // a length is 2^64 or more
	ErrCarEmpty             Status = C.KOMBILAD_CAR_EMPTY               // a header or section is empty
	ErrCarTooLong           Status = C.KOMBILAD_CAR_TOO_LONG            // a header or section too long
	ErrCarNotAHeader        Status = C.KOMBILAD_CAR_NOT_A_HEADER        // not roots and version 1
	ErrCarPayload           Status = C.KOMBILAD_CAR_PAYLOAD             // the payload is out of range
	ErrCarShortPayload      Status = C.KOMBILAD_CAR_SHORT_PAYLOAD       // the bytes end in the payload
)

// The bytes are not a node of DAG-PB.
const (
	ErrPbEnd            Status = C.KOMBILAD_PB_END              // the bytes end too early
	ErrPbVarintTooLarge Status = C.KOMBILAD_PB_VARINT_TOO_LARGE // a varint is 2^64 or more
	ErrPbUnknownField   Status = C.KOMBILAD_PB_UNKNOWN_FIELD    // DAG-PB has no such field there
	ErrPbFieldOrder     Status = C.KOMBILAD_PB_FIELD_ORDER      // a field is repeated or misplaced
	ErrPbNoHash         Status = C.KOMBILAD_PB_NO_HASH          // a link doesn't begin with its hash
	ErrPbUTF8           Status = C.KOMBILAD_PB_UTF8             // a name is not UTF-8
)

// The block is not a part of a file, or the file exceeds a limit.
const (
	ErrFileCodec         Status = C.KOMBILAD_FILE_CODEC           // the codec isn't Raw or DagPb
	ErrFileNoData        Status = C.KOMBILAD_FILE_NO_DATA         // the node has no data
	ErrFileNotFile       Status = C.KOMBILAD_FILE_NOT_FILE        // a folder, a link or metadata
	ErrFileSizeCount     Status = C.KOMBILAD_FILE_SIZE_COUNT      // not one size for each link
	ErrFileSize          Status = C.KOMBILAD_FILE_SIZE            // not the size of its parts
	ErrFilePartSize      Status = C.KOMBILAD_FILE_PART_SIZE       // not the size in the node above
	ErrFileTooLarge      Status = C.KOMBILAD_FILE_TOO_LARGE       // there are too many bytes
	ErrFileTooManyBlocks Status = C.KOMBILAD_FILE_TOO_MANY_BLOCKS // there are too many blocks
	ErrFileTooDeep       Status = C.KOMBILAD_FILE_TOO_DEEP        // the blocks nest too deeply
	ErrFileTooManyParts  Status = C.KOMBILAD_FILE_TOO_MANY_PARTS  // too many blocks wait
)

// The data of a node are not a message of UnixFS.
const (
	ErrUnixFSEnd            Status = C.KOMBILAD_UNIXFS_END              // the data end too early
	ErrUnixFSVarintTooLarge Status = C.KOMBILAD_UNIXFS_VARINT_TOO_LARGE // a varint is 2^64 or more
	ErrUnixFSUnknownField   Status = C.KOMBILAD_UNIXFS_UNKNOWN_FIELD    // UnixFS has no such field
	ErrUnixFSFieldOrder     Status = C.KOMBILAD_UNIXFS_FIELD_ORDER      // repeated or misplaced
	ErrUnixFSNoType         Status = C.KOMBILAD_UNIXFS_NO_TYPE          // the type isn't first
	ErrUnixFSUnknownType    Status = C.KOMBILAD_UNIXFS_UNKNOWN_TYPE     // UnixFS has no such type
	ErrUnixFSModeTooLarge   Status = C.KOMBILAD_UNIXFS_MODE_TOO_LARGE   // a mode is 2^32 or more
	ErrUnixFSNoSeconds      Status = C.KOMBILAD_UNIXFS_NO_SECONDS       // a time without seconds
	ErrUnixFSNanoseconds    Status = C.KOMBILAD_UNIXFS_NANOSECONDS      // not from 1 to 999,999,999
)

// The block is not a folder or a part of one.
const (
	ErrFolderCodec        Status = C.KOMBILAD_FOLDER_CODEC         // the codec isn't DagPb
	ErrFolderNotFolder    Status = C.KOMBILAD_FOLDER_NOT_FOLDER    // the node isn't a folder
	ErrFolderHashFunction Status = C.KOMBILAD_FOLDER_HASH_FUNCTION // not murmur3-x64-64
	ErrFolderFanout       Status = C.KOMBILAD_FOLDER_FANOUT        // a shard without 256 slots
	ErrFolderInvalidName  Status = C.KOMBILAD_FOLDER_INVALID_NAME  // no entry can have the name
	ErrFolderNameOrder    Status = C.KOMBILAD_FOLDER_NAME_ORDER    // names repeat or are unsorted
	ErrFolderInvalidSlot  Status = C.KOMBILAD_FOLDER_INVALID_SLOT  // a name without its slot
	ErrFolderSlotOrder    Status = C.KOMBILAD_FOLDER_SLOT_ORDER    // slots repeat or are unsorted
	ErrFolderBitField     Status = C.KOMBILAD_FOLDER_BIT_FIELD     // not the bits of the slots
	ErrFolderNotShard     Status = C.KOMBILAD_FOLDER_NOT_SHARD     // a shard has a plain folder
	ErrFolderWrongSlot    Status = C.KOMBILAD_FOLDER_WRONG_SLOT    // not the slot of the name's hash
	ErrFolderTooDeep      Status = C.KOMBILAD_FOLDER_TOO_DEEP      // more than eight levels of shards
)

// A file, a folder or a symbolic link can't be packed.
const (
	ErrPackWidth       Status = C.KOMBILAD_PACK_WIDTH        // MaxLinks is less than two
	ErrPackTooLarge    Status = C.KOMBILAD_PACK_TOO_LARGE    // 2^64 bytes or more in all its blocks
	ErrPackInvalidName Status = C.KOMBILAD_PACK_INVALID_NAME // no entry can have the name
	ErrPackNameOrder   Status = C.KOMBILAD_PACK_NAME_ORDER   // two entries have one name
	ErrPackSameHash    Status = C.KOMBILAD_PACK_SAME_HASH    // two names have one hash
)

// The text is not DAG-JSON, or a map of the block has none.
const (
	ErrJSONUTF8         Status = C.KOMBILAD_JSON_UTF8          // the text is not UTF-8
	ErrJSONSyntax       Status = C.KOMBILAD_JSON_SYNTAX        // the text is not JSON
	ErrJSONEnd          Status = C.KOMBILAD_JSON_END           // the text ends too early
	ErrJSONFloat        Status = C.KOMBILAD_JSON_FLOAT         // a float is beyond 64 bits
	ErrJSONIntegerRange Status = C.KOMBILAD_JSON_INTEGER_RANGE // below -2^64 or above 2^64 - 1
	ErrJSONDuplicateKey Status = C.KOMBILAD_JSON_DUPLICATE_KEY // an object has a key twice
	ErrJSONLink         Status = C.KOMBILAD_JSON_LINK          // not the text of a CID
	ErrJSONBytes        Status = C.KOMBILAD_JSON_BYTES         // not base64 without padding
	ErrJSONReserved     Status = C.KOMBILAD_JSON_RESERVED      // neither a link nor bytes
	ErrJSONReservedMap  Status = C.KOMBILAD_JSON_RESERVED_MAP  // would be read as a link or bytes
)

// The value can't be encoded.
const (
	ErrValueUTF8    Status = C.KOMBILAD_TAPE_UTF8          // a string is not UTF-8
	ErrValueFloat   Status = C.KOMBILAD_TAPE_FLOAT         // a float is NaN or an infinity
	ErrDuplicateKey Status = C.KOMBILAD_TAPE_DUPLICATE_KEY // a map has a key twice
)

// A Go type and a block don't fit, or a BlockGetter fails. Only this package has these reasons, and
// not the C library.
const (
	ErrType            Status = 1<<16 + iota // the value has another type
	ErrRange                                 // a number is out of range
	ErrLength                                // a Go array has another length
	ErrUnknownField                          // a Go struct has no field for a key
	ErrUnsupportedType                       // a Go type has no form in DAG-CBOR
	ErrUndefinedCid                          // the CID is the zero value
	ErrNotPointer                            // Unmarshal needs a pointer that isn't nil
	ErrUnknownCodec                          // BlockLinks doesn't know the codec
	ErrCustom                                // a Marshaler or an Unmarshaler failed
	ErrMissingBlock                          // a BlockGetter doesn't have the block
	ErrBlockGetter                           // a BlockGetter failed
	ErrInUse                                 // a BlockGetter used the reader that waits for it
)

// sentences are the sentences of the reasons that only this package has.
var sentences = map[Status]string{
	ErrType:            "the value has another type",
	ErrRange:           "the number is out of range",
	ErrLength:          "the length differs from that of the array",
	ErrUnknownField:    "the struct has no field for a key",
	ErrUnsupportedType: "the type has no form in DAG-CBOR",
	ErrUndefinedCid:    "an undefined CID cannot be encoded",
	ErrNotPointer:      "Unmarshal needs a pointer that is not nil",
	ErrUnknownCodec:    "unknown codec: only DAG-CBOR, DAG-PB and raw are known",
	ErrCustom:          "the type reports an error",
	ErrMissingBlock:    "the block is missing",
	ErrBlockGetter:     "the block cannot be read",
	ErrInUse:           "a BlockGetter used the reader that waits for it",
}

// Error returns the reason as a sentence without a place.
func (s Status) Error() string {
	if sentence, known := sentences[s]; known {
		return sentence
	}
	return callStatusText(uint32(s))
}
