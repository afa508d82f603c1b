/* This header belongs to kombilad.c. It differs from that of the library for x86-64 in the sizes in
 * records, which are uint64_t. */
/* libkombilad: reads content identifiers (CIDs), blocks of DAG-CBOR and DAG-PB, texts in DAG-JSON,
 * CARs, and files and folders of UnixFS by proved code.
 *
 *     #include <kombilad.h>
 *
 *     cc program.c $(pkg-config --cflags --libs kombilad)
 *
 * Status. Each call returns KOMBILAD_OK or the number of an error below. A call that fails writes
 * nothing, except what its comment names.
 *
 * Memory. The caller owns all arguments. No call keeps a pointer after it returns. A call allocates
 * by malloc and realloc, and frees all of it before it returns, except the walk of a kombilad_walk,
 * which kombilad_walk_free frees. If an allocation fails, it returns KOMBILAD_NO_MEMORY.
 *
 * Pointers. A buffer of length 0 may be NULL. Any other pointer has to be valid. Memory that a call
 * writes to must not overlap another argument.
 *
 * Buffers. A call that fills a buffer writes the required size to `needed`, in bytes or in records.
 * If the buffer is too short, it writes nothing else and returns KOMBILAD_TOO_SHORT. So a call with
 * a buffer of length 0 returns the required size. Bytes of the buffer after the content are not
 * changed.
 *
 * Threads. There is no global state. Threads may call at the same time, with the same input too, if
 * no thread writes to memory that another one passes. Don't call from a signal handler, or in the
 * child of a process with threads after fork.
 *
 * Untrusted input. The calls take any bytes. They recurse for at most 32 levels of the input, and
 * their time depends only on its length.
 */
#ifndef KOMBILAD_H
#define KOMBILAD_H

#include <stddef.h>
#include <stdint.h>

#ifdef __cplusplus
extern "C" {
#endif

/* The version of this header, as kombilad_version() returns that of the library. */
#define KOMBILAD_VERSION_MAJOR 0
#define KOMBILAD_VERSION_MINOR 2
#define KOMBILAD_VERSION_PATCH 0
#define KOMBILAD_VERSION \
    (KOMBILAD_VERSION_MAJOR << 16 | KOMBILAD_VERSION_MINOR << 8 | KOMBILAD_VERSION_PATCH)

/* ---- Statuses */

enum kombilad_status {
    KOMBILAD_OK = 0,
    /* an allocation failed */
    KOMBILAD_NO_MEMORY = 1,
    /* the buffer is too short for the content */
    KOMBILAD_TOO_SHORT = 2,
    /* the block is valid, but the keys of its maps are not in canonical order */
    KOMBILAD_NOT_CANONICAL = 3,
    /* the base is not one of enum kombilad_base */
    KOMBILAD_UNKNOWN_BASE = 4,
    /* a CID of version 0 has a text only in base58btc */
    KOMBILAD_V0_BASE = 5,
    /* lists and maps nest deeper than the limit */
    KOMBILAD_TOO_DEEP = 6,
    /* there are more values than the limit */
    KOMBILAD_TOO_MANY = 7,
    /* a string, a byte string, a list or a map is too long for an entry of a tape */
    KOMBILAD_TOO_LONG = 8,
    /* no call of this version returns this */
    KOMBILAD_OTHER = 15,

    /* The bytes are not a CID: the leftmost error. */
    /* the bytes end before the CID does */
    KOMBILAD_CID_END = 16,
    /* a varint is not in its shortest form */
    KOMBILAD_CID_NOT_SHORTEST = 17,
    /* a varint encodes a number of 2^64 or more */
    KOMBILAD_CID_VARINT_TOO_LARGE = 18,
    /* the bytes begin with the version 0, as no CID does */
    KOMBILAD_CID_EXPLICIT_VERSION_0 = 19,
    /* the version is neither 0 nor 1 */
    KOMBILAD_CID_UNKNOWN_VERSION = 20,
    /* the digest is longer than 64 bytes */
    KOMBILAD_CID_DIGEST_TOO_LONG = 21,
    /* more bytes follow the CID */
    KOMBILAD_CID_TRAILING_BYTES = 22,

    /* The text is not a CID's. The statuses of the bytes that it encodes are those above. */
    /* the text is empty, or doesn't begin with the prefix of a base of enum kombilad_base */
    KOMBILAD_TEXT_UNKNOWN_BASE = 32,
    /* no CID has a text of this length in its base */
    KOMBILAD_TEXT_INVALID_LENGTH = 33,
    /* a character is not a letter of its base */
    KOMBILAD_TEXT_INVALID_LETTER = 34,
    /* bits after the last byte are set */
    KOMBILAD_TEXT_UNUSED_BITS = 35,
    /* a CID of version 0 has no text with a prefix */
    KOMBILAD_TEXT_WRONG_VERSION = 36,
    /* the text is not UTF-8 */
    KOMBILAD_TEXT_UTF8 = 37,

    /* The bytes are not a block of DAG-CBOR: the leftmost error. */
    /* the bytes end before the item does */
    KOMBILAD_BLOCK_END = 48,
    /* an argument is not in its shortest form */
    KOMBILAD_BLOCK_NOT_SHORTEST = 49,
    /* a float of other than 64 bits, NaN or an infinity */
    KOMBILAD_BLOCK_FLOAT = 50,
    /* a simple value, a tag or an indefinite length that DAG-CBOR doesn't allow */
    KOMBILAD_BLOCK_UNSUPPORTED = 51,
    /* a text string is not UTF-8 */
    KOMBILAD_BLOCK_UTF8 = 52,
    /* the key of a map is not a text string */
    KOMBILAD_BLOCK_KEY_NOT_TEXT = 53,
    /* a map has the same key twice */
    KOMBILAD_BLOCK_DUPLICATE_KEY = 54,
    /* the tag of a link isn't followed by a byte string that begins with a zero byte */
    KOMBILAD_BLOCK_LINK_BYTES = 55,
    /* more bytes follow the item */
    KOMBILAD_BLOCK_TRAILING_BYTES = 56,

    /* A path leads to nothing in a block. */
    /* a segment is not a key of the map, or not an index of the list */
    KOMBILAD_PATH_MISSING = 64,
    /* the path continues after a value that is not a list, a map or a link */
    KOMBILAD_PATH_NOT_A_CONTAINER = 65,

    /* The bytes of a link in a block are not a CID. */
    /* the bytes end before the CID does */
    KOMBILAD_LINK_END = 80,
    /* a varint is not in its shortest form */
    KOMBILAD_LINK_NOT_SHORTEST = 81,
    /* a varint encodes a number of 2^64 or more */
    KOMBILAD_LINK_VARINT_TOO_LARGE = 82,
    /* the CID begins with the version 0, as no CID does */
    KOMBILAD_LINK_EXPLICIT_VERSION_0 = 83,
    /* the version is neither 0 nor 1 */
    KOMBILAD_LINK_UNKNOWN_VERSION = 84,
    /* the digest is longer than 64 bytes */
    KOMBILAD_LINK_DIGEST_TOO_LONG = 85,
    /* more bytes follow the CID */
    KOMBILAD_LINK_TRAILING_BYTES = 86,

    /* The bytes are not a CAR: the leftmost error. The statuses of a header's block and of a
     * section's CID are those above. */
    /* no section is left, which isn't an error */
    KOMBILAD_CAR_DONE = 96,
    /* the bytes, or the payload of version 2, end before a header or a section does */
    KOMBILAD_CAR_UNEXPECTED_END = 97,
    /* the varint before a header or a section is not in its shortest form */
    KOMBILAD_CAR_LENGTH_NOT_SHORTEST = 98,
    /* the varint before a header or a section encodes a number of 2^64 or more */
    KOMBILAD_CAR_LENGTH_TOO_LARGE = 99,
    /* a header or a section has the length zero */
    KOMBILAD_CAR_EMPTY = 100,
    /* a header or a section is longer than the limit */
    KOMBILAD_CAR_TOO_LONG = 101,
    /* the header is a block, but not a map of roots and of the version 1 */
    KOMBILAD_CAR_NOT_A_HEADER = 102,
    /* version 2 places its payload before its own end, or the payload's end at 2^64 or more */
    KOMBILAD_CAR_PAYLOAD = 103,
    /* the bytes end before the payload of version 2 does */
    KOMBILAD_CAR_SHORT_PAYLOAD = 104,

    /* A block isn't verified. */
    /* the hash function of the CID is not SHA2-256, SHA2-512, BLAKE2b-256 or identity */
    KOMBILAD_UNKNOWN_HASH = 112,
    /* the block has another digest */
    KOMBILAD_WRONG_DIGEST = 113,

    /* The tape is invalid: its first invalid entry. The statuses of the bytes of a link are those
     * above. */
    /* a value or a key is missing */
    KOMBILAD_TAPE_MISSING = 128,
    /* more entries follow than the list, the map or the tape has values or pairs */
    KOMBILAD_TAPE_LEFT_OVER = 129,
    /* the kind is unknown, a key instead of a value, or a value instead of a key */
    KOMBILAD_TAPE_KIND = 130,
    /* a list or a map spans zero entries, or more than its container has left */
    KOMBILAD_TAPE_SPAN = 131,
    /* the length or the value is invalid for the kind of the entry */
    KOMBILAD_TAPE_FIELDS = 132,
    /* the content is not within the data */
    KOMBILAD_TAPE_CONTENT = 133,
    /* a string or a key is not UTF-8 */
    KOMBILAD_TAPE_UTF8 = 134,
    /* a float is NaN or an infinity */
    KOMBILAD_TAPE_FLOAT = 135,
    /* a map has the same key twice; no call returns 136 */
    KOMBILAD_TAPE_DUPLICATE_KEY = 137,

    /* The bytes are not a node of DAG-PB: the leftmost error. The statuses of the bytes of a link
     * are those above. */
    /* the bytes of the block or of a link end before the field does */
    KOMBILAD_PB_END = 144,
    /* a varint encodes a number of 2^64 or more, or has more than ten bytes */
    KOMBILAD_PB_VARINT_TOO_LARGE = 145,
    /* the number and wire type of a field are not allowed there */
    KOMBILAD_PB_UNKNOWN_FIELD = 146,
    /* a field comes twice or out of order, or links come both before and after the data */
    KOMBILAD_PB_FIELD_ORDER = 147,
    /* a link does not begin with its hash */
    KOMBILAD_PB_NO_HASH = 148,
    /* the name of a link is not UTF-8 */
    KOMBILAD_PB_UTF8 = 149,

    /* The text is not DAG-JSON: the first token with an error. */
    /* the text is not UTF-8 */
    KOMBILAD_JSON_UTF8 = 160,
    /* the text is not JSON, or continues after its value */
    KOMBILAD_JSON_SYNTAX = 161,
    /* the text ends before its value does */
    KOMBILAD_JSON_END = 162,
    /* a number with a fraction or an exponent is beyond the greatest float of 64 bits */
    KOMBILAD_JSON_FLOAT = 163,
    /* an integer is below -2^64 or above 2^64 - 1 */
    KOMBILAD_JSON_INTEGER_RANGE = 164,
    /* an object has the same key twice */
    KOMBILAD_JSON_DUPLICATE_KEY = 165,
    /* the text of a link is not that of a CID: base58btc for version 0, and base32 after a "b" for
     * version 1 */
    KOMBILAD_JSON_LINK = 166,
    /* the text of bytes is not base64 without padding (RFC 4648, section 4) */
    KOMBILAD_JSON_BYTES = 167,
    /* an object has the key "/" as links and bytes do, and is neither */
    KOMBILAD_JSON_RESERVED = 168,
    /* a map of the block has no DAG-JSON: its text would be read as a link or as bytes */
    KOMBILAD_JSON_RESERVED_MAP = 169,

    /* A part of a CAR. */
    /* more bytes of the CAR are needed, which isn't an error */
    KOMBILAD_CAR_MORE = 176,

    /* A walk over a file of UnixFS doesn't take the block: the first reason. The statuses of a
     * block that isn't verified, of a node of DAG-PB and of a link are those above. */
    /* the walk has taken all its blocks, which isn't an error of kombilad_walk_wanted */
    KOMBILAD_WALK_DONE = 192,
    /* the kombilad_walk has no walk, or one that is not over what the call reads */
    KOMBILAD_WALK_CLOSED = 193,
    /* the codec of the CID is neither raw nor dag-pb */
    KOMBILAD_FILE_CODEC = 194,
    /* the node has no data */
    KOMBILAD_FILE_NO_DATA = 195,
    /* the node is a folder, a symbolic link or metadata */
    KOMBILAD_FILE_NOT_FILE = 196,
    /* the number of sizes in the node is not that of its links */
    KOMBILAD_FILE_SIZE_COUNT = 197,
    /* the size of the file in the node is not that of its bytes and its links */
    KOMBILAD_FILE_SIZE = 198,
    /* the node has another number of bytes of the file than the node above it states */
    KOMBILAD_FILE_PART_SIZE = 199,
    /* the file has more bytes than the limit */
    KOMBILAD_FILE_TOO_LARGE = 200,
    /* the file has more blocks than the limit */
    KOMBILAD_FILE_TOO_MANY_BLOCKS = 201,
    /* the blocks of the file nest deeper than the limit */
    KOMBILAD_FILE_TOO_DEEP = 202,
    /* more blocks of the file wait to be read than the limit */
    KOMBILAD_FILE_TOO_MANY_PARTS = 203,

    /* The data of the node are not a message of UnixFS: the leftmost error. */
    /* the data end within a field */
    KOMBILAD_UNIXFS_END = 208,
    /* a varint encodes a number of 2^64 or more, or has more than ten bytes */
    KOMBILAD_UNIXFS_VARINT_TOO_LARGE = 209,
    /* the number and wire type of a field are not allowed there */
    KOMBILAD_UNIXFS_UNKNOWN_FIELD = 210,
    /* a field comes twice or out of order */
    KOMBILAD_UNIXFS_FIELD_ORDER = 211,
    /* the data do not begin with a type */
    KOMBILAD_UNIXFS_NO_TYPE = 212,
    /* no type has this number */
    KOMBILAD_UNIXFS_UNKNOWN_TYPE = 213,
    /* the mode has more than 32 bits */
    KOMBILAD_UNIXFS_MODE_TOO_LARGE = 214,
    /* the time does not begin with its seconds */
    KOMBILAD_UNIXFS_NO_SECONDS = 215,
    /* the nanoseconds of the time are not from 1 to 999,999,999 */
    KOMBILAD_UNIXFS_NANOSECONDS = 216,

    /* The block is not taken for a folder of UnixFS: the first reason. The statuses of a block that
     * isn't verified, of a node of DAG-PB, of a link and of a message are those above. */
    /* the codec of the CID is not dag-pb */
    KOMBILAD_FOLDER_CODEC = 224,
    /* the node is not a folder */
    KOMBILAD_FOLDER_NOT_FOLDER = 225,
    /* the hash function of a shard is not murmur3-x64-64 */
    KOMBILAD_FOLDER_HASH_FUNCTION = 226,
    /* a shard doesn't have 256 slots */
    KOMBILAD_FOLDER_FANOUT = 227,
    /* the name of an entry is missing, empty, "." or "..", or has a "/" or a zero byte */
    KOMBILAD_FOLDER_INVALID_NAME = 228,
    /* a name in a plain folder is not greater than the one before it */
    KOMBILAD_FOLDER_NAME_ORDER = 229,
    /* the name of a link in a shard doesn't begin with two upper-case hexadecimal digits */
    KOMBILAD_FOLDER_INVALID_SLOT = 230,
    /* a slot of a shard is not greater than the one before it */
    KOMBILAD_FOLDER_SLOT_ORDER = 231,
    /* the bit field of a shard is not that of its slots */
    KOMBILAD_FOLDER_BIT_FIELD = 232,
    /* a shard leads to a plain folder as if it were a shard */
    KOMBILAD_FOLDER_NOT_SHARD = 233,
    /* the hash of a name in a shard doesn't lead there */
    KOMBILAD_FOLDER_WRONG_SLOT = 234,
    /* a shard at the eighth level leads to another one */
    KOMBILAD_FOLDER_TOO_DEEP = 235,
    /* the folder has no entry with the name, which isn't an error */
    KOMBILAD_FOLDER_MISSING = 236,
    /* the search needs one more block, which isn't an error */
    KOMBILAD_FOLDER_MORE = 237,

    /* A file, a folder or a symbolic link isn't packed. */
    /* a block above others needs room for at least two links */
    KOMBILAD_PACK_WIDTH = 240,
    /* the file or the folder has 2^64 bytes or more, with all its blocks */
    KOMBILAD_PACK_TOO_LARGE = 241,
    /* the nanoseconds of the time are more than 999,999,999 */
    KOMBILAD_PACK_NANOSECONDS = 242,
    /* the name of an entry is "", "." or "..", or has a "/" or a zero byte */
    KOMBILAD_PACK_INVALID_NAME = 243,
    /* two entries have the same name, or the names do not ascend by their bytes */
    KOMBILAD_PACK_NAME_ORDER = 244,
    /* two names of a sharded folder have the same hash */
    KOMBILAD_PACK_SAME_HASH = 245,
    /* blocks that were packed before have not been taken */
    KOMBILAD_PACK_WAITING = 246
};

/* Writes the sentence of a status: at most 80 bytes of ASCII, without a full stop and without a
 * zero byte at the end. Every number has one. Does not allocate.
 *
 * Statuses: OK, TOO_SHORT. */
uint32_t kombilad_status_text(uint32_t status, uint8_t *text, size_t text_len, size_t *needed);

/* ---- CIDs */

/* The bytes of a CID: the first `len`, at most 86. The others are zero. */
typedef struct kombilad_cid {
    uint8_t len;
    uint8_t bytes[87];
} kombilad_cid;

/* The parts of a CID. The digest is the last `digest_len` of its bytes. */
typedef struct kombilad_cid_parts {
    uint64_t version; /* 0 or 1 */
    uint64_t codec;   /* of the block, as in the multicodec table */
    uint64_t hash;    /* the code of the hash function, as in that table */
    uint64_t digest_len;
} kombilad_cid_parts;

/* The bases of a CID's text: the multibase prefix of each. */
enum kombilad_base {
    KOMBILAD_BASE_USUAL = 0,     /* base32 in lower case for version 1, base58btc for version 0 */
    KOMBILAD_BASE16 = 'f',       /* hexadecimal digits, lower case */
    KOMBILAD_BASE32 = 'b',       /* RFC 4648, lower case, without padding */
    KOMBILAD_BASE32_UPPER = 'B', /* RFC 4648, upper case, without padding */
    KOMBILAD_BASE36 = 'k',       /* lower case */
    KOMBILAD_BASE58BTC = 'z',
    KOMBILAD_BASE64URL = 'u' /* RFC 4648, section 5, without padding */
};

/* Checks that the bytes are a CID, with nothing after it. Does not allocate.
 *
 * Statuses: OK, KOMBILAD_CID_*. */
uint32_t kombilad_cid_check(const uint8_t *bytes, size_t len);

/* Writes the parts of a CID. Does not allocate.
 *
 * Statuses: OK, KOMBILAD_CID_*. */
uint32_t kombilad_cid_parts_of(const uint8_t *bytes, size_t len, kombilad_cid_parts *parts);

/* Writes the text of a CID in a base. For version 1 it begins with the multibase prefix. It is
 * ASCII, without a zero byte at the end, and has at most 173 characters.
 *
 * Statuses: OK, TOO_SHORT, NO_MEMORY, UNKNOWN_BASE, V0_BASE, KOMBILAD_CID_*. */
uint32_t kombilad_cid_to_text(const uint8_t *bytes, size_t len, uint32_t base, uint8_t *text,
                              size_t text_len, size_t *needed);

/* Reads the text of a CID in any of the bases, with or without "/ipfs/" before it. Does not
 * allocate. If the status is KOMBILAD_TEXT_INVALID_LETTER, the byte offset of the first such
 * character is written to `place`.
 *
 * Statuses: OK, KOMBILAD_TEXT_*, KOMBILAD_CID_*. */
uint32_t kombilad_cid_from_text(const uint8_t *text, size_t len, kombilad_cid *cid, size_t *place);

/* Writes the CID of a block: version 1, with this codec and the block's SHA2-256 digest. Does not
 * allocate. */
void kombilad_cid_of_block(uint64_t codec, const uint8_t *block, size_t len, kombilad_cid *cid);

/* ---- Blocks of DAG-CBOR
 *
 * Each call takes two limits:
 * - `levels`: how deep lists and maps may nest. With 0 the block is neither, with 1 it may be a
 *   list or a map of other values.
 * - `values`: how many values there may be: the block itself, the items of its lists and the values
 *   of its maps. SIZE_MAX means no limit.
 *
 * If the bytes exceed a limit and have an error, the first of the two is returned.
 *
 * Open lists and maps take no memory if the block nests at most 32 levels deep, has no more bytes
 * than `values`, and has its keys in canonical order, without an empty one. Otherwise, and in
 * kombilad_block_check_canonical, each open list or map takes about 60 bytes, and each key of an
 * open map 16.
 *
 * With TOO_DEEP, TOO_MANY, KOMBILAD_BLOCK_* and KOMBILAD_LINK_* a call writes to `offset` the first
 * byte of the item, key, byte string of a link, or trailing bytes at fault. If a link is one value
 * too many, that is its byte string, after the tag. With NO_MEMORY `offset` may be any number up to
 * the block's length. With OK, TOO_SHORT, TOO_LONG and NOT_CANONICAL nothing is written to it.
 */

/* Limits for untrusted blocks. */
#define KOMBILAD_LEVELS ((size_t)1024)
#define KOMBILAD_VALUES SIZE_MAX

/* A range of bytes. */
typedef struct kombilad_span {
    uint64_t offset;
    uint64_t len;
} kombilad_span;

/* Checks that the bytes are one block.
 *
 * Statuses: OK, NO_MEMORY, TOO_DEEP, TOO_MANY, KOMBILAD_BLOCK_*, KOMBILAD_LINK_*. */
uint32_t kombilad_block_check(const uint8_t *block, size_t len, size_t levels, size_t values,
                              size_t *offset);

/* Checks that the bytes are one block in canonical form: the keys of each map are sorted by length,
 * then by bytes.
 *
 * Statuses: OK, NOT_CANONICAL, NO_MEMORY, TOO_DEEP, TOO_MANY, KOMBILAD_BLOCK_*, KOMBILAD_LINK_*. */
uint32_t kombilad_block_check_canonical(const uint8_t *block, size_t len, size_t levels,
                                        size_t values, size_t *offset);

/* Writes the block in canonical form: with the keys of each map sorted, and otherwise unchanged. It
 * makes the block's tape, of 16 bytes for each value and key, and returns TOO_LONG if kombilad_tape
 * does. The result is as long as the block.
 *
 * Statuses: OK, TOO_SHORT, NO_MEMORY, TOO_DEEP, TOO_MANY, TOO_LONG, KOMBILAD_BLOCK_*,
 * KOMBILAD_LINK_*. */
uint32_t kombilad_block_canonicalize(const uint8_t *block, size_t len, size_t levels, size_t values,
                                     uint8_t *out, size_t out_len, size_t *needed, size_t *offset);

/* Counts the links of the block.
 *
 * Statuses: OK, NO_MEMORY, TOO_DEEP, TOO_MANY, KOMBILAD_BLOCK_*, KOMBILAD_LINK_*. */
uint32_t kombilad_links_count(const uint8_t *block, size_t len, size_t levels, size_t values,
                              size_t *count, size_t *offset);

/* Writes the CIDs of the block's links in the order of its bytes, with repeats. `links_len` and
 * `needed` count records.
 *
 * Statuses: OK, TOO_SHORT, NO_MEMORY, TOO_DEEP, TOO_MANY, KOMBILAD_BLOCK_*, KOMBILAD_LINK_*. */
uint32_t kombilad_links(const uint8_t *block, size_t len, size_t levels, size_t values,
                        kombilad_cid *links, size_t links_len, size_t *needed, size_t *offset);

/* Writes the positions of the CIDs of the block's links, in the same order. Copies nothing of the
 * block.
 *
 * Statuses: OK, TOO_SHORT, NO_MEMORY, TOO_DEEP, TOO_MANY, KOMBILAD_BLOCK_*, KOMBILAD_LINK_*. */
uint32_t kombilad_link_positions(const uint8_t *block, size_t len, size_t levels, size_t values,
                                 kombilad_span *spans, size_t spans_len, size_t *needed,
                                 size_t *offset);

/* Finds the value at a path in the block, such as "a/b/0". In a map a segment is a key, and in a list
 * an index: decimal digits, which a "+" may precede. Empty segments are skipped: "/a//b/" is "a/b",
 * and the empty path leads to the block itself. A path can't lead through an empty key or one that
 * has a "/".
 *
 * It writes the place of the value in the block to `value`. If the path continues after a link, that
 * is the value, and the rest of the path begins at the byte `rest` of it. Pass the rest with the
 * block of the link to go on:
 *
 *     while ((status = kombilad_block_at(block, len, KOMBILAD_LEVELS, KOMBILAD_VALUES, path, path_len,
 *                                        &value, &rest, &place)) == KOMBILAD_OK &&
 *            rest < path_len) {
 *         path += rest;
 *         path_len -= rest;
 *         block = block_of_link(block + value.offset, value.len, &len);
 *     }
 *
 * The bytes of a link are its tag, the head of a byte string, a zero byte, and the CID:
 * kombilad_link_positions of these bytes gives the place of the CID. If the path was followed to its
 * end, `rest` is `path_len`.
 *
 * The limits are those of a block. It checks the whole block, and then reads it once more up to the
 * value, without an allocation. If the block is valid and the path is not UTF-8, it returns
 * KOMBILAD_TEXT_UTF8. With KOMBILAD_PATH_* it writes to `place` the number of the segment that leads
 * to nothing, counted from 1. With the statuses of a block that is the offset, as above. With OK and
 * TEXT_UTF8 nothing is written to it.
 *
 * Statuses: OK, NO_MEMORY, TOO_DEEP, TOO_MANY, KOMBILAD_BLOCK_*, KOMBILAD_LINK_*, KOMBILAD_PATH_*,
 * KOMBILAD_TEXT_UTF8. */
uint32_t kombilad_block_at(const uint8_t *block, size_t len, size_t levels, size_t values,
                           const uint8_t *path, size_t path_len, kombilad_span *value, size_t *rest,
                           size_t *place);

/* ---- The values of a block: a tape
 *
 * A tape is an array with an entry for each value of a block and for each key of its maps, in the
 * order of its bytes. The content isn't copied: the entry has its offset in the block.
 *
 *     kind                       len                               value
 *     NULL, FALSE, TRUE          0                                 0
 *     UNSIGNED                   0                                 the integer
 *     NEGATIVE                   0                                 n, for the integer -1 - n
 *     FLOAT                      8                                 the offset of its eight bytes,
 *                                                                  the highest first (IEEE 754,
 *                                                                  binary64)
 *     STRING, BYTES, LINK, KEY   number of bytes: for a string or  their offset
 *                                a key of UTF-8, for a link of
 *                                its CID
 *     LIST, MAP                  number of entries that it spans,  number of items or pairs
 *                                with its own
 *
 * The entry of a list is followed by those of its items, and the entry of a map by the key and the
 * value of each pair. No entry marks an end: after a list or a map at index i the tape continues at
 * index i + entries[i].len, and after any other entry at i + 1. The first entry is the value of the
 * block. A block of n bytes has at most n entries.
 */

/* The kind of an entry. A float is never NaN or an infinity. */
enum kombilad_kind {
    KOMBILAD_KIND_NULL = 0,
    KOMBILAD_KIND_FALSE = 1,
    KOMBILAD_KIND_TRUE = 2,
    KOMBILAD_KIND_UNSIGNED = 3,
    KOMBILAD_KIND_NEGATIVE = 4,
    KOMBILAD_KIND_FLOAT = 5,
    KOMBILAD_KIND_STRING = 6,
    KOMBILAD_KIND_BYTES = 7,
    KOMBILAD_KIND_LINK = 8,
    KOMBILAD_KIND_LIST = 9,
    KOMBILAD_KIND_MAP = 10,
    KOMBILAD_KIND_KEY = 11
};

/* A value or a key. `kind` is one of those above. */
typedef struct kombilad_entry {
    uint32_t kind;
    uint32_t len;
    uint64_t value;
} kombilad_entry;

/* Writes the tape of the block. `entries_len` and `needed` count entries. It allocates up to 48
 * bytes for each of them, at least 512, and two for each byte of the block up to 16 KiB. If the
 * block nests more than 32 levels deep, has an empty key, keys out of order or an error, it also
 * allocates about 80 for each open list or map, and its open keys. It returns TOO_LONG if a string,
 * a byte string or a key has 2^32 bytes or more, or a list or a map spans 2^32 entries or more.
 *
 * Statuses: OK, TOO_SHORT, NO_MEMORY, TOO_DEEP, TOO_MANY, TOO_LONG, KOMBILAD_BLOCK_*,
 * KOMBILAD_LINK_*. */
uint32_t kombilad_tape(const uint8_t *block, size_t len, size_t levels, size_t values,
                       kombilad_entry *entries, size_t entries_len, size_t *needed, size_t *offset);

/* Writes the canonical block of the value that a tape describes. The offsets of its entries are
 * offsets in `data`, where the content may be in any order, with gaps, and shared by entries. The
 * pairs of a map may come in any order: the block has them sorted by their keys, by length and then
 * by bytes. So for the tape of a block and that block it writes the result of
 * kombilad_block_canonicalize. It allocates the block, at first the length of the data and four
 * bytes for each entry. If the pairs of a map are not in the order of the block, it also allocates
 * about 32 bytes for each pair.
 *
 * With KOMBILAD_TAPE_* and KOMBILAD_LINK_* it writes to `at` the index of the first invalid entry,
 * or the index at which one is missing. It checks the entries in order; for each, first the span,
 * and the keys of a map, and then the entry itself. With NO_MEMORY `at` may be any index up to
 * `entries_len`. With OK and TOO_SHORT nothing is written to it.
 *
 * Statuses: OK, TOO_SHORT, NO_MEMORY, KOMBILAD_TAPE_*, KOMBILAD_LINK_*. */
uint32_t kombilad_encode(const kombilad_entry *entries, size_t entries_len, const uint8_t *data,
                         size_t data_len, uint8_t *out, size_t out_len, size_t *needed, size_t *at);

/* ---- Blocks as DAG-JSON
 *
 * A link is the object {"/":"bafy.."}, with the text of the CID. Bytes are the object
 * {"/":{"bytes":"aGk"}}, with base64 without padding (RFC 4648, section 4). All other values are as
 * in JSON (RFC 8259).
 */

/* Writes the DAG-JSON of the block. The text is UTF-8 without blanks and without a zero byte at the
 * end. The keys of an object are in the order of their bytes. A float has a point or an exponent,
 * and an integer does not. It allocates the text, and memory in proportion to the lists and maps of
 * the block and to the entries of its open maps.
 *
 * The limits and the offsets are those of a block, as above. A map has no text if its first key in
 * byte order is "/" with a string as its value, or with a map whose first key is "bytes" with a
 * string as its value. Then the call returns KOMBILAD_JSON_RESERVED_MAP, and writes to `offset` the
 * first byte of the map.
 *
 * Statuses: OK, TOO_SHORT, NO_MEMORY, TOO_DEEP, TOO_MANY, KOMBILAD_BLOCK_*, KOMBILAD_LINK_*,
 * KOMBILAD_JSON_RESERVED_MAP. */
uint32_t kombilad_block_to_json(const uint8_t *block, size_t len, size_t levels, size_t values,
                                uint8_t *text, size_t text_len, size_t *needed, size_t *offset);

/* Writes the canonical block of a text in DAG-JSON. The text may have blanks, and the keys of an
 * object in any order. A number with a fraction or an exponent is a float of 64 bits. The limits
 * count the arrays, objects and values of the text: a link is two values, one level deep, and bytes
 * are three values, two levels deep. It allocates the tree of the text, its tape and the block. It
 * returns TOO_LONG if a string, bytes or a key have 2^32 bytes or more, or if a list or a map spans
 * 2^32 entries or more of a tape.
 *
 * With TOO_DEEP, TOO_MANY and KOMBILAD_JSON_* it writes to `offset` the first byte of the token at
 * fault, or the length of the text if it ends too early. For KOMBILAD_JSON_UTF8 that is the first
 * byte that is not part of a character. For JSON_LINK, JSON_BYTES and JSON_RESERVED it is the brace
 * that closes the object. With NO_MEMORY `offset` may be any number up to the length. With OK,
 * TOO_SHORT and TOO_LONG nothing is written to it.
 *
 * Statuses: OK, TOO_SHORT, NO_MEMORY, TOO_DEEP, TOO_MANY, TOO_LONG, KOMBILAD_JSON_* except
 * RESERVED_MAP. */
uint32_t kombilad_block_of_json(const uint8_t *text, size_t len, size_t levels, size_t values,
                                uint8_t *out, size_t out_len, size_t *needed, size_t *offset);

/* ---- Nodes of DAG-PB
 *
 * The tape of a node has an entry for each part. For each link, in the order of the block, it has a
 * LINK with the position of its CID, then a STRING with its name and an UNSIGNED with its size
 * (`Tsize`), if the link has them. The last entry is a BYTES with the data, if the node has data,
 * wherever they are in the block. A missing name differs from an empty one, and missing data from
 * data of no bytes.
 */

/* Writes the tape of the node. `entries_len` and `needed` count entries. It allocates up to about a
 * hundred bytes for each link. It returns TOO_LONG if a name or the data have 2^32 bytes or more.
 * With KOMBILAD_PB_* and KOMBILAD_LINK_* it writes to `offset` the first byte of the invalid field:
 * a field of a link if its content is invalid, and otherwise a field of the node. With NO_MEMORY it
 * writes 0. With OK, TOO_SHORT and TOO_LONG nothing is written to it.
 *
 * Statuses: OK, TOO_SHORT, NO_MEMORY, TOO_LONG, KOMBILAD_PB_*, KOMBILAD_LINK_*. */
uint32_t kombilad_pb_tape(const uint8_t *block, size_t len, kombilad_entry *entries,
                          size_t entries_len, size_t *needed, size_t *offset);

/* ---- CARs
 *
 * Versions 1 and 2 are read. kombilad_verify compares a block with its CID. A caller keeps the bytes
 * of the CAR from the byte `place.at` on, as many as it has read, and reads more if a call returns
 * KOMBILAD_CAR_MORE:
 *
 *     while ((status = kombilad_car_next_part(bytes, len, is_all, limit, &place, &cid, &block, &more,
 *                                             &offset)) != KOMBILAD_CAR_DONE) {
 *         if (status == KOMBILAD_CAR_MORE) {
 *             read_on(more); // at least that many bytes; sets `is_all` at the end of the CAR
 *         } else if (status == KOMBILAD_OK) {
 *             use(bytes + cid.offset, cid.len, bytes + block.offset, block.len);
 *             drop_first(block.offset + block.len);
 *         } else {
 *             return report(status, offset);
 *         }
 *     }
 *
 * For a CAR in memory `is_all` is 1, and no call returns KOMBILAD_CAR_MORE. Each call returns what it
 * returns for all of the CAR's bytes, or KOMBILAD_CAR_MORE.
 */

/* A limit for the header of an untrusted CAR. */
#define KOMBILAD_CAR_LIMIT ((size_t)8 << 20)

/* The place of the next section of a CAR. */
typedef struct kombilad_car_place {
    uint64_t version; /* 1 or 2 */
    uint64_t at;      /* the byte of the CAR at which the section begins */
    /* The byte at which the last section ends, by the header of version 2. For version 1 it is
     * UINT64_MAX, since the sections end with the CAR. */
    uint64_t end;
} kombilad_car_place;

/* Reads the header of a CAR, of at most `limit` bytes, and writes the roots. The CAR begins with
 * these bytes. `is_all` is 0 if other bytes may follow. `roots_len` and `needed` count records. With
 * OK and TOO_SHORT it writes to `place` where the first section is. With KOMBILAD_CAR_MORE it writes
 * to `more` how many bytes the header or the padding of version 2 needs at least, and nothing else.
 * Otherwise it writes to `offset` the byte at fault; if the block of a header is invalid, its first
 * byte. It allocates up to about a hundred bytes for each byte of the header.
 *
 * Statuses: OK, TOO_SHORT, NO_MEMORY, TOO_DEEP, KOMBILAD_CAR_* except DONE, KOMBILAD_BLOCK_*,
 * KOMBILAD_LINK_*; KOMBILAD_CAR_MORE only if `is_all` is 0. */
uint32_t kombilad_car_open_part(const uint8_t *bytes, size_t len, uint32_t is_all, size_t limit,
                                kombilad_car_place *place, kombilad_cid *roots, size_t roots_len,
                                size_t *needed, uint64_t *more, uint64_t *offset);

/* Reads the section at `place` of a CAR, whose bytes from the byte `place->at` on begin with these.
 * `is_all` is 0 if other bytes of the CAR may follow. The CID and the block have at most `limit`
 * bytes. With OK it writes the positions of the CID and the block in `bytes`, and moves `place` to
 * the next section. With KOMBILAD_CAR_MORE it writes to `more` how many bytes the section needs at
 * least. With KOMBILAD_CAR_DONE it writes nothing. Otherwise it writes to `offset` the byte of the
 * CAR at fault, which is the end of the bytes with KOMBILAD_CAR_SHORT_PAYLOAD. Copies nothing, and
 * doesn't allocate. `place` may have any numbers.
 *
 * Statuses: OK, KOMBILAD_CAR_DONE, UNEXPECTED_END, LENGTH_NOT_SHORTEST, LENGTH_TOO_LARGE, EMPTY,
 * TOO_LONG and SHORT_PAYLOAD, KOMBILAD_CID_*; KOMBILAD_CAR_MORE only if `is_all` is 0. */
uint32_t kombilad_car_next_part(const uint8_t *bytes, size_t len, uint32_t is_all, size_t limit,
                                kombilad_car_place *place, kombilad_span *cid, kombilad_span *block,
                                uint64_t *more, uint64_t *offset);

/* Compares the digest of a block with that of a CID. The hash function may be SHA2-256, SHA2-512,
 * BLAKE2b-256, or identity, whose digest is the block itself. Does not allocate.
 *
 * Statuses: OK, KOMBILAD_UNKNOWN_HASH, KOMBILAD_WRONG_DIGEST, KOMBILAD_CID_*. */
uint32_t kombilad_verify(const uint8_t *cid, size_t cid_len, const uint8_t *block, size_t len);

/* Writes the header of a CAR of version 1 with these roots. The sections come after it, in any order.
 * If a root isn't a CID, it writes the number of that root to `place`, counted from 0. It allocates
 * up to about a thousand bytes for each root.
 *
 * Statuses: OK, TOO_SHORT, NO_MEMORY, KOMBILAD_CID_*. */
uint32_t kombilad_car_header(const kombilad_cid *roots, size_t roots_len, uint8_t *bytes,
                             size_t bytes_len, size_t *needed, size_t *place);

/* The length of what a section has before its block, at most. */
#define KOMBILAD_CAR_SECTION ((size_t)96)

/* Writes what a section of a CAR has before a block of `block_len` bytes: the length of the section
 * and the CID. The block follows. It isn't compared with the CID. Does not allocate.
 *
 * Statuses: OK, TOO_SHORT, KOMBILAD_CID_*, KOMBILAD_CAR_LENGTH_TOO_LARGE if the section has 2^64
 * bytes or more. */
uint32_t kombilad_car_section(const uint8_t *cid, size_t cid_len, uint64_t block_len,
                              uint8_t *bytes, size_t bytes_len, size_t *needed);

/* The CID of a block in the payload of a CAR, and the number of bytes of the payload before its
 * section. */
typedef struct kombilad_car_row {
    kombilad_cid cid;
    uint64_t offset;
} kombilad_car_row;

/* The length of what a CAR of version 2 has before its payload. */
#define KOMBILAD_CAR_FRONT ((size_t)51)

/* Writes what a CAR of version 2 has around its payload, which is a CAR of version 1 of
 * `payload_len` bytes. The first KOMBILAD_CAR_FRONT bytes stand before the payload: the pragma and
 * the header. The other bytes stand after it: an index of the blocks in `rows`, in the format
 * MultihashIndexSorted. The rows may have any order. A block whose CID has an empty digest gets no
 * entry. If a row has no CID, it writes the number of that row to `place`, counted from 0. It
 * allocates about 80 bytes for each row, up to twice as many for rows of several hash functions, and
 * what it writes.
 *
 * Statuses: OK, TOO_SHORT, NO_MEMORY, KOMBILAD_CID_*, KOMBILAD_CAR_LENGTH_TOO_LARGE if the index
 * would begin at byte 2^64 or later. */
uint32_t kombilad_car_index(const kombilad_car_row *rows, size_t rows_len, uint64_t payload_len,
                            uint8_t *bytes, size_t bytes_len, size_t *needed, size_t *place);

/* ---- Walks over files and folders of UnixFS
 *
 * Nobody has to trust the source of the blocks: each block is verified before it is read.
 *
 *     kombilad_walk walk = {0};
 *     status = kombilad_file_new(root, root_len, 0, UINT64_MAX, UINT64_MAX, KOMBILAD_FILE_BLOCKS,
 *                                KOMBILAD_FILE_WAITING, KOMBILAD_FILE_LEVELS, &walk);
 *     while (status == KOMBILAD_OK) {
 *         status = kombilad_walk_wanted(&walk, &cid);
 *         if (status != KOMBILAD_OK) break;
 *         get_block(&cid, block, &len); // from anywhere; `bytes` has room for as many bytes
 *         status = kombilad_file_take(&walk, block, len, bytes, len, &count, &offset);
 *         if (status == KOMBILAD_OK) write(1, bytes, count);
 *     }
 *     kombilad_walk_free(&walk); // `status` is KOMBILAD_WALK_DONE at the end of the file
 */

/* A walk, or none if all its bytes are zero. A caller sets them to zero before the first call.
 * After that only the calls below may read or write them. A kombilad_walk may be moved, but only
 * one copy of it may be used, by one call at a time. */
typedef struct kombilad_walk {
    uint64_t is_open;
    uint64_t walk;
} kombilad_walk;

/* Writes the CID of the block that the walk wants next. Does not allocate.
 *
 * Statuses: OK, KOMBILAD_WALK_DONE, KOMBILAD_WALK_CLOSED. */
uint32_t kombilad_walk_wanted(kombilad_walk *walk, kombilad_cid *cid);

/* Frees the walk, if the kombilad_walk has one. It has none after that. */
void kombilad_walk_free(kombilad_walk *walk);

/* ---- Files of UnixFS
 *
 * A walk over the blocks of a file, in the order of its bytes. Each size in a block is compared with
 * the number of bytes.
 */

/* Limits for untrusted files. A file of 1 TiB in chunks of 256 KiB, with 174 links in a block, has
 * about 4,200,000 blocks in four levels, and fewer than 1,000 of them wait. */
#define KOMBILAD_FILE_BLOCKS ((uint64_t)1 << 24)
#define KOMBILAD_FILE_WAITING ((size_t)1 << 18)
#define KOMBILAD_FILE_LEVELS ((size_t)64)

/* Begins a walk over the file of a CID, and frees the walk that the kombilad_walk had. The walk is
 * over at most `length` bytes from the byte `start` on: with 0 and UINT64_MAX over the whole file.
 * Blocks before and after them are neither wanted nor verified. If the file has no more bytes than
 * `start`, there are none. With an error the kombilad_walk is as before. The limits are on:
 * - `max_bytes`: the bytes in the range.
 * - `max_blocks`: the blocks. A block that is linked twice counts twice.
 * - `max_waiting`: the blocks that wait to be read while another is read. Each takes about 100
 *   bytes of memory.
 * - `max_levels`: the levels of blocks below the root.
 *
 * Statuses: OK, NO_MEMORY, KOMBILAD_CID_*. */
uint32_t kombilad_file_new(const uint8_t *root, size_t root_len, uint64_t start, uint64_t length,
                           uint64_t max_bytes, uint64_t max_blocks, size_t max_waiting,
                           size_t max_levels, kombilad_walk *walk);

/* Takes the block that the walk wants, and writes the bytes of the file in it, which come next in
 * the range. A block above others usually has none. With OK their number is written to `needed`. The
 * buffer `bytes` needs as much room as the block. If it is shorter, the call writes the length of
 * the block to `needed`, and returns TOO_SHORT. It allocates up to about 400 bytes for each link
 * of the block.
 *
 * With any status except OK the walk is as before, and still wants this block. With KOMBILAD_PB_*
 * and KOMBILAD_LINK_* the call writes to `offset` the first byte of the invalid field of the block,
 * and with KOMBILAD_UNIXFS_* that of the node's data. With OK, TOO_SHORT and KOMBILAD_WALK_CLOSED
 * nothing is written to it, and with other errors 0.
 *
 * Statuses: OK, TOO_SHORT, NO_MEMORY, KOMBILAD_UNKNOWN_HASH, KOMBILAD_WRONG_DIGEST,
 * KOMBILAD_WALK_*, KOMBILAD_FILE_*, KOMBILAD_PB_*, KOMBILAD_LINK_*, KOMBILAD_UNIXFS_*. */
uint32_t kombilad_file_take(kombilad_walk *walk, const uint8_t *block, size_t len, uint8_t *bytes,
                            size_t bytes_len, size_t *needed, size_t *offset);

/* ---- Folders of UnixFS */

/* An entry of a folder. */
typedef struct kombilad_folder_entry {
    kombilad_cid cid;
    kombilad_span name; /* in `names`; UTF-8, not "", "." or "..", without "/" and zero bytes */
    /* The size that the link states of its block and all blocks below it. Nothing checks it. It is 0
     * if the link states none. */
    uint64_t tsize;
    uint64_t has_tsize; /* 1 if the link states a size, and otherwise 0 */
} kombilad_folder_entry;

/* The number of entries that a block of so many bytes has at most. */
#define KOMBILAD_FOLDER_ENTRIES(len) ((size_t)(len) / 6)

/* Begins a walk over the entries of the folder of a CID, plain or sharded, and frees the walk that
 * the kombilad_walk had. A plain folder is one block. A sharded one is listed shard by shard: first
 * the entries that a shard itself has, and then those of the shards below it, in the order of the
 * slots. With an error the kombilad_walk is as before.
 *
 * Statuses: OK, NO_MEMORY, KOMBILAD_CID_*. */
uint32_t kombilad_folder_new(const uint8_t *root, size_t root_len, kombilad_walk *walk);

/* Takes the block that the walk wants, and writes the entries in it, with their names one after the
 * other in `names`. With OK their number is written to `needed`. `entries_len` and `needed` count
 * entries. There has to be room for KOMBILAD_FOLDER_ENTRIES(len) entries, and for as many bytes of
 * names as the block has. If there is less, the call writes KOMBILAD_FOLDER_ENTRIES(len) to `needed`,
 * and returns TOO_SHORT. It allocates up to about 500 bytes for each link of the block.
 *
 * With any status except OK the walk is as before, and still wants this block. With KOMBILAD_PB_*
 * and KOMBILAD_LINK_* the call writes to `place` the first byte of the invalid field of the block,
 * and with KOMBILAD_UNIXFS_* that of the node's data. With KOMBILAD_FOLDER_INVALID_NAME, NAME_ORDER,
 * INVALID_SLOT, SLOT_ORDER and WRONG_SLOT it writes the number of the link, counted from 0. With OK,
 * TOO_SHORT and KOMBILAD_WALK_CLOSED nothing is written to it, and with other errors 0.
 *
 * Statuses: OK, TOO_SHORT, NO_MEMORY, KOMBILAD_UNKNOWN_HASH, KOMBILAD_WRONG_DIGEST,
 * KOMBILAD_WALK_*, KOMBILAD_FOLDER_* up to TOO_DEEP, KOMBILAD_FILE_NO_DATA, KOMBILAD_PB_*,
 * KOMBILAD_LINK_*, KOMBILAD_UNIXFS_*. */
uint32_t kombilad_folder_take(kombilad_walk *walk, const uint8_t *block, size_t len,
                              kombilad_folder_entry *entries, size_t entries_len, uint8_t *names,
                              size_t names_len, size_t *needed, size_t *place);

/* Looks for the entry with this name in the folder of a CID, plain or sharded. It keeps nothing: each
 * call gets all blocks from the folder's own on, in the order in which the calls before asked for
 * them, at most eight. They are at the places `blocks` of `bytes`. The first call gets none.
 *
 * With OK it writes the CID of the entry to `cid`, and with KOMBILAD_FOLDER_MORE that of the block
 * that it needs next. The first of these is the CID of the folder. Each block is verified. A name
 * that no entry can have, such as "..", is looked for like any other, and missing. A name that isn't
 * UTF-8 has the status KOMBILAD_TEXT_UTF8. It allocates up to about 500 bytes for each link of a
 * block. With an error of a block it writes to `place` what kombilad_folder_take does.
 *
 * Statuses: OK, NO_MEMORY, KOMBILAD_FOLDER_*, KOMBILAD_CID_*, KOMBILAD_TEXT_UTF8,
 * KOMBILAD_UNKNOWN_HASH, KOMBILAD_WRONG_DIGEST, KOMBILAD_FILE_NO_DATA, KOMBILAD_PB_*,
 * KOMBILAD_LINK_*, KOMBILAD_UNIXFS_*. */
uint32_t kombilad_folder_lookup(const uint8_t *folder, size_t folder_len, const uint8_t *name,
                                size_t name_len, const uint8_t *bytes, size_t bytes_len,
                                const kombilad_span *blocks, size_t blocks_len, kombilad_cid *cid,
                                size_t *place);

/* ---- Nodes of UnixFS */

/* What a node stands for. */
enum kombilad_node_kind {
    KOMBILAD_NODE_RAW = 0, /* bytes of a file: a raw block, or a leaf of an old writer */
    KOMBILAD_NODE_FOLDER = 1,
    KOMBILAD_NODE_FILE = 2,
    KOMBILAD_NODE_METADATA = 3,
    KOMBILAD_NODE_SYMLINK = 4,
    KOMBILAD_NODE_SHARD = 5 /* a sharded folder, or a part of one */
};

/* The fields that a node may have. */
enum kombilad_node_field { KOMBILAD_NODE_SIZE = 1, KOMBILAD_NODE_MODE = 2, KOMBILAD_NODE_TIME = 4 };

/* What a block says of a file, a folder or a symbolic link. A field that it doesn't have is 0. */
typedef struct kombilad_node {
    uint32_t kind;   /* one of enum kombilad_node_kind */
    uint32_t fields; /* the sum of those of enum kombilad_node_field that it has */
    uint64_t size;   /* bytes of the file, by the node; kombilad_file_take compares them */
    int64_t seconds; /* when the content was last changed, since the beginning of 1970 in UTC */
    uint32_t nanoseconds; /* after these seconds, at most 999,999,999 */
    uint32_t mode;        /* permissions, as chmod has them in its low twelve bits */
} kombilad_node;

/* Verifies the block of a CID, and writes what it says of a file, a folder or a symbolic link. A raw
 * block is a file of its bytes. The target of a symbolic link goes to the buffer `target`, and its
 * length to `needed`; for others that is 0. With OK and TOO_SHORT the node is written. A file has a
 * size also if its node states none, unless it is 2^64 or more: that of its bytes and of its links.
 * The call allocates up to about 100 bytes for each link of the block.
 *
 * With KOMBILAD_PB_* and KOMBILAD_LINK_* it writes to `place` the first byte of the invalid field of
 * the block, with KOMBILAD_UNIXFS_* that of the node's data, and with KOMBILAD_FILE_NO_DATA and
 * NO_MEMORY 0. Otherwise nothing is written to it.
 *
 * Statuses: OK, TOO_SHORT, NO_MEMORY, KOMBILAD_CID_*, KOMBILAD_UNKNOWN_HASH, KOMBILAD_WRONG_DIGEST,
 * KOMBILAD_FILE_CODEC, KOMBILAD_FILE_NO_DATA, KOMBILAD_PB_*, KOMBILAD_LINK_*, KOMBILAD_UNIXFS_*. */
uint32_t kombilad_unixfs_node(const uint8_t *cid, size_t cid_len, const uint8_t *block, size_t len,
                              kombilad_node *node, uint8_t *target, size_t target_len,
                              size_t *needed, size_t *place);

/* Returns 1 if a symbolic link with this target leads to nothing outside of a folder, if it is in a
 * folder `depth` levels below that one, and none of the folders between them is a link. Otherwise it
 * returns 0. That is so if the target is UTF-8 and relative, and has ".." only before all names, at
 * most `depth` times. Does not allocate. */
uint32_t kombilad_symlink_stays_inside(const uint8_t *target, size_t len, size_t depth);

/* ---- Files, folders and symbolic links of UnixFS, packed
 *
 * The blocks are those of `ipfs add`: the balanced layout, and SHA2-256 digests.
 *
 *     kombilad_packing packing = {0};
 *     kombilad_node plain = {0};
 *     status = kombilad_pack_file(0, 0, KOMBILAD_PACK_LINKS, &packing);
 *     while (status == KOMBILAD_OK) {
 *         len = read(0, chunk, KOMBILAD_PACK_CHUNK); // all but the last have KOMBILAD_PACK_CHUNK
 *         is_last = ...;
 *         status = is_last ? kombilad_pack_last_chunk(&packing, chunk, len, &plain)
 *                          : kombilad_pack_chunk(&packing, chunk, len);
 *         if (status != KOMBILAD_OK) break;
 *         while ((status = kombilad_pack_take(&packing, &row, block, sizeof block, &len))
 *                == KOMBILAD_OK)
 *             put_block(&row.cid, block, len); // the last block of a file is its root
 *         if (is_last || status != KOMBILAD_WALK_DONE) break;
 *         status = KOMBILAD_OK;
 *     }
 *     kombilad_pack_free(&packing); // `status` is KOMBILAD_WALK_DONE at the end of the file
 */

/* What is packed, or nothing if all its bytes are zero. A caller sets them to zero before the first
 * call. After that only the calls below may read or write them. A kombilad_packing may be moved, but
 * only one copy of it may be used, by one call at a time. */
typedef struct kombilad_packing {
    uint64_t is_open;
    uint64_t packing;
} kombilad_packing;

/* A block that was packed. */
typedef struct kombilad_packed_block {
    kombilad_cid cid;
    /* How many bytes of the file are in the block and in all blocks below it. Blocks of folders and
     * symbolic links have 0. */
    uint64_t size;
    uint64_t total; /* the bytes of the block and of all blocks below it: a link's `tsize` */
} kombilad_packed_block;

/* The layout of `ipfs add`: the bytes of a chunk, the links of a block, and the bytes of names and
 * CIDs above which a folder is sharded. A block of a file with such chunks has fewer bytes than
 * KOMBILAD_PACK_BLOCK. */
#define KOMBILAD_PACK_CHUNK ((size_t)1 << 18)
#define KOMBILAD_PACK_LINKS ((size_t)174)
#define KOMBILAD_PACK_SHARDED_ABOVE ((uint64_t)1 << 18)
#define KOMBILAD_PACK_BLOCK ((size_t)(1 << 18) + 64)

/* Begins a file, and frees what the kombilad_packing had. Its CIDs have this version: 0 or 1. With
 * `raw_leaves` other than 0 a chunk is a raw block, whose CID has version 1, unless it is the only
 * chunk of a file with a mode or a time. A block above others has at most `links` links, at least 2.
 * With an error the kombilad_packing is as before.
 *
 * Statuses: OK, NO_MEMORY, KOMBILAD_CID_UNKNOWN_VERSION, KOMBILAD_PACK_WIDTH. */
uint32_t kombilad_pack_file(uint32_t version, uint32_t raw_leaves, size_t links,
                            kombilad_packing *packing);

/* Adds a chunk that isn't the last to the file. The blocks that are then complete wait to be taken:
 * the block of the chunk, and then each block after those to which it has links. Before that, all
 * blocks of the calls before have to be taken; they are freed then. With any status except OK the file is as before. It
 * allocates the blocks, and up to about 300 bytes for each link in them.
 *
 * Statuses: OK, NO_MEMORY, KOMBILAD_WALK_CLOSED if no file was begun or it has its last chunk,
 * KOMBILAD_PACK_WAITING, KOMBILAD_PACK_TOO_LARGE. */
uint32_t kombilad_pack_chunk(kombilad_packing *packing, const uint8_t *chunk, size_t len);

/* Adds the last chunk of the file, which may be empty. The blocks that are then complete wait to be
 * taken, and the last of them is the root. The root has the mode and the time that `attributes` has
 * by its `fields`; the `kind` and the `size` are not read. With OK or an error of the chunk the file
 * takes no other chunk. With KOMBILAD_WALK_CLOSED and KOMBILAD_PACK_WAITING all is as before.
 *
 * Statuses: those of kombilad_pack_chunk, KOMBILAD_PACK_NANOSECONDS. */
uint32_t kombilad_pack_last_chunk(kombilad_packing *packing, const uint8_t *chunk, size_t len,
                                  const kombilad_node *attributes);

/* Packs a symbolic link with this target, and frees what the kombilad_packing had. Its block waits
 * to be taken. The attributes are those of kombilad_pack_last_chunk. With an error the
 * kombilad_packing is as before.
 *
 * Statuses: OK, NO_MEMORY, KOMBILAD_CID_UNKNOWN_VERSION, KOMBILAD_TEXT_UTF8, KOMBILAD_PACK_TOO_LARGE,
 * KOMBILAD_PACK_NANOSECONDS. */
uint32_t kombilad_pack_symlink(uint32_t version, const kombilad_node *attributes,
                               const uint8_t *target, size_t len, kombilad_packing *packing);

/* Packs a folder of these entries, and frees what the kombilad_packing had. The names are at their
 * places in `names`, as far as it has bytes, and ascend by their bytes. The `tsize` of an entry is
 * the `total` of its block, and is written whatever `has_tsize` is.
 * If the names and the CIDs have more than `sharded_above` bytes altogether, the folder is sharded,
 * and otherwise plain. Its blocks wait to be taken, the root first, and each shard before those below
 * it. The attributes are those of kombilad_pack_last_chunk. With an error the kombilad_packing is as
 * before. It allocates up to about 1,000 bytes for each entry, and the blocks.
 *
 * If an entry is at fault, it writes the number of the entry to `place`, counted from 0. That is so
 * with KOMBILAD_CID_* except UNKNOWN_VERSION of `version`, KOMBILAD_TEXT_UTF8,
 * KOMBILAD_PACK_INVALID_NAME and KOMBILAD_PACK_NAME_ORDER. With other errors it may write 0.
 *
 * Statuses: OK, NO_MEMORY, KOMBILAD_CID_*, KOMBILAD_TEXT_UTF8, KOMBILAD_PACK_* except WIDTH and
 * WAITING. */
uint32_t kombilad_pack_folder(uint32_t version, const kombilad_node *attributes,
                              uint64_t sharded_above, const kombilad_folder_entry *entries,
                              size_t entries_len, const uint8_t *names, size_t names_len,
                              kombilad_packing *packing, size_t *place);

/* Takes the next block that waits, and writes its row and its bytes. With OK and TOO_SHORT it writes
 * the length of the block to `needed`. With any status except OK the block still waits. Does not
 * allocate.
 *
 * Statuses: OK, TOO_SHORT, KOMBILAD_WALK_DONE if no block waits, KOMBILAD_WALK_CLOSED. */
uint32_t kombilad_pack_take(kombilad_packing *packing, kombilad_packed_block *row, uint8_t *bytes,
                            size_t bytes_len, size_t *needed);

/* Frees what the kombilad_packing has, if it has something. It has nothing after that. */
void kombilad_pack_free(kombilad_packing *packing);

/* ---- The library */

/* Returns the version: 65,536 times the major number, plus 256 times the minor, plus the patch. */
uint32_t kombilad_version(void);

#ifdef __cplusplus
}
#endif

#endif
