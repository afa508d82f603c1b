/** The limits on the input of a call. */
export interface Limits {
  /**
   * The maximum depth of nested lists and maps. The default is 1,024, and 2^32 - 1 or more means no
   * limit.
   */
  levels?: number
  /** The maximum number of values. By default there is no limit. */
  values?: number
}

/** An object with contiguous bytes. */
export type Bytes = Uint8Array | ArrayBuffer | ArrayBufferView

/** A value of the IPLD data model. */
export type Value = null | boolean | number | bigint | string | Uint8Array | CID | Value[] | { [key: string]: Value }

/**
 * The name of an error: a status of `kombilad.h` without `KOMBILAD_`, or a name that only this
 * package uses.
 */
export type ErrorCode =
  | 'NO_MEMORY' | 'UNKNOWN_BASE' | 'V0_BASE' | 'TOO_DEEP' | 'TOO_MANY' | 'TOO_LONG' | 'OTHER'
  | 'CID_END' | 'CID_NOT_SHORTEST' | 'CID_VARINT_TOO_LARGE' | 'CID_EXPLICIT_VERSION_0' | 'CID_UNKNOWN_VERSION' | 'CID_DIGEST_TOO_LONG' | 'CID_TRAILING_BYTES'
  | 'TEXT_UNKNOWN_BASE' | 'TEXT_INVALID_LENGTH' | 'TEXT_INVALID_LETTER' | 'TEXT_UNUSED_BITS' | 'TEXT_WRONG_VERSION' | 'TEXT_UTF8'
  | 'BLOCK_END' | 'BLOCK_NOT_SHORTEST' | 'BLOCK_FLOAT' | 'BLOCK_UNSUPPORTED' | 'BLOCK_UTF8' | 'BLOCK_KEY_NOT_TEXT' | 'BLOCK_DUPLICATE_KEY' | 'BLOCK_LINK_BYTES' | 'BLOCK_TRAILING_BYTES'
  | 'PATH_MISSING' | 'PATH_NOT_A_CONTAINER'
  | 'LINK_END' | 'LINK_NOT_SHORTEST' | 'LINK_VARINT_TOO_LARGE' | 'LINK_EXPLICIT_VERSION_0' | 'LINK_UNKNOWN_VERSION' | 'LINK_DIGEST_TOO_LONG' | 'LINK_TRAILING_BYTES'
  | 'CAR_UNEXPECTED_END' | 'CAR_LENGTH_NOT_SHORTEST' | 'CAR_LENGTH_TOO_LARGE' | 'CAR_EMPTY' | 'CAR_TOO_LONG' | 'CAR_NOT_A_HEADER' | 'CAR_PAYLOAD' | 'CAR_SHORT_PAYLOAD' | 'CAR_READ_ONCE'
  | 'PB_END' | 'PB_VARINT_TOO_LARGE' | 'PB_UNKNOWN_FIELD' | 'PB_FIELD_ORDER' | 'PB_NO_HASH' | 'PB_UTF8'
  | 'JSON_UTF8' | 'JSON_SYNTAX' | 'JSON_END' | 'JSON_FLOAT' | 'JSON_INTEGER_RANGE' | 'JSON_DUPLICATE_KEY' | 'JSON_LINK' | 'JSON_BYTES' | 'JSON_RESERVED' | 'JSON_RESERVED_MAP'
  | 'MISSING_BLOCK' | 'MISSING_ENTRY' | 'FILE_CODEC' | 'FILE_NO_DATA' | 'FILE_NOT_FILE' | 'FILE_SIZE_COUNT' | 'FILE_SIZE' | 'FILE_PART_SIZE' | 'FILE_TOO_LARGE' | 'FILE_TOO_MANY_BLOCKS' | 'FILE_TOO_DEEP' | 'FILE_TOO_MANY_PARTS'
  | 'UNIXFS_END' | 'UNIXFS_VARINT_TOO_LARGE' | 'UNIXFS_UNKNOWN_FIELD' | 'UNIXFS_FIELD_ORDER' | 'UNIXFS_NO_TYPE' | 'UNIXFS_UNKNOWN_TYPE' | 'UNIXFS_MODE_TOO_LARGE' | 'UNIXFS_NO_SECONDS' | 'UNIXFS_NANOSECONDS'
  | 'FOLDER_CODEC' | 'FOLDER_NOT_FOLDER' | 'FOLDER_HASH_FUNCTION' | 'FOLDER_FANOUT' | 'FOLDER_INVALID_NAME' | 'FOLDER_NAME_ORDER' | 'FOLDER_INVALID_SLOT' | 'FOLDER_SLOT_ORDER' | 'FOLDER_BIT_FIELD' | 'FOLDER_NOT_SHARD' | 'FOLDER_WRONG_SLOT' | 'FOLDER_TOO_DEEP'
  | 'PACK_WIDTH' | 'PACK_TOO_LARGE' | 'PACK_INVALID_NAME' | 'PACK_NAME_ORDER' | 'PACK_SAME_HASH'
  | 'ENCODE_UNSUPPORTED' | 'ENCODE_NUMBER' | 'ENCODE_STRING' | 'ENCODE_TOO_DEEP' | 'WRONG_VERSION' | 'INPUT' | 'NO_TAPE' | 'NOT_STARTED' | 'TRAP'

/** Reports why a call failed. */
export class KombiladError extends Error {
  readonly code: ErrorCode
  /**
   * The byte offset of the error in the input, if the core reports one. For the string of a CID it
   * is the position of the invalid character.
   */
  readonly offset?: number
  /**
   * The CID of the block at which `readFile`, `listFolder`, `resolvePath` or `readNode` stopped.
   * For `MISSING_ENTRY` it is that of the folder.
   */
  readonly cid?: CID
  /** The index of the invalid link in the block of a folder, if the error is in a link. */
  readonly link?: number
  /** The path up to the missing name, for `MISSING_ENTRY`. */
  readonly path?: string
  /** The name of the entry at fault, if `Packer.folder` rejects one. */
  readonly entry?: string
  /** The number of the segment of a path that leads to nothing, counted from 1, for `get`. */
  readonly segment?: number
}

/** A multihash. */
export interface Multihash {
  /** The code of the hash function: a `bigint` if it isn't a safe integer. */
  readonly code: number | bigint
  /** The length of the digest in bytes. */
  readonly size: number
  readonly digest: Uint8Array
  /** The bytes of the multihash. */
  readonly bytes: Uint8Array
}

/** An encoder of `multiformats/bases`. */
export interface BaseEncoder { readonly prefix: string, encode(bytes: Uint8Array): string }
export interface BaseDecoder { readonly prefix?: string, decode(text: string): Uint8Array }

export type BaseName = 'base16' | 'base32' | 'base32upper' | 'base36' | 'base58btc' | 'base64url'

/** The names of the bases of CID strings. */
export const bases: BaseName[]

/**
 * Represents a content identifier. Its properties and methods have the same names as in the class
 * of `multiformats/cid`.
 */
export class CID {
  constructor(version: 0 | 1, code: number | bigint, multihash: { readonly bytes: Uint8Array }, bytes: Uint8Array)
  readonly version: 0 | 1
  /** The code of the codec: a `bigint` if it isn't a safe integer. */
  readonly code: number | bigint
  readonly multihash: Multihash
  readonly bytes: Uint8Array
  readonly '/': Uint8Array
  readonly byteOffset: number
  readonly byteLength: number
  readonly asCID: CID
  /**
   * Returns the CID as a string. The default base is base32 for version 1, and base58btc for
   * version 0.
   */
  toString(base?: BaseName | BaseEncoder): string
  toJSON(): { '/': string }
  link(): CID
  equals(other: unknown): boolean
  toV0(): CID
  toV1(): CID

  static asCID(value: unknown): CID | null
  static create(version: 0 | 1, code: number | bigint, digest: { readonly bytes: Uint8Array }): CID
  static createV0(digest: { readonly bytes: Uint8Array }): CID
  static createV1(code: number | bigint, digest: { readonly bytes: Uint8Array }): CID
  /** Decodes bytes that are exactly one CID. Throws if they are not. */
  static decode(bytes: Bytes): CID
  /** Decodes the CID at the beginning of the bytes. Returns it and the bytes after it. */
  static decodeFirst(bytes: Bytes): [CID, Uint8Array]
  /**
   * Parses a CID from a string in any of the bases, with or without `/ipfs/` before it. `base`
   * decodes strings that begin with its prefix.
   */
  static parse(text: string, base?: BaseDecoder): CID
  /** Returns the CID of a block: version 1, with this codec and the block's SHA2-256 digest. */
  static ofBlock(code: number | bigint, bytes: Bytes): CID
}

/** The hash function SHA2-256, in the form of a hasher of `multiformats/hashes`. */
export const sha256: {
  readonly name: 'sha2-256'
  readonly code: 0x12
  digest(bytes: Bytes): Multihash
  encode(bytes: Bytes): Uint8Array
}

/**
 * Returns whether the block matches the digest of the CID. Returns undefined if the hash function
 * is not SHA2-256, SHA2-512, BLAKE2b-256 or identity.
 */
export function verify(cid: CID, bytes: Bytes): boolean | undefined

/** The name and the code of the DAG-CBOR codec. */
export const name: 'dag-cbor'
export const code: 0x71
/**
 * Encodes a value as a canonical block. Safe integers, from -(2^53 - 1) to 2^53 - 1, and values of
 * type `bigint` become integers. Other numbers become floats.
 */
export function encode(value: unknown): Uint8Array
/** Decodes the value of a block. An integer that isn't a safe integer becomes a `bigint`. */
export function decode<T = any>(bytes: Bytes, limits?: Limits): T
/**
 * Decodes the value at a path in a block, such as `a/b/0`, as `Block.get` of `multiformats`. In a map
 * a segment is a key, and in a list an index. Empty segments are skipped, and the empty path leads to
 * the whole value. If the path continues after a link, `value` is the link, and `remaining` is the
 * rest of the path, which leads on from its block. Otherwise `remaining` is empty. Throws
 * `PATH_MISSING` or `PATH_NOT_A_CONTAINER` if the path leads to nothing.
 */
export function get<T = any>(bytes: Bytes, path: string, limits?: Limits): { value: T, remaining: string }
/** The DAG-CBOR codec as one object: a `BlockCodec` of `multiformats`, for example for Helia. */
export const dagCbor: {
  readonly name: 'dag-cbor'
  readonly code: 0x71
  encode(value: unknown): Uint8Array
  decode<T = any>(bytes: Bytes, limits?: Limits): T
}

/** A link of a DAG-PB node. */
export interface PBLink { Hash: CID, Name?: string, Tsize?: number | bigint }
/** A DAG-PB node, in the form of `@ipld/dag-pb`. */
export interface PBNode { Data?: Uint8Array, Links: PBLink[] }
/** The DAG-PB codec, which only decodes. */
export const dagPb: {
  readonly name: 'dag-pb'
  readonly code: 0x70
  /** Returns the node of a block. A `Tsize` that isn't a safe integer is a `bigint`. */
  decode(bytes: Bytes): PBNode
}

/** Checks that the bytes are exactly one block. Throws if they are not. */
export function check(bytes: Bytes, limits?: Limits): void
/**
 * Returns whether a block has the keys of each map in canonical order. Throws if the bytes are not
 * exactly one block.
 */
export function isCanonical(bytes: Bytes, limits?: Limits): boolean
/** Returns the block with the keys of each map in canonical order, and otherwise unchanged. */
export function canonicalize(bytes: Bytes, limits?: Limits): Uint8Array
/**
 * Returns the DAG-JSON of a block, without whitespace. Throws `JSON_RESERVED_MAP` if the JSON of a
 * map would be read as a link or as bytes.
 */
export function toJSON(bytes: Bytes, limits?: Limits): string
/**
 * Returns the canonical block of DAG-JSON, which is a string or UTF-8 bytes. The offset of an error
 * is a byte of the UTF-8. The limits apply to the arrays, objects and values of the JSON.
 */
export function fromJSON(text: string | Bytes, limits?: Limits): Uint8Array
/** Returns the CIDs of the block's links in the order of its bytes, with duplicates. */
export function links(bytes: Bytes, limits?: Limits): CID[]
/** Returns the offsets and lengths of the CIDs of the block's links, in the order of `links`. */
export function linkPositions(bytes: Bytes, limits?: Limits): Array<{ offset: number, length: number }>
/** Returns the number of links in the block. */
export function countLinks(bytes: Bytes, limits?: Limits): number

/** An entry of a block's tape. */
export interface TapeEntry {
  /**
   * 0 null, 1 false, 2 true, 3 the integer `value`, 4 the integer -1 - `value`, 5 float, 6 string,
   * 7 bytes, 8 link, 9 list, 10 map, 11 key.
   */
  kind: number
  /**
   * The number of bytes of the content. For a list or a map, the number of entries that it spans,
   * including its own.
   */
  length: number
  /** The integer, the offset of the content in the block, or the number of items or pairs. */
  value: number | bigint
}
/** Returns the entries of a block in their order. Each is a value or a key. */
export function tape(bytes: Bytes, limits?: Limits): TapeEntry[]

/**
 * Compiles and starts the core without blocking. Without `init` the first call does this, which
 * takes a few milliseconds. Older browsers refuse that on the main thread of a page
 * (`NOT_STARTED`).
 */
export function init(): Promise<void>
/** Sets the maximum size of the core's memory in bytes. The next call starts the core again. */
export function setMemoryLimit(bytes: number): void

/** A block of a CAR. */
export interface Block { cid: CID, bytes: Uint8Array }

/** A block of a CAR, and its position. */
export interface Section extends Block {
  /** The offset of the section, which begins with its length. */
  begins: number
  /** The offset of the block. */
  offset: number
  /** The number of bytes of the section, including its length. */
  length: number
}

/** Iterates over the blocks of a CAR in their order, and reads them during the iteration. */
export class CarBlockIterator implements AsyncIterable<Section> {
  readonly version: 1 | 2
  static fromBytes(bytes: Bytes): Promise<CarBlockIterator>
  static fromIterable(chunks: AsyncIterable<Uint8Array> | Iterable<Uint8Array>): Promise<CarBlockIterator>
  getRoots(): Promise<CID[]>
  [Symbol.asyncIterator](): AsyncIterator<Section>
}

/** Iterates over the CIDs of a CAR in their order. */
export class CarCIDIterator implements AsyncIterable<CID> {
  readonly version: 1 | 2
  static fromBytes(bytes: Bytes): Promise<CarCIDIterator>
  static fromIterable(chunks: AsyncIterable<Uint8Array> | Iterable<Uint8Array>): Promise<CarCIDIterator>
  getRoots(): Promise<CID[]>
  [Symbol.asyncIterator](): AsyncIterator<CID>
}

/** The position of a block in a CAR, in the form of `@ipld/car`. */
export interface BlockIndex {
  cid: CID
  /** The number of bytes of the section, including its length. */
  length: number
  /** The number of bytes of the block. */
  blockLength: number
  /** The offset of the section, which begins with its length. */
  offset: number
  /** The offset of the block. */
  blockOffset: number
}

/**
 * Returns the block of a CID, or undefined if it is missing, or a promise of these. Nobody has to
 * trust it: each block is verified before it is read. It isn't asked for a block that is in the CID
 * itself, by the hash function identity.
 */
export type GetBlock = (cid: CID) => Bytes | null | undefined | Promise<Bytes | null | undefined>

/** The limits on a file. For Infinity there is no limit. */
export interface FileLimits {
  /** The maximum number of bytes that are read. By default there is no limit. */
  bytes?: number
  /** The maximum number of blocks: 2^24 by default. A block that is linked twice counts twice. */
  blocks?: number
  /** The maximum number of blocks that wait while another is read: 2^18 by default. */
  waiting?: number
  /** The maximum number of levels of blocks below the root: 64 by default. */
  levels?: number
}

/** The limits on a file, and the range of its bytes. */
export interface FileOptions extends FileLimits {
  /** The offset of the first byte: 0 by default. If it is after the end, there are no bytes. */
  start?: number | bigint
  /** The maximum number of bytes. By default, and for Infinity, the range ends with the file. */
  length?: number | bigint
}

/**
 * Iterates over the bytes of a file of UnixFS (IPFS), or of a range of them, in order. Each size in
 * a block is compared with the number of bytes. Blocks before and after the range are not asked
 * for.
 *
 * Throws a `KombiladError` with the `cid` of the block if it is missing (`MISSING_BLOCK`), is not
 * that of its CID or not a part of the file, or exceeds a limit. All bytes before are those of the
 * file. Then the iterator has ended, as it has after an error of `get`, which is passed on. Throws
 * `INPUT` unless `start` and `length` are safe integers of at least 0, or `bigint`s of up to 64
 * bits. Each call has an instance of the core with its own memory.
 *
 *     for await (const piece of readFile(get, cid, { start: 1000, length: 500 })) out.write(piece)
 */
export function readFile(get: GetBlock, cid: CID, options?: FileOptions): AsyncGenerator<Uint8Array, void, void>

/** An entry of a folder. */
export interface FolderEntry {
  /** The name, which is not empty, `.` or `..`, and has no `/` and no zero byte. */
  name: string
  /** The CID of a file, a folder or a symbolic link. */
  cid: CID
  /**
   * The size that the folder states of the blocks of the entry, which nothing checks: a `bigint` if
   * it isn't a safe integer, and undefined if the folder states none.
   */
  tsize: number | bigint | undefined
}

/**
 * Iterates over the entries of a folder of UnixFS, plain or sharded. A plain folder is one block,
 * with its names in the order of their UTF-8. A sharded one is listed block by block, and its names
 * have no order. A block is asked for after the entries of those before it were taken.
 *
 * Throws a `KombiladError` with the `cid` of the block if it is missing (`MISSING_BLOCK`), is not
 * that of its CID, or not a folder. All entries before are those of the folder. Then the iterator
 * has ended, as it has after an error of `get`, which is passed on. Each call has an instance of
 * the core with its own memory. That needs up to 22 times the size of a block.
 *
 *     for await (const { name, cid } of listFolder(get, root)) console.log(name, String(cid))
 */
export function listFolder(get: GetBlock, cid: CID): AsyncGenerator<FolderEntry, void, void>

/**
 * Returns the CID at a path such as `a/b/c` in a folder of UnixFS, plain or sharded. Empty names are
 * skipped, so an empty path leads to the CID itself. Asks only for the blocks that lead there, at
 * most eight for each name. Names are compared exactly, and no folder has `..`. Symbolic links are
 * not followed.
 *
 * Throws a `KombiladError` with the `cid` of the block: `MISSING_ENTRY`, with the `path` up to the
 * missing name, if that folder has no such entry, and otherwise an error of `listFolder`, such as
 * `FOLDER_NOT_FOLDER` at a symbolic link. In a shard only the slot of the name's hash is compared
 * with the name, so `listFolder` can find faults that this does not. Throws `ENCODE_STRING` if a
 * name has a surrogate that has no partner.
 *
 *     const cid = await resolvePath(get, root, 'photos/2026/cat.jpg')
 */
export function resolvePath(get: GetBlock, cid: CID, path: string): Promise<CID>

/** What a block says of a file, a folder or a symbolic link. What it doesn't state is undefined. */
export interface UnixFSNode {
  /** For the root of a sharded folder, and for each other part of it, the kind is `shard`. */
  kind: 'raw' | 'file' | 'folder' | 'shard' | 'symlink' | 'metadata'
  /**
   * The number of bytes of a file, by the block, with which `readFile` compares it. It is undefined
   * for other kinds, and if it is 2^64 or more.
   */
  size: number | bigint | undefined
  /** The permissions, in the low twelve bits. */
  mode: number | undefined
  /**
   * The time of the last change: the seconds since the beginning of 1970 in UTC, and up to
   * 999,999,999 nanoseconds after them. The seconds are a `bigint` if they aren't a safe integer.
   */
  mtime: { seconds: number | bigint, nanoseconds: number } | undefined
  /** The target of a symbolic link, which nothing checks. It may be no UTF-8. */
  target: Uint8Array | undefined
}

/**
 * Verifies the block of a CID, and returns what it says of a file, a folder or a symbolic link. A
 * block of the codec raw is a file of its bytes.
 *
 * Throws a `KombiladError` with the `cid` if the block is not that of the CID, or not a node of
 * UnixFS.
 *
 *     if (readNode(cid, await get(cid)).kind === 'symlink') console.log('a link')
 */
export function readNode(cid: CID, block: Bytes): UnixFSNode

/** Stores a block that was packed. A promise that it returns is awaited before the next block. */
export type PutBlock = (cid: CID, block: Uint8Array) => unknown

/** Where a `Packer` puts its blocks, and how it packs. The default is the layout of `ipfs add`. */
export interface PackOptions {
  put: PutBlock
  /** The version of the CIDs: 0 by default. */
  version?: 0 | 1
  /** Whether a chunk of a file is a raw block, whose CID has version 1: false by default. */
  rawLeaves?: boolean
  /** The bytes of each chunk of a file except the last: 262,144 by default, 67,108,864 at most. */
  chunkSize?: number | bigint
  /** The maximum number of links in a block of a file: 174 by default, 2 at least. */
  links?: number | bigint
  /**
   * The bytes of names and CIDs above which a folder is sharded: 262,144 by default. For Infinity
   * no folder is.
   */
  shardedAbove?: number | bigint
}

/** The permissions and the time of what is packed, as `readNode` returns them. */
export interface PackAttributes {
  /** The permissions: 32 bits, as `chmod` has them in the low twelve. */
  mode?: number | bigint
  /** The time of the last change, in seconds since the beginning of 1970 in UTC. */
  mtime?: { seconds: number | bigint, nanoseconds?: number | bigint }
}

/** A file, a folder or a symbolic link that was packed. */
export interface Packed {
  /** The CID of its root. */
  cid: CID
  /** The bytes of the file, and 0 for a folder or a link. A `bigint` if it isn't a safe integer. */
  size: number | bigint
  /** The bytes of its blocks. A folder states them as the `tsize` of the entry. */
  total: number | bigint
}

/** What a file is read from: bytes, an iterable of bytes, a ReadableStream or a Blob. */
export type PackSource = Bytes | Iterable<Bytes> | AsyncIterable<Bytes> | { getReader(): unknown } | { stream(): unknown }

/**
 * Packs files, folders and symbolic links of UnixFS (IPFS) into blocks, as `ipfs add` does. Each
 * block is passed to `put` when it is made. In a file it comes after the blocks to which it links.
 * In a folder the root comes first, and each shard before those below it.
 *
 * An error of `put` or of a source is passed on. After it, and after any other error, what was
 * packed so far is freed, and the packer can be used again. Calls may run at the same time. Each
 * then has an instance of the core with its own memory, of which the packer keeps one.
 *
 *     const packer = new Packer({ put: (cid, block) => blocks.set(String(cid), block) })
 *     const readme = await packer.file(new TextEncoder().encode('hello'), { mode: 0o644 })
 *     const root = await packer.folder([['README', readme], ['link', await packer.symlink('README')]])
 */
export class Packer {
  /**
   * Throws `CID_UNKNOWN_VERSION`, `PACK_WIDTH` if `links` is 0 or 1, and `INPUT` for another invalid
   * option.
   */
  constructor(options: PackOptions)
  /**
   * Packs a file. The pieces of the source may have any lengths, and only a chunk of them is in
   * memory. Throws `INPUT` if an attribute is out of range, or if a piece isn't bytes.
   *
   *     const { cid, size } = await packer.file(blob, { mtime: { seconds: 1700000000 } })
   */
  file(source: PackSource, attributes?: PackAttributes): Promise<Packed>
  /**
   * Packs a folder. Its entries come in any order, for example as a Map from each name to what
   * `file`, `folder` or `symlink` returned. The error of an entry has its name as `entry`:
   * `PACK_INVALID_NAME`, `PACK_NAME_ORDER` if two have the same name, or `ENCODE_STRING` if the name
   * has a surrogate without a partner. Throws `PACK_SAME_HASH` if two names of a sharded folder have
   * the same hash, and `PACK_TOO_LARGE` if the total is 2^64 bytes or more.
   *
   *     const { cid } = await packer.folder(new Map([['a', a], ['b', b]]), { mode: 0o755 })
   */
  folder(entries: Iterable<readonly [string, Pick<Packed, 'cid' | 'total'>]> | AsyncIterable<readonly [string, Pick<Packed, 'cid' | 'total'>]>, attributes?: PackAttributes): Promise<Packed>
  /**
   * Packs a symbolic link. Throws `TEXT_UTF8` or `ENCODE_STRING` if the target isn't Unicode.
   *
   *     const { cid } = await packer.symlink('../target')
   */
  symlink(target: string | Bytes, attributes?: PackAttributes): Promise<Packed>
}

/** Iterates over the positions of the blocks of a CAR, in their order. */
export class CarIndexer implements AsyncIterable<BlockIndex> {
  readonly version: 1 | 2
  static fromBytes(bytes: Bytes): Promise<CarIndexer>
  static fromIterable(chunks: AsyncIterable<Uint8Array> | Iterable<Uint8Array>): Promise<CarIndexer>
  getRoots(): Promise<CID[]>
  [Symbol.asyncIterator](): AsyncIterator<BlockIndex>
}

/** Reads all blocks of a CAR into memory. */
export class CarReader {
  readonly version: 1 | 2
  static fromBytes(bytes: Bytes): Promise<CarReader>
  static fromIterable(chunks: AsyncIterable<Uint8Array> | Iterable<Uint8Array>): Promise<CarReader>
  getRoots(): Promise<CID[]>
  has(cid: CID): Promise<boolean>
  /** Returns the block with this CID, or the first of several. */
  get(cid: CID): Promise<Block | undefined>
  blocks(): AsyncGenerator<Block>
  cids(): AsyncGenerator<CID>
}

/**
 * Writes a CAR of version 1: yields its header, and then a section for each block, which it gets
 * after the sections before it were taken. The blocks have the form in which `CarBlockIterator` and
 * `CarReader.blocks` yield them, and are not compared with their CIDs. If the iteration ends early,
 * or an error is thrown, the iterator of the blocks is closed.
 *
 *     await writeFile('new.car', encodeCar([root], reader.blocks()))
 */
export function encodeCar(roots: Iterable<CID> | AsyncIterable<CID>, blocks: Iterable<Block> | AsyncIterable<Block>): AsyncGenerator<Uint8Array, void, void>

/** What a CAR of version 2 has around its payload. */
export interface CarAround {
  /** The 51 bytes before the payload. */
  header: Uint8Array
  /** The bytes after the payload: an index in the format MultihashIndexSorted. */
  index: Uint8Array
}

/**
 * Returns what a CAR of version 2 has around its payload. The payload is a CAR of version 1 of so many
 * bytes, and each block has the offset of its section in it, as `CarIndexer` yields them. The blocks
 * may have any order. One with an empty digest gets no entry. Throws `INPUT` if a number is out of
 * range, and `CAR_LENGTH_TOO_LARGE` if the index would begin at byte 2^64 or later.
 *
 *     const payload = await readFile('old.car')
 *     const blocks = []
 *     for await (const block of await CarIndexer.fromBytes(payload)) blocks.push(block)
 *     const { header, index } = encodeCarIndex(blocks, payload.length)
 *     await writeFile('new.car', [header, payload, index])
 */
export function encodeCarIndex(blocks: Iterable<{ cid: CID, offset: number | bigint }>, payloadLength: number | bigint): CarAround
