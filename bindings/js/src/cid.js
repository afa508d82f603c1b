import { ofName, ofStatus } from './errors.js'
import { bytesOf, inputOf, longOf, place, run, sizeOf } from './core.js'

const PREFIXES = { base16: 'f', base32: 'b', base32upper: 'B', base36: 'k', base58btc: 'z', base64url: 'u' }
const LONGEST_TEXT = 176
/** The code of the DAG-PB codec, which all CIDs of version 0 have. */
const DAG_PB = 0x70
/**
 * The property that marks CIDs of the class before `multiformats/cid`. Their multihash is bytes.
 */
const OLD = Symbol.for('@ipld/js-cid/CID')

/** The names of the bases of CID strings. */
export const bases = Object.keys(PREFIXES)

/**
 * Returns the number of a varint in checked bytes, and the index after the varint. A number that
 * isn't a safe integer is a BigInt.
 */
function varint (bytes, at) {
  const begins = at
  let number = 0
  let unit = 1
  let byte
  do {
    // The end of the bytes also ends the varint, since a caller can replace or detach the bytes of
    // a CID.
    byte = bytes[at++]
    number += (byte & 127) * unit
    unit *= 128
  } while ((byte & 128) !== 0)
  return [Number.isSafeInteger(number) ? number : wideVarint(bytes, begins, at), at]
}

/** Returns the number of the varint between two indexes as a BigInt. */
function wideVarint (bytes, begins, ends) {
  let number = 0n
  for (let at = ends - 1; at >= begins; at--) number = number << 7n | BigInt(bytes[at] & 127)
  return number
}

function equal (a, b) {
  if (a.length !== b.length) return false
  for (let at = 0; at < a.length; at++) if (a[at] !== b[at]) return false
  return true
}

/** Returns the code of a codec as a BigInt. Throws INPUT as `longOf` does. */
function codeOf (code) { return longOf(code, 'the code of a codec') }

/** Returns the bytes of a BigInt as a varint. */
function varintBytes (number) {
  const bytes = []
  for (; number > 127n; number >>= 7n) bytes.push(Number(number & 127n) | 128)
  bytes.push(Number(number))
  return bytes
}

/** Throws if the bytes are not a CID. `run` calls it. */
function isCid (core, bytes) {
  const size = sizeOf(bytes)
  place(core, bytes, size, 0)
  const status = core.calls.kombilad_cid_check(core.room, size)
  if (status !== 0) throw ofStatus(status)
}

/**
 * Returns the bytes of the CID that a call has written to the record, after a byte with their
 * number.
 */
export function madeCid (core) {
  const cid = core.cidAt
  return core.bytes.slice(cid + 1, cid + 1 + core.bytes[cid])
}

function readText (core, text) {
  core.reserve(text.length * 3)
  let length = 0
  for (; length < text.length; length++) {
    const unit = text.charCodeAt(length)
    if (unit > 127) break
    core.bytes[core.room + length] = unit
  }
  if (length < text.length) {
    const utf8 = new TextEncoder().encode(text)
    length = utf8.length
    place(core, utf8, length, 0)
  }
  const status = core.calls.kombilad_cid_from_text(core.room, length, core.cidAt, core.neededAt)
  if (status !== 0) throw status === 34 ? ofStatus(status, core.needed()) : ofStatus(status)
  return madeCid(core)
}

function writeText (core, bytes, base) {
  const size = sizeOf(bytes)
  const text = place(core, bytes, size, LONGEST_TEXT)
  const status = core.calls.kombilad_cid_to_text(core.room, size, base, text, LONGEST_TEXT, core.neededAt)
  if (status !== 0) throw ofStatus(status)
  const end = text + core.needed()
  return String.fromCharCode.apply(null, core.bytes.subarray(text, end))
}

function hash (core, bytes, code) {
  const size = sizeOf(bytes)
  place(core, bytes, size, 0)
  core.calls.kombilad_cid_of_block(code, core.room, size, core.cidAt)
  return madeCid(core)
}

/**
 * Represents a multihash: the `code` of the hash function, the `size` of the `digest` in bytes, the
 * `digest`, and all `bytes` of the multihash.
 */
class Multihash {
  constructor (bytes) {
    const [code, size] = varint(bytes, 0)
    const [length, digest] = varint(bytes, size)
    this.code = code
    this.size = length
    this.digest = bytes.subarray(digest)
    this.bytes = bytes
  }
}

/**
 * Represents a content identifier. Its properties and methods have the same names as in the class
 * of `multiformats/cid`. The core checks every byte of a CID when it is read.
 */
export class CID {
  /**
   * Creates a CID, with the parameters of the constructor of `multiformats/cid`. Reads and copies
   * only the bytes. Throws if they are not a CID.
   */
  constructor (version, code, multihash, bytes) {
    if (version === CHECKED) {
      this.bytes = code
    } else {
      this.bytes = new Uint8Array(bytesOf(bytes))
      run(isCid, this.bytes)
    }
    // This property identifies a CID that has lost its class in a message to a worker.
    this['/'] = this.bytes
  }

  get asCID () { return this }
  get byteOffset () { return this.bytes.byteOffset }
  get byteLength () { return this.bytes.byteLength }
  get [Symbol.toStringTag] () { return 'CID' }

  /** The version: 0 or 1. */
  get version () { return this.bytes[0] === 0x12 ? 0 : 1 }

  /** The code of the codec. */
  get code () { return this.version === 0 ? DAG_PB : varint(this.bytes, 1)[0] }

  /** The multihash. */
  get multihash () {
    const bytes = bytesOf(this.bytes)
    return new Multihash(bytes[0] === 0x12 ? bytes : bytes.subarray(varint(bytes, 1)[1]))
  }

  /**
   * Returns the CID as a string. `base` is the name of a base, or an encoder of
   * `multiformats/bases`. The default is base32 for version 1, and base58btc for version 0. Throws
   * UNKNOWN_BASE if there is no base with this name, and V0_BASE if the base for version 0 is not
   * base58btc.
   */
  toString (base) {
    if (base === undefined) return run(writeText, inputOf(this.bytes), 0)
    if (typeof base === 'string') {
      const prefix = PREFIXES[base]
      if (prefix === undefined) throw ofStatus(4)
      return run(writeText, inputOf(this.bytes), prefix.charCodeAt(0))
    }
    if (this.version === 0) {
      if (base.prefix !== 'z') throw ofStatus(5)
      return this.toString()
    }
    return base.encode(this.bytes)
  }

  toJSON () { return { '/': this.toString() } }
  link () { return this }
  [Symbol.for('nodejs.util.inspect.custom')] () { return `CID(${this.toString()})` }

  equals (other) {
    const cid = CID.asCID(other)
    return cid !== null && equal(this.bytes, cid.bytes)
  }

  toV0 () {
    if (this.version === 0) return this
    const hash = this.multihash
    if (this.code !== DAG_PB || hash.code !== 0x12 || hash.size !== 32) throw ofName('WRONG_VERSION')
    return new CID(CHECKED, hash.bytes)
  }

  toV1 () {
    return this.version === 1 ? this : CID.createV1(DAG_PB, this.multihash)
  }

  /**
   * Returns a CID of this class unchanged. For a CID of another class, or of another version of
   * this class, returns a new CID with the same bytes. Otherwise returns null.
   */
  static asCID (value) {
    if (value instanceof CID) return value
    if (value == null || typeof value !== 'object') return null
    const { bytes, '/': same } = value
    const hasBytes = (same != null && same === bytes) || value.asCID === value
    if (!hasBytes && value[OLD] !== true) return null
    try {
      return hasBytes ? CID.decode(bytes) : CID.create(value.version, value.code, { bytes: value.multihash })
    } catch {
      return null
    }
  }

  /** Creates a CID from its parts. Only the `bytes` of the multihash `digest` are read. */
  static create (version, code, digest) {
    if (version === 0) {
      if (code !== DAG_PB) throw ofName('WRONG_VERSION')
      return CID.createV0(digest)
    }
    if (version !== 1) throw ofStatus(20)
    return CID.createV1(code, digest)
  }

  static createV0 (digest) {
    const cid = CID.decode(digest.bytes)
    if (cid.version !== 0) throw ofStatus(20)
    return cid
  }

  static createV1 (code, digest) {
    return CID.decode(Uint8Array.from([1, ...varintBytes(codeOf(code)), ...bytesOf(digest.bytes)]))
  }

  /** Decodes bytes that are exactly one CID, and copies them. Throws if they are not. */
  static decode (bytes) {
    const own = new Uint8Array(bytesOf(bytes))
    run(isCid, own)
    return new CID(CHECKED, own)
  }

  /** Decodes the CID at the beginning of the bytes. Returns it and the bytes after it. */
  static decodeFirst (bytes) {
    const all = bytesOf(bytes)
    const length = firstLength(all)
    return [CID.decode(all.subarray(0, length)), all.subarray(length)]
  }

  /**
   * Parses a CID from a string in any of the bases, with or without `/ipfs/` before it. `base` is a
   * decoder of `multiformats/bases`, for strings that begin with its prefix.
   */
  static parse (text, base) {
    if (typeof text !== 'string') throw ofName('INPUT', undefined, ': the text of a CID')
    if (base !== undefined && base.prefix === text[0]) return CID.decode(base.decode(text))
    return new CID(CHECKED, run(readText, text))
  }

  /** Returns the CID of a block: version 1, with this codec and the block's SHA2-256 digest. */
  static ofBlock (code, bytes) {
    return new CID(CHECKED, run(hash, inputOf(bytes), codeOf(code)))
  }
}

/** The argument that only this package passes to the constructor, for bytes that were checked. */
const CHECKED = Symbol('checked')

export function ownCid (value) {
  const cid = CID.asCID(value)
  if (cid === null) throw ofName('INPUT', undefined, ': a CID')
  return cid
}

/**
 * Returns the bytes of a CID of any class as a string, for the key of a Map. Throws INPUT if the
 * value is not a CID.
 */
export function keyOf (cid) { return String.fromCharCode.apply(null, bytesOf(ownCid(cid).bytes)) }

/** Returns the CID with these bytes, which the core has checked. */
export function checkedCid (bytes) { return new CID(CHECKED, bytes) }

/**
 * Returns the length of the CID at the beginning of the bytes. It reads only the varints, and the
 * core then checks this many bytes. If the bytes end too early, returns the number of all bytes, so
 * that the core reports the error.
 */
function firstLength (bytes) {
  if (bytes[0] === 0x12 && bytes[1] === 0x20) return Math.min(34, bytes.length)
  let at = 0
  let number = 0
  for (let part = 0; part < 4; part++) {
    const begins = at
    while (bytes[at] > 127 && at - begins < 10) at++
    if (at >= bytes.length) return bytes.length
    ;[number, at] = bytes[at] > 127 ? [0, at + 1] : varint(bytes, begins)
  }
  return Math.min(at + Math.min(Number(number), 65), bytes.length)
}

/** The hash function SHA2-256 of the core, in the form of a hasher of `multiformats/hashes`. */
export const sha256 = {
  name: 'sha2-256',
  code: 0x12,
  digest: (bytes) => CID.ofBlock(0x55, bytes).multihash,
  encode: (bytes) => CID.ofBlock(0x55, bytes).multihash.digest
}

/** The statuses of a digest that is not verified. */
const UNKNOWN_HASH = 112
const WRONG_DIGEST = 113

function isBlockOf (core, bytes, cid) {
  const size = sizeOf(bytes)
  const at = place(core, bytes, size, cid.length)
  core.bytes.set(cid, at)
  const status = core.calls.kombilad_verify(at, cid.length, core.room, size)
  if (status === UNKNOWN_HASH) return undefined
  if (status !== 0 && status !== WRONG_DIGEST) throw ofStatus(status)
  return status === 0
}

/**
 * Returns whether the block matches the digest of the CID. Returns undefined if the hash function
 * is not SHA2-256, SHA2-512, BLAKE2b-256 or identity.
 */
export function verify (cid, bytes) { return run(isBlockOf, inputOf(bytes), new Uint8Array(bytesOf(ownCid(cid).bytes))) }
