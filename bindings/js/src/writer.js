// Encodes blocks in plain JavaScript. The core then checks that they are canonical.
import { CID } from './cid.js'
import { TypedArray, detached, failed, isBytes, place, run, sizeOf, viewOf } from './core.js'
import { ofName, ofStatus } from './errors.js'

const LEVELS = 1024
const TWO_32 = 4294967296
/** The maximum number of bytes in the head of a value. */
const HEAD = 9
/**
 * An ASCII string of fewer units is written unit by unit. For longer strings the engine's encoder
 * is faster.
 */
const SHORT = 32
/** The maximum number of UTF-8 bytes for each UTF-16 unit of a string. */
const WIDEST = 3
/**
 * A string of more units is encoded first, so that the buffer grows by its actual size and not by
 * the maximum.
 */
const LONG = 65536
const encoder = new TextEncoder()
const LONE = /[\ud800-\udbff](?![\udc00-\udfff])|(?<![\ud800-\udbff])[\udc00-\udfff]/

class Writer {
  constructor () {
    this.bytes = new Uint8Array(1024)
    this.view = new DataView(this.bytes.buffer)
    this.at = 0
    this.level = 0
    this.order = byUnits
  }

  /**
   * Returns the bytes of a value. `order` sorts the keys of each map. Throws NO_MEMORY if the
   * engine can't allocate them.
   */
  written (value, order) {
    this.at = this.level = 0
    this.order = order
    this.value(value)
    try {
      return this.bytes.slice(0, this.at)
    } catch (cause) {
      throw noMemory(cause)
    }
  }

  /** Makes room for `size` more bytes. Throws NO_MEMORY if the engine can't allocate them. */
  more (size) {
    if (this.at + size > this.bytes.length) {
      const larger = zeros(Math.max(this.at + size, this.bytes.length * 2))
      larger.set(this.bytes.subarray(0, this.at))
      this.bytes = larger
      this.view = new DataView(larger.buffer)
    }
  }

  /** Writes the head of a value. The argument is a safe integer, 0 or more. */
  head (major, argument) {
    this.more(HEAD)
    const { bytes } = this
    if (argument < 24) {
      bytes[this.at++] = major << 5 | argument
    } else if (argument < 0x100) {
      bytes[this.at++] = major << 5 | 24
      bytes[this.at++] = argument
    } else if (argument < 0x10000) {
      bytes[this.at] = major << 5 | 25
      this.view.setUint16(this.at + 1, argument)
      this.at += 3
    } else if (argument < TWO_32) {
      bytes[this.at] = major << 5 | 26
      this.view.setUint32(this.at + 1, argument)
      this.at += 5
    } else {
      this.longHead(major, BigInt(argument))
    }
  }

  /** Writes the head of a value whose argument takes eight bytes. The argument is a BigInt. */
  longHead (major, argument) {
    this.more(HEAD)
    this.bytes[this.at] = major << 5 | 27
    this.view.setBigUint64(this.at + 1, argument)
    this.at += 9
  }

  /**
   * Writes all bytes of `content`, so that the block doesn't contain bytes of an earlier call.
   * `size` is their number by `sizeOf`. Throws INPUT if the buffer of `content` is detached.
   */
  put (content, size) {
    this.more(size)
    try {
      this.bytes.set(content, this.at)
    } catch (cause) {
      throw detached(cause)
    }
    this.at += size
  }

  byteString (content) {
    const size = sizeOf(content)
    this.head(2, size)
    this.put(content, size)
  }

  text (text) {
    const { length } = text
    if (length < SHORT) {
      // Most short strings are ASCII, and have as many bytes as units.
      this.more(HEAD + length)
      const { bytes } = this
      const begins = this.at + (length < 24 ? 1 : 2)
      let each = 0
      for (; each < length; each++) {
        const unit = text.charCodeAt(each)
        if (unit > 127) break
        bytes[begins + each] = unit
      }
      if (each === length) {
        this.head(3, length)
        this.at += length
        return
      }
    }
    if (length > LONG) {
      const content = utf8(text)
      this.head(3, content.length)
      return this.put(content, content.length)
    }
    checkUnicode(text)
    this.more(HEAD + WIDEST * length)
    // If the string is ASCII, this is the final position, and its bytes don't have to move.
    const begins = this.at + headLength(length)
    const { written } = encoder.encodeInto(text, this.bytes.subarray(begins))
    const moved = this.at + headLength(written)
    if (moved !== begins) this.bytes.copyWithin(moved, begins, begins + written)
    this.head(3, written)
    this.at += written
  }

  number (number) {
    if (Number.isSafeInteger(number)) {
      if (number >= 0) this.head(0, number)
      else this.head(1, -1 - number)
      return
    }
    if (!Number.isFinite(number)) throw ofName('ENCODE_NUMBER')
    this.more(HEAD)
    this.bytes[this.at] = 0xfb
    this.view.setFloat64(this.at + 1, number)
    this.at += 9
  }

  bigint (number) {
    const major = number < 0n ? 1 : 0
    const argument = number < 0n ? -1n - number : number
    if (argument >= 1n << 64n) throw ofName('ENCODE_NUMBER')
    if (argument < TWO_32) this.head(major, Number(argument))
    else this.longHead(major, argument)
  }

  deeper () {
    if (++this.level > LEVELS) throw ofName('ENCODE_TOO_DEEP')
  }

  value (value) {
    switch (typeof value) {
      case 'string': return this.text(value)
      case 'number': return this.number(value)
      case 'boolean': return this.head(7, value ? 21 : 20)
      case 'bigint': return this.bigint(value)
      case 'object': break
      default: throw ofName('ENCODE_UNSUPPORTED', undefined, `: ${typeof value}`)
    }
    if (value === null) return this.head(7, 22)
    if (Array.isArray(value)) return this.list(value)
    this.object(value)
  }

  list (list) {
    this.deeper()
    // A proxy of an array can return a different length each time.
    const { length } = list
    if (!Number.isSafeInteger(length) || length < 0) throw ofName('ENCODE_UNSUPPORTED', undefined, ': the length of a list')
    this.head(4, length)
    for (let each = 0; each < length; each++) this.value(list[each])
    this.level--
  }

  /**
   * Writes an object that is neither a list nor null: bytes, a link or a map. Throws
   * ENCODE_UNSUPPORTED for any other object.
   */
  object (value) {
    const isOwn = value instanceof CID
    if (!isOwn) {
      const content = isBytes(value) ? value : viewOf(value)
      if (content !== undefined) return this.byteString(content)
    }
    const { bytes } = value
    // A CID of this or another class.
    if (bytes !== undefined && isBytes(bytes) && (isOwn || value['/'] === bytes || value.asCID === value)) return this.link(bytes)
    if (value instanceof Map) return this.map([...value.keys()], (key) => value.get(key))
    const prototype = Object.getPrototypeOf(value)
    // A proxy of a typed array, or another object with its prototype, does not have bytes.
    if (prototype !== null && prototype !== Object.prototype && (Object.prototype.toString.call(value) !== '[object Object]' || value instanceof TypedArray)) {
      throw ofName('ENCODE_UNSUPPORTED', undefined, `: ${Object.prototype.toString.call(value)}`)
    }
    this.map(Object.keys(value), (key) => value[key])
  }

  /** Writes a link to the CID with these bytes. The core checks the CID together with the block. */
  link (cid) {
    const size = sizeOf(cid)
    this.head(6, 42)
    this.head(2, size + 1)
    this.more(1)
    this.bytes[this.at++] = 0
    this.put(cid, size)
  }

  map (keys, get) {
    this.deeper()
    this.head(5, keys.length)
    for (const key of keys) if (typeof key !== 'string') throw ofName('ENCODE_UNSUPPORTED', undefined, ': a key that is no string')
    if (keys.length > 1) keys = this.order(keys)
    for (const key of keys) {
      this.text(key)
      this.value(get(key))
    }
    this.level--
  }
}

/** Returns the error of a failed allocation. */
function noMemory (cause) { return Object.assign(ofStatus(1), { cause }) }

/** Returns `size` zero bytes. Throws NO_MEMORY if the engine can't allocate them. */
export function zeros (size) {
  try {
    return new Uint8Array(size)
  } catch (cause) {
    throw noMemory(cause)
  }
}

function headLength (argument) { return argument < 24 ? 1 : argument < 0x100 ? 2 : argument < 0x10000 ? 3 : 5 }

function checkUnicode (text) {
  if (text.isWellFormed !== undefined ? !text.isWellFormed() : LONE.test(text)) throw ofName('ENCODE_STRING')
}

/** Returns the UTF-8 of a string. Throws ENCODE_STRING if it has an unpaired surrogate. */
export function utf8 (text) {
  checkUnicode(text)
  return encoder.encode(text)
}

const byLength = (a, b) => a.length - b.length || (a < b ? -1 : 1)

/**
 * Returns the keys sorted by length, and then by UTF-16 units. If all keys are ASCII, this is the
 * order of DAG-CBOR.
 */
function byUnits (keys) {
  let isSorted = true
  let before = ''
  for (const key of keys) {
    isSorted = isSorted && byLength(before, key) < 0
    before = key
  }
  // The keys of a decoded value are usually sorted.
  return isSorted ? keys : keys.sort(byLength)
}

/** Compares bytes from the first on. */
export function byBytes (a, b) {
  for (let at = 0; at < a.length && at < b.length; at++) if (a[at] !== b[at]) return a[at] - b[at]
  return a.length - b.length
}

/**
 * Returns the keys in the order of DAG-CBOR: by the length of their UTF-8, and then by its bytes.
 */
function byUtf8 (keys) {
  const pairs = keys.map((key) => [key, utf8(key)])
  pairs.sort(([, a], [, b]) => a.length - b.length || byBytes(a, b))
  return pairs.map(([key]) => key)
}

function isCanonicalIn (core, block) {
  place(core, block, block.length, 0)
  const status = core.calls.kombilad_block_check_canonical(core.room, block.length, LEVELS, 0xffffffff, core.offsetAt)
  if (status === 0 || status === 3) return status === 0
  throw failed(core, status)
}

// All calls share one writer, except calls that a getter makes while the writer is in use.
let spare = new Writer()
const LARGEST_SPARE = 1 << 20

/** Encodes a value of the data model as a block, which the core checks to be canonical. */
export function encode (value) {
  const writer = spare ?? new Writer()
  spare = undefined
  try {
    let block = writer.written(value, byUnits)
    // Most keys are ASCII. If the core finds a key out of order, the value is written again, with
    // its keys sorted by their bytes.
    if (!run(isCanonicalIn, block)) {
      block = writer.written(value, byUtf8)
      if (!run(isCanonicalIn, block)) throw ofName('ENCODE_UNSUPPORTED', undefined, ': the block is not canonical')
    }
    return block
  } finally {
    if (writer.bytes.length <= LARGEST_SPARE) spare = writer
  }
}
