// Decodes strings from bytes that the core has checked to be UTF-8.

const utf8 = new TextDecoder('utf-8', { ignoreBOM: true })
const latin1 = new TextDecoder('latin1')
// In Node the methods of Buffer are several times as fast.
const { latin1Slice, utf8Slice } = globalThis.Buffer?.prototype ?? {}

const sliceOf = latin1Slice === undefined
  ? (bytes, from, to) => latin1.decode(bytes.subarray(from, to))
  : (bytes, from, to) => latin1Slice.call(bytes, from, to)

/** Returns the string of the UTF-8 bytes from `from` up to `to`. */
export const textOfUtf8 = utf8Slice === undefined
  ? (bytes, from, to) => utf8.decode(bytes.subarray(from, to))
  : (bytes, from, to) => utf8Slice.call(bytes, from, to)

// An engine copies a substring that is shorter than this. A longer substring would keep the whole
// string in memory.
const COPIED = 13
// The maximum number of bytes that are decoded at once. Short strings are substrings of the result.
const PIECE = 16384

// A cache of keys, since blocks have few different ones. Each place has the last key with its hash.
const PLACES = 4096
const LONGEST = 32
const keys = new Array(PLACES).fill('')

function isAscii (bytes, from, to) {
  let all = 0
  for (let at = from; at < to; at++) all |= bytes[at]
  return all < 128
}

/** Decodes the strings of a block that ends at `limit`. */
export class Texts {
  constructor (bytes, limit) {
    this.bytes = bytes
    this.limit = limit
    this.piece = ''
    this.from = 0
    this.to = 0
  }

  /** Returns the string of the `length` bytes at `at`. */
  at (at, length) {
    const { bytes } = this
    const end = at + length
    if (length >= COPIED) return textOfUtf8(bytes, at, end)
    if (!isAscii(bytes, at, end)) return textOfUtf8(bytes, at, end)
    if (at < this.from || end > this.to) this.take(at)
    return this.piece.substring(at - this.from, end - this.from)
  }

  /**
   * Decodes the next bytes from `at` on as Latin-1. The result is right for all bytes that are
   * ASCII, and only these are used.
   */
  take (at) {
    this.from = at
    this.to = Math.min(at + PIECE, this.limit)
    this.piece = sliceOf(this.bytes, at, this.to)
  }

  /** Returns the string of a key. If the key is ASCII and has 1 to 32 bytes, it is cached. */
  key (at, length) {
    const { bytes } = this
    if (length > LONGEST || length === 0) return this.at(at, length)
    const end = at + length
    let hash = length
    for (let each = at; each < end; each++) hash = Math.imul(hash, 31) + bytes[each]
    const place = (hash ^ hash >>> 12) & (PLACES - 1)
    const kept = keys[place]
    if (kept.length === length) {
      let same = at
      while (same < end && bytes[same] === kept.charCodeAt(same - at)) same++
      if (same === end) return kept
    }
    const key = this.at(at, length)
    // If the key has as many UTF-16 units as bytes, it is ASCII, and the loop above compares its
    // bytes.
    if (key.length === length) keys[place] = key
    return key
  }
}
