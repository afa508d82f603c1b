import { checkedCid } from './cid.js'
import { failed, inputOf, levelsOf, place, run, sizeOf, valuesOf } from './core.js'
import { ofName } from './errors.js'
import { Texts, textOfUtf8 } from './text.js'
import { utf8 } from './writer.js'

// ---- Checks

function checkIn (core, bytes, levels, values) {
  const size = sizeOf(bytes)
  place(core, bytes, size, 0)
  const status = core.calls.kombilad_block_check(core.room, size, levels, values, core.offsetAt)
  if (status !== 0) throw failed(core, status)
}

/** Checks that the bytes are exactly one block. Throws if they are not. */
export function check (bytes, options) {
  run(checkIn, inputOf(bytes), levelsOf(options), valuesOf(options))
}

function isCanonicalIn (core, bytes, levels, values) {
  const size = sizeOf(bytes)
  place(core, bytes, size, 0)
  const status = core.calls.kombilad_block_check_canonical(core.room, size, levels, values, core.offsetAt)
  if (status === 0 || status === 3) return status === 0
  throw failed(core, status)
}

/**
 * Returns whether a block has the keys of each map in canonical order. Throws if the bytes are not
 * exactly one block.
 */
export function isCanonical (bytes, options) {
  return run(isCanonicalIn, inputOf(bytes), levelsOf(options), valuesOf(options))
}

function canonicalizeIn (core, bytes, levels, values) {
  const size = sizeOf(bytes)
  // The canonical block of a value is as long as any other block of this value.
  const out = place(core, bytes, size, size)
  const status = core.calls.kombilad_block_canonicalize(core.room, size, levels, values, out, size, core.neededAt, core.offsetAt)
  if (status !== 0) throw failed(core, status)
  const end = out + core.needed()
  return core.bytes.slice(out, end)
}

/** Returns the block with the keys of each map in canonical order, and otherwise unchanged. */
export function canonicalize (bytes, options) {
  return run(canonicalizeIn, inputOf(bytes), levelsOf(options), valuesOf(options))
}

// ---- Links

/**
 * The minimum number of bytes of a link in a block: two of the tag, the head, a zero byte, and four
 * of the CID.
 */
const SHORTEST_LINK = 8
/** The size in bytes of the record of a link's position: two 64-bit numbers. */
const SPAN = 16

function positionsIn (core, bytes, levels, values) {
  const size = sizeOf(bytes)
  const most = Math.floor(size / SHORTEST_LINK)
  const spans = place(core, bytes, size, most * SPAN)
  const status = core.calls.kombilad_link_positions(core.room, size, levels, values, spans, most, core.neededAt, core.offsetAt)
  if (status !== 0) throw failed(core, status)
  return spans >>> 2
}

function linksIn (core, bytes, levels, values) {
  const first = positionsIn(core, bytes, levels, values)
  const count = core.needed()
  // The CIDs come from the core's copy of the block, which has not changed since the core read it.
  const { bytes: memory, words, room } = core
  const links = new Array(count)
  for (let each = 0, at = first; each < count; each++, at += 4) {
    const begins = room + words[at]
    links[each] = checkedCid(memory.slice(begins, begins + words[at + 2]))
  }
  return links
}

/** Returns the CIDs of the block's links in the order of its bytes, with duplicates. */
export function links (bytes, options) {
  return run(linksIn, inputOf(bytes), levelsOf(options), valuesOf(options))
}

function placesIn (core, bytes, levels, values) {
  const first = positionsIn(core, bytes, levels, values)
  const count = core.needed()
  const places = []
  for (let each = 0, at = first; each < count; each++, at += 4) places.push({ offset: core.words[at], length: core.words[at + 2] })
  return places
}

/** Returns the offsets and lengths of the CIDs of the block's links, in the order of `links`. */
export function linkPositions (bytes, options) {
  return run(placesIn, inputOf(bytes), levelsOf(options), valuesOf(options))
}

function countIn (core, bytes, levels, values) {
  const size = sizeOf(bytes)
  place(core, bytes, size, 0)
  const status = core.calls.kombilad_links_count(core.room, size, levels, values, core.neededAt, core.offsetAt)
  if (status !== 0) throw failed(core, status)
  return core.needed()
}

/** Returns the number of links in the block. */
export function countLinks (bytes, options) {
  return run(countIn, inputOf(bytes), levelsOf(options), valuesOf(options))
}

// ---- Values

const ENTRY = 16

/**
 * Makes the tape of a block, and returns the result of `work`. The arguments of `work` are the core
 * with the block in its room, the index of the first entry in 32-bit words, the number of entries,
 * and the block's length. Throws NO_TAPE if this build of the core does not have tapes.
 */
function withTape (core, bytes, levels, values, work) {
  if (core.calls.kombilad_tape === undefined) throw ofName('NO_TAPE')
  const length = sizeOf(bytes)
  // Each entry takes at least one byte of the block, and most take many.
  let most = length <= 4096 ? length : length >>> 2
  for (;;) {
    const tape = place(core, bytes, length, most * ENTRY)
    const status = core.calls.kombilad_tape(core.room, length, levels, values, tape, most, core.neededAt, core.offsetAt)
    const count = core.needed()
    if (status === 0) return work(core, tape >>> 2, count, length)
    if (status !== 2 || count <= most) throw failed(core, status)
    most = count
  }
}

const TWO_32 = 4294967296
/** The high 32 bits of 2^53 - 1. */
const SAFE_HIGH = 0x1fffff

/**
 * The maximum number of nested lists and maps that are built by recursive calls. Deeper ones are
 * built in a loop.
 */
const CALLS = 200

/**
 * A list of at least this many items grows with each item. A shorter list has its length from the
 * start.
 */
const LONG = 65536

/**
 * A list of at most this many items is built by an array literal, which takes an engine a third of
 * the time.
 */
const SHORT = 4

/** The object from which maps inherit, and which can have setters and read-only properties. */
const INHERITED = Object.prototype
const { getOwnPropertyNames } = Object
const hasOwn = Function.prototype.call.bind(INHERITED.hasOwnProperty)

/**
 * The maximum number of keys that are looked up in INHERITED one by one. For more keys, listing the
 * names of INHERITED, which takes a microsecond, is faster.
 */
const FEW_KEYS = 64

/** Returns the value field of an entry, as a BigInt if it is not a safe integer. */
export function integer ({ words, longs }, at) {
  const high = words[at + 3] >>> 0
  return high <= SAFE_HIGH ? high * TWO_32 + (words[at + 2] >>> 0) : longs[(at + 2) >>> 1]
}

/**
 * Returns -1 minus the value field of an entry, as a BigInt if the result is not a safe integer.
 */
function negative ({ words, longs }, at) {
  const high = words[at + 3] >>> 0
  const low = words[at + 2] >>> 0
  // The result is a safe integer if the field is below 2^53 - 1.
  return high < SAFE_HIGH || (high === SAFE_HIGH && low < 0xffffffff) ? -1 - (high * TWO_32 + low) : ~longs[(at + 2) >>> 1]
}

/** Builds the values of a tape. `at` is the word index of the next entry. */
class Builder {
  constructor (core, first, length) {
    this.core = core
    this.words = core.words
    this.at = first
    this.bytes = core.bytes
    this.block = core.room
    this.texts = new Texts(core.bytes, core.room + length)
    this.calls = 0
    this.keys = 0
    // The lengths and the first letters of the names in INHERITED, modulo 32, as bits.
    this.lengths = 0
    this.letters = 0
  }

  /**
   * Returns the value of the next entry, with all values in it. Throws TRAP if the kind of an entry
   * is unknown.
   */
  value () {
    const { words, at, block } = this
    this.at = at + 4
    switch (words[at]) {
      case 0: return null
      case 1: return false
      case 2: return true
      case 3: return integer(this.core, at)
      case 4: return negative(this.core, at)
      case 5: return this.core.numbers.getFloat64(block + words[at + 2])
      case 6: return this.texts.at(block + words[at + 2], words[at + 1])
      case 7: return this.bytes.slice(block + words[at + 2], block + words[at + 2] + words[at + 1])
      case 8: return checkedCid(this.bytes.slice(block + words[at + 2], block + words[at + 2] + words[at + 1]))
      case 9: return this.calls < CALLS ? this.list(words[at + 2]) : this.deep(at)
      case 10: return this.calls < CALLS ? this.map(words[at + 2]) : this.deep(at)
      default: throw ofName('TRAP', undefined, ': a tape with an unknown entry')
    }
  }

  list (count) {
    this.calls++
    const list = count <= SHORT ? this.shortList(count) : this.longList(count)
    this.calls--
    return list
  }

  shortList (count) {
    switch (count) {
      case 0: return []
      case 1: return [this.value()]
      case 2: return [this.value(), this.value()]
      case 3: return [this.value(), this.value(), this.value()]
      default: return [this.value(), this.value(), this.value(), this.value()]
    }
  }

  longList (count) {
    const { core, words } = this
    const list = count < LONG ? new Array(count) : []
    for (let each = 0; each < count; each++) {
      const { at } = this
      let value
      // Long lists usually contain integers.
      if (words[at] === 3) {
        this.at = at + 4
        value = integer(core, at)
      } else if (words[at] === 4) {
        this.at = at + 4
        value = negative(core, at)
      } else {
        value = this.value()
      }
      list[each] = value
    }
    return list
  }

  map (count) {
    this.calls++
    const map = {}
    this.keys += count
    const isFew = this.keys <= FEW_KEYS
    if (!isFew && this.lengths === 0) this.listInherited()
    for (let each = 0; each < count; each++) {
      const key = this.key()
      const value = this.value()
      if ((isFew || this.mayInherit(key)) && hasOwn(INHERITED, key)) define(map, key, value)
      else map[key] = value
    }
    this.calls--
    return map
  }

  /** Sets the bits of all names in INHERITED. */
  listInherited () {
    const names = getOwnPropertyNames(INHERITED)
    for (let at = 0; at < names.length; at++) {
      this.lengths |= 1 << names[at].length
      this.letters |= 1 << names[at].charCodeAt(0)
    }
  }

  /** Returns false only if no name in INHERITED has the length and the first letter of the key. */
  mayInherit (key) { return (this.lengths >>> key.length & this.letters >>> key.charCodeAt(0) & 1) !== 0 }

  key () {
    const { words, at } = this
    const begins = this.block + words[at + 2]
    const length = words[at + 1]
    this.at = at + 4
    return length === 1 ? String.fromCharCode(this.bytes[begins]) : this.texts.key(begins, length)
  }

  /** Returns the list or map of the entry at `top`. Builds it in a loop, without recursion. */
  deep (top) {
    const { words } = this
    const end = top + words[top + 1] * 4
    const parents = []
    let parent
    let isMap = false
    let left = 0 // the remaining items or pairs of `parent`
    let key = ''
    this.at = top
    while (this.at < end) {
      while (parent !== undefined && left === 0) {
        left = parents.pop()
        isMap = parents.pop()
        parent = parents.pop()
      }
      if (isMap) key = this.key()
      const kind = words[this.at]
      const opens = kind === 9 || kind === 10
      const count = words[this.at + 2]
      if (opens) this.at += 4
      const value = opens ? (kind === 9 ? [] : {}) : this.value()
      left--
      if (isMap) define(parent, key, value)
      else if (parent !== undefined) parent.push(value)
      if (opens) {
        parents.push(parent, isMap, left)
        parent = value
        isMap = kind === 10
        left = count
      }
    }
    return parents.length === 3 ? parent : parents[3]
  }
}

/**
 * Defines an own property. Unlike an assignment, this calls no inherited setter, and also works if
 * an inherited property is read-only.
 */
function define (object, key, value) {
  Object.defineProperty(object, key, { value, writable: true, enumerable: true, configurable: true })
}

function valueOf (core, first, count, length) {
  return new Builder(core, first, length).value()
}

function decodeIn (core, bytes, levels, values) { return withTape(core, bytes, levels, values, valueOf) }

/** Decodes a block, after the core has checked all of its bytes. */
export function decode (bytes, options) {
  return run(decodeIn, inputOf(bytes), levelsOf(options), valuesOf(options))
}

function getIn (core, bytes, levels, values, path) {
  const size = sizeOf(bytes)
  const span = place(core, bytes, size, SPAN + path.length)
  core.bytes.set(path, span + SPAN)
  const status = core.calls.kombilad_block_at(core.room, size, levels, values, span + SPAN, path.length, span, core.neededAt, core.offsetAt)
  if (status !== 0) throw failed(core, status)
  const rest = core.needed()
  // The value comes from the core's copy of the block, which has not changed since the core read it.
  const begins = core.room + core.words[span >>> 2]
  const part = core.bytes.slice(begins, begins + core.words[(span >>> 2) + 2])
  return { value: decodeIn(core, part, levels, values), remaining: textOfUtf8(path, rest, path.length) }
}

/**
 * Decodes the value at a path in a block, after the core has checked all of the block. If the path
 * continues after a link, the value is the link, and `remaining` is the rest of the path.
 */
export function get (bytes, path, options) {
  if (typeof path !== 'string') throw ofName('INPUT')
  return run(getIn, inputOf(bytes), levelsOf(options), valuesOf(options), utf8(path))
}

export function entriesOf (core, first, count) {
  const { words } = core
  const entries = []
  for (let each = 0, at = first; each < count; each++, at += 4) entries.push({ kind: words[at], length: words[at + 1] >>> 0, value: integer(core, at) })
  return entries
}

function tapeIn (core, bytes, levels, values) { return withTape(core, bytes, levels, values, entriesOf) }

/**
 * Returns the entries of a block in their order: kind, length and value, as `kombilad_tape` writes
 * them.
 */
export function tape (bytes, options) {
  return run(tapeIn, inputOf(bytes), levelsOf(options), valuesOf(options))
}
