import { checkedCid, keyOf } from './cid.js'
import { bytesOf, place, run } from './core.js'
import { ofName, ofStatus } from './errors.js'

/** The maximum sizes of a header and of a section, in bytes. */
const LONGEST_HEADER = 8 << 20
const LONGEST_SECTION = 32 << 20
/** The maximum number of bytes before the sections, including the padding of version 2. */
const LONGEST_FRONT = 2 * LONGEST_HEADER + 65536
/** The byte of a CAR of version 2 at which the field with the payload's offset begins. */
const PLACE_OF_PAYLOAD = 27
/** The maximum number of bytes that are passed to the core at once, unless it needs more. */
const CHUNK = 65536
const MORE = 176
const DONE = 96
/** The sizes in bytes of the core's record of a CID, and of the records of its calls for a CAR. */
const CID_RECORD = 88
const CALL_RECORDS = 72

/** Reads bytes from an iterator of chunks, and keeps those that are not yet used. */
class Source {
  constructor (chunks) {
    this.chunks = chunks
    this.kept = new Uint8Array(0)
    this.at = 0 // the index of the next byte in `kept`
    this.offset = 0 // the offset of that byte among all bytes
    this.ended = false
  }

  /**
   * Reads chunks until `count` bytes are available, or the chunks end. Returns the number of
   * available bytes. Throws INPUT if a chunk is not a typed array, a DataView or an ArrayBuffer.
   */
  async fill (count) {
    let there = this.kept.length - this.at
    if (there >= count) return there
    const parts = [this.kept.subarray(this.at)]
    while (there < count && !this.ended) {
      const { done, value } = await this.chunks.next()
      if (done) {
        this.ended = true
      } else {
        // A plain view, since `slice` of a Buffer doesn't copy.
        const bytes = bytesOf(value)
        parts.push(bytes)
        there += bytes.length
      }
    }
    if (parts.length > 1) {
      const joined = parts.length === 2 && parts[0].length === 0 ? parts[1] : new Uint8Array(there)
      if (joined !== parts[1]) {
        let at = 0
        for (const part of parts) {
          joined.set(part, at)
          at += part.length
        }
      }
      this.kept = joined
      this.at = 0
    }
    return there
  }

  /**
   * Returns the next bytes: at least `least`, or all that are left. `isAll` is true if they are
   * known to be the last bytes.
   */
  async next (least) {
    const there = await this.fill(least)
    const size = Math.min(there, Math.max(least, CHUNK))
    return { bytes: this.kept.subarray(this.at, this.at + size), isAll: this.ended && size === there }
  }

  /** Skips available bytes. */
  skip (count) {
    this.at += count
    this.offset += count
  }

  /** Closes the iterator of chunks if it has not ended, since it may keep a file open. */
  async close () { if (!this.ended) await this.chunks.return?.() }
}

/** Returns the error of a status, with its offset unless the status is NO_MEMORY. */
function wrong (status, offset) { return ofStatus(status, status === 1 ? undefined : offset) }

/** Returns the 64-bit number at an address of the core's memory. */
function numberAt (core, at) { return Number(core.numbers.getBigUint64(at, true)) }

/**
 * Reads the part before the sections from the first bytes of a CAR. Returns the version, the roots,
 * and the place of the sections. If there are too few bytes, returns the minimum number of
 * additional bytes. Throws if the part is invalid.
 */
function openPart (core, bytes, isAll) {
  for (let most = 8; ;) {
    const records = place(core, bytes, bytes.length, CALL_RECORDS + most * CID_RECORD)
    const roots = records + CALL_RECORDS
    const [more, offset] = [records + 24, records + 32]
    const status = core.calls.kombilad_car_open_part(core.room, bytes.length, isAll ? 1 : 0, LONGEST_HEADER, records, roots, most, core.neededAt, more, offset)
    const count = core.needed()
    if (status === MORE) return { more: numberAt(core, more) }
    if (status === 2) {
      most = count
      continue
    }
    if (status !== 0) throw wrong(status, numberAt(core, offset))
    const found = []
    for (let at = roots; found.length < count; at += CID_RECORD) found.push(checkedCid(core.bytes.slice(at + 1, at + 1 + core.bytes[at])))
    const [version, at, end] = [0, 8, 16].map((field) => core.numbers.getBigUint64(records + field, true))
    return { version: Number(version), roots: found, place: { version, at, end } }
  }
}

/**
 * Reads the complete sections in bytes of a CAR that begin at the place `at`, and moves `at` after
 * them. Returns the sections and the number of their bytes. Also returns the error after them, or
 * the minimum number of additional bytes for the next section. Returns neither at the end of the
 * CAR.
 */
function sectionsIn (core, bytes, isAll, at) {
  const records = place(core, bytes, bytes.length, CALL_RECORDS)
  const { numbers } = core
  const [cid, block, more, offset] = [records + 24, records + 40, records + 56, records + 64]
  const found = []
  numbers.setBigUint64(records, at.version, true)
  numbers.setBigUint64(records + 8, at.at, true)
  numbers.setBigUint64(records + 16, at.end, true)
  for (let used = 0; ;) {
    const status = core.calls.kombilad_car_next_part(core.room + used, bytes.length - used, isAll ? 1 : 0, LONGEST_SECTION, records, cid, block, more, offset)
    if (status !== 0) {
      at.at = numbers.getBigUint64(records + 8, true)
      const rest = status === MORE ? { more: numberAt(core, more) } : { error: status === DONE ? undefined : wrong(status, numberAt(core, offset)) }
      return { found, used, ...rest }
    }
    const begins = used + numberAt(core, cid)
    const middle = used + numberAt(core, block)
    const ends = middle + numberAt(core, block + 8)
    found.push({ cid: checkedCid(bytes.slice(begins, middle)), bytes: bytes.slice(middle, ends), begins: used, offset: middle, length: ends - used })
    used = ends
  }
}

/**
 * Reads the part of a CAR before the sections. Returns the version, the roots and the place of the
 * sections. Throws CAR_TOO_LONG if the part has more than LONGEST_FRONT bytes.
 */
async function open (source) {
  for (let least = 1; ;) {
    const { bytes, isAll } = await source.next(Math.min(least, LONGEST_FRONT))
    const opened = run(openPart, bytes, isAll)
    if (opened.more === undefined) {
      source.skip(Number(opened.place.at))
      return opened
    }
    if (bytes.length >= LONGEST_FRONT) throw ofName('CAR_TOO_LONG', PLACE_OF_PAYLOAD)
    least = bytes.length + opened.more
  }
}

/** Yields the sections from the place `at` on, with their CIDs, blocks and offsets. */
async function * sections (source, at) {
  for (let least = 1; ;) {
    const { bytes, isAll } = await source.next(least)
    const { found, used, more, error } = run(sectionsIn, bytes, isAll, at)
    const begins = source.offset
    source.skip(used)
    for (const section of found) {
      section.begins += begins
      section.offset += begins
      yield section
    }
    if (error !== undefined) throw error
    if (more === undefined) return
    least = bytes.length - used + more
  }
}

function chunksOf (chunks) {
  if (chunks?.[Symbol.asyncIterator]) return chunks[Symbol.asyncIterator]()
  if (chunks?.[Symbol.iterator]) return chunks[Symbol.iterator]()
  throw ofName('INPUT')
}

/** Opens a CAR, and returns an iterator of the class `Iterator` over its sections. */
async function begun (Iterator, chunks) {
  const source = new Source(chunksOf(chunks))
  try {
    const { version, roots, place } = await open(source)
    return new Iterator(version, roots, source, place)
  } catch (error) {
    await source.close()
    throw error
  }
}

/**
 * Iterates over the blocks of a CAR in their order, and reads them during the iteration:
 * `for await (const { cid, bytes } of iterator)`.
 */
export class CarBlockIterator {
  constructor (version, roots, source, place) {
    this.version = version
    this._roots = roots
    this._source = source
    this._place = place
    this._begun = false
  }

  static async fromBytes (bytes) { return begun(CarBlockIterator, [bytesOf(bytes)]) }
  static async fromIterable (chunks) { return begun(CarBlockIterator, chunks) }

  async getRoots () { return this._roots }

  /** Yields the sections. Throws CAR_READ_ONCE if they were already iterated over. */
  async * [Symbol.asyncIterator] () {
    if (this._begun) throw ofName('CAR_READ_ONCE')
    this._begun = true
    try {
      yield * sections(this._source, this._place)
    } finally {
      await this._source.close()
    }
  }
}

/** Iterates over the CIDs of a CAR in their order. */
export class CarCIDIterator extends CarBlockIterator {
  static async fromBytes (bytes) { return begun(CarCIDIterator, [bytesOf(bytes)]) }
  static async fromIterable (chunks) { return begun(CarCIDIterator, chunks) }

  async * [Symbol.asyncIterator] () {
    for await (const { cid } of super[Symbol.asyncIterator]()) yield cid
  }
}

/** Iterates over the positions of the blocks of a CAR, in their order. */
export class CarIndexer extends CarBlockIterator {
  static async fromBytes (bytes) { return begun(CarIndexer, [bytesOf(bytes)]) }
  static async fromIterable (chunks) { return begun(CarIndexer, chunks) }

  async * [Symbol.asyncIterator] () {
    for await (const { cid, bytes, begins, offset, length } of super[Symbol.asyncIterator]()) yield { cid, length, blockLength: bytes.length, offset: begins, blockOffset: offset }
  }
}

/** Returns a map from the key of each CID to the first item with this CID. */
export function byCid (items) {
  const named = new Map()
  for (const item of items) {
    const key = keyOf(item.cid)
    if (!named.has(key)) named.set(key, item)
  }
  return named
}

/** Reads all blocks of a CAR into memory. */
export class CarReader {
  constructor (version, roots, blocks) {
    this.version = version
    this._roots = roots
    this._blocks = blocks
    this._named = byCid(blocks)
  }

  static async fromBytes (bytes) {
    return CarReader.fromIterable([bytesOf(bytes)])
  }

  static async fromIterable (chunks) {
    const iterator = await CarBlockIterator.fromIterable(chunks)
    const blocks = []
    for await (const { cid, bytes } of iterator) blocks.push({ cid, bytes })
    return new CarReader(iterator.version, await iterator.getRoots(), blocks)
  }

  async getRoots () { return this._roots }
  async has (cid) { return this._named.has(keyOf(cid)) }
  async get (cid) { return this._named.get(keyOf(cid)) }
  async * blocks () { yield * this._blocks }
  async * cids () { for (const { cid } of this._blocks) yield cid }
}
