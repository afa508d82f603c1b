import { CID, checkedCid, ownCid } from './cid.js'
import { bytesOf, detached, isCurrent, iterableOf, longOf, place, viewOf } from './core.js'
import { KombiladError, ofName, ofStatus } from './errors.js'
import { NO_LIMIT } from './file.js'
import { ENTRY } from './folder.js'
import { NODE, attributesOf, writeAttributes } from './unixfs.js'
import { Holder, narrow } from './walk.js'
import { byBytes, utf8, zeros } from './writer.js'

const TOO_SHORT = 2
const UNKNOWN_VERSION = 20
const DONE = 192
const INVALID_NAME = 243
const NAME_ORDER = 244
/** The size in bytes of the core's record of a packed block, and of the padding after it. */
const ROW = 112
/** The maximum size of a chunk in bytes. */
const LARGEST_CHUNK = 2 ** 26

/** A core that packs one file, folder or symbolic link at a time. */
class Packing extends Holder {
  constructor (options) {
    super()
    this.options = options
    this.chunk = undefined
  }

  /** Calls the core. Throws the error of its status, with the name of the entry at fault. */
  done (work, entries) {
    const status = this.call(work)
    if (status === INVALID_NAME) throw ofEntry(ofStatus(status), entries[this.offset()].name)
    // The names are in order, so it is there twice.
    if (status === NAME_ORDER) throw ofEntry(ofName('PACK_NAME_ORDER'), entries[this.offset()].name)
    if (status !== 0) throw ofStatus(status)
  }

  /** Begins a file, whose chunks are gathered in `chunk`. */
  begin () {
    const { version, rawLeaves, links, chunkSize } = this.options
    this.done(() => this.calls.kombilad_pack_file(version, rawLeaves, links, this.held))
    this.chunk = this.chunk ?? zeros(chunkSize)
  }

  /** Adds a chunk that isn't the last. */
  add (chunk) {
    place(this, chunk, chunk.length, 0)
    this.done(() => this.calls.kombilad_pack_chunk(this.held, this.room, chunk.length))
  }

  /** Adds the last chunk. */
  end (chunk, attributes) {
    const node = writeAttributes(this, place(this, chunk, chunk.length, NODE), attributes)
    this.done(() => this.calls.kombilad_pack_last_chunk(this.held, this.room, chunk.length, node))
  }

  /** Packs a symbolic link. */
  link (target, attributes) {
    const node = writeAttributes(this, place(this, target, target.length, NODE), attributes)
    this.done(() => this.calls.kombilad_pack_symlink(this.options.version, node, this.room, target.length, this.held))
  }

  /** Packs a folder. The entries are in the order of their names. */
  folder (entries, attributes) {
    const { version, shardedAbove } = this.options
    const size = entries.reduce((sum, { utf8 }) => sum + utf8.length, 0)
    this.reserve(NODE + entries.length * ENTRY + size)
    const { bytes, numbers, room } = this
    const rows = room + NODE
    const names = rows + entries.length * ENTRY
    bytes.fill(0, rows, names)
    let end = 0
    entries.forEach(({ utf8, cid, total }, each) => {
      const at = rows + each * ENTRY
      bytes[at] = cid.length
      bytes.set(cid, at + 1)
      ;[end, utf8.length, total, 1].forEach((field, word) => numbers.setBigUint64(at + 88 + word * 8, BigInt(field), true))
      bytes.set(utf8, names + end)
      end += utf8.length
    })
    writeAttributes(this, room, attributes)
    this.done(() => this.calls.kombilad_pack_folder(version, room, shardedAbove, rows, entries.length, names, size, this.held, this.offsetAt), entries)
  }

  /** Takes the next block that waits. Returns undefined if none waits. */
  take () {
    for (;;) {
      const { room, size } = this
      const status = this.call(() => this.calls.kombilad_pack_take(this.held, room, room + ROW, size - ROW, this.neededAt))
      if (status === DONE) return undefined
      if (status !== 0 && status !== TOO_SHORT) throw ofStatus(status)
      const { bytes, numbers } = this
      const length = this.needed()
      const cid = () => checkedCid(bytes.slice(room + 1, room + 1 + bytes[room]))
      const [fileSize, total] = [88, 96].map((field) => narrow(numbers.getBigUint64(room + field, true)))
      // `put` may change its CID.
      if (status === 0) return { cid: cid(), block: bytes.slice(room + ROW, room + ROW + length), packed: { cid: cid(), size: fileSize, total } }
      this.reserve(ROW + length)
    }
  }

  /** Frees what is packed. */
  free () { this.call(() => this.calls.kombilad_pack_free(this.held)) }
}

/** Adds the name of an entry of a folder to an error of this package, and returns the error. */
function ofEntry (error, name) {
  if (error instanceof KombiladError) {
    error.entry = name
    error.message += `: ${JSON.stringify(name)}`
  }
  return error
}

/** Returns an entry of a folder, with the bytes of its name and of its CID. */
function entryOf ([name, packed]) {
  if (typeof name !== 'string') throw ofName('INPUT', undefined, ': the name of an entry has to be a string')
  const { cid, total } = packed ?? {}
  try {
    return { name, utf8: utf8(name), cid: CID.decode(ownCid(cid).bytes).bytes, total: longOf(total, 'the total of an entry has to be an integer of 64 bits') }
  } catch (error) {
    throw ofEntry(error, name)
  }
}

/** Yields the pieces of a stream, in browsers in which it can't be iterated over. */
async function * read (stream) {
  const reader = stream.getReader()
  try {
    for (let piece; !(piece = await reader.read()).done;) yield piece.value
  } finally {
    await reader.cancel()
  }
}

/** Returns an iterable over the pieces of a source: bytes, a Blob, a stream or an iterable. */
function piecesOf (source) {
  const bytes = viewOf(source)
  if (bytes !== undefined) return [bytes]
  const stream = typeof source?.stream === 'function' ? source.stream() : source
  const isPlain = typeof stream?.getReader === 'function' && stream[Symbol.asyncIterator] === undefined
  return isPlain ? read(stream) : iterableOf(stream, ': the source has to be bytes, a Blob or an iterable of bytes')
}

/**
 * Packs files, folders and symbolic links of UnixFS into blocks, as `ipfs add` does. Each block is
 * passed to `put(cid, block)` when it is made.
 */
export class Packer {
  constructor ({ put, version = 0, rawLeaves = false, chunkSize = 2 ** 18, links = 174, shardedAbove = 2 ** 18 } = {}) {
    if (typeof put !== 'function') throw ofName('INPUT', undefined, ': put has to be a function')
    if (version !== 0 && version !== 1) throw ofStatus(UNKNOWN_VERSION)
    this._put = put
    this._options = {
      version,
      chunkSize: Number(longOf(chunkSize, `chunkSize has to be an integer from 1 to ${LARGEST_CHUNK}`, 1n, BigInt(LARGEST_CHUNK))),
      rawLeaves: rawLeaves ? 1 : 0,
      links: Number(longOf(links, 'links has to be an integer from 2 to 2^32 - 1', 0n, 2n ** 32n - 1n)),
      shardedAbove: shardedAbove === Infinity ? NO_LIMIT : longOf(shardedAbove, 'shardedAbove has to be an integer of 64 bits, or Infinity')
    }
    // The core checks the options.
    this._spare = new Packing(this._options)
    this._spare.begin()
  }

  /**
   * Calls `work` with a core for it, and frees what this packs. Calls at the same time have several
   * cores. One is kept for the next call.
   */
  async _with (work) {
    const spare = this._spare
    this._spare = undefined
    const packing = spare !== undefined && isCurrent(spare) ? spare : new Packing(this._options)
    try {
      return await work(packing)
    } finally {
      if (!packing.isStopped) {
        packing.free()
        this._spare = packing
      }
    }
  }

  /** Passes the blocks that wait to `put`. Returns what is packed in the first and in the last. */
  async _pass (packing) {
    const put = this._put
    let first
    let last
    for (let made; (made = packing.take()) !== undefined;) {
      last = made.packed
      first = first ?? last
      await put(made.cid, made.block)
    }
    return [first, last]
  }

  /** Packs a file. */
  async file (source, options) {
    const attributes = attributesOf(options)
    const pieces = piecesOf(source)
    return this._with(async (packing) => {
      packing.begin()
      const { chunk } = packing
      let there = 0
      for await (const piece of pieces) {
        const bytes = bytesOf(piece)
        const { length } = bytes
        for (let at = 0; at < length;) {
          // A full chunk isn't the last one if more bytes follow.
          if (there === chunk.length) {
            packing.add(chunk)
            there = 0
            await this._pass(packing)
            if (bytes.length !== length) throw detached()
          }
          const end = Math.min(at + chunk.length - there, length)
          chunk.set(bytes.subarray(at, end), there)
          there += end - at
          at = end
        }
      }
      packing.end(chunk.subarray(0, there), attributes)
      const [, root] = await this._pass(packing)
      return root
    })
  }

  /** Packs a folder. An entry is a name and what `file`, `folder` or `symlink` returned. */
  async folder (entries, options) {
    const attributes = attributesOf(options)
    const sorted = []
    for await (const entry of iterableOf(entries, ': the entries have to be an iterable of pairs')) sorted.push(entryOf(entry))
    sorted.sort((a, b) => byBytes(a.utf8, b.utf8))
    return this._with(async (packing) => {
      packing.folder(sorted, attributes)
      const [root] = await this._pass(packing)
      return root
    })
  }

  /** Packs a symbolic link. The target is a string, or its UTF-8. */
  async symlink (target, options) {
    const attributes = attributesOf(options)
    const bytes = typeof target === 'string' ? utf8(target) : new Uint8Array(bytesOf(target))
    return this._with(async (packing) => {
      packing.link(bytes, attributes)
      const [root] = await this._pass(packing)
      return root
    })
  }
}
