import { longOf, place } from './core.js'
import { Walk, itemsOf, stopped } from './walk.js'

export const NO_LIMIT = 2n ** 64n - 1n

/** Returns a limit as a number of 64 bits. A limit that is not a number is 0. */
function long (given, usual) {
  const limit = given ?? usual
  if (limit >= Number.MAX_SAFE_INTEGER) return NO_LIMIT
  return BigInt(Math.max(0, Math.floor(Number(limit))) || 0)
}

/** Returns a limit as a number of 32 bits, of which the greatest means no limit. */
function short (given, usual) { return Number(long(Math.min(given ?? usual, 0xffffffff), usual)) }

/** A walk over a file. A block has one item, which is its bytes of the file, or none. */
class FileWalk extends Walk {
  begin (size, { start, length, bytes, blocks, waiting, levels } = {}) {
    const first = longOf(start ?? 0, 'the start')
    const count = (length ?? Infinity) === Infinity ? NO_LIMIT : longOf(length, 'the length')
    const limits = [long(bytes, Infinity), long(blocks, 2 ** 24), short(waiting, 2 ** 18), short(levels, 64)]
    return this.call(() => this.calls.kombilad_file_new(this.room, size, first, count, ...limits, this.held))
  }

  take (block) {
    const size = block.length
    this.out = place(this, block, size, size)
    const status = this.call(() => this.calls.kombilad_file_take(this.held, this.room, size, this.out, size, this.neededAt, this.offsetAt))
    if (status !== 0) throw stopped(this, status)
    return Math.min(this.needed(), 1)
  }

  item () { return this.bytes.slice(this.out, this.out + this.needed()) }
}

/**
 * Iterates over the bytes of a file of UnixFS, in order. `get` returns the block of a CID, or
 * undefined if it is missing, or a promise of these. Nobody has to trust it.
 */
export function readFile (get, cid, options) { return itemsOf(FileWalk, get, cid, options) }
