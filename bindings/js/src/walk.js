import { checkedCid, madeCid, ownCid } from './cid.js'
import { Core, bytesOf, place, trapOf } from './core.js'
import { ofName, ofStatus } from './errors.js'

const DONE = 192
/** The size in bytes of the core's record of what it keeps. */
const HELD = 16

/**
 * A core of its own for calls that keep memory of the core from one to the next. The engine frees
 * it.
 */
export class Holder extends Core {
  constructor () {
    super()
    this.isStopped = false
    this.held = this.calls.kombilad_wasm_take(HELD)
    if (this.held === 0) throw ofStatus(1)
    this.refresh()
    this.bytes.fill(0, this.held, this.held + HELD)
  }

  /** Takes the record and the room from the heap, which also has what the calls keep. */
  grown (size) {
    if (this.size >= 0) this.calls.kombilad_wasm_free(this.neededAt)
    this.size = -1
    const at = this.calls.kombilad_wasm_take(size) >>> 0
    // Addresses are signed numbers of 32 bits.
    if (at + size < 2 ** 31) return at
    this.calls.kombilad_wasm_free(at)
    return 0
  }

  /** Returns the status of a call of the core. Throws TRAP after a trap. */
  call (work) {
    try {
      return work()
    } catch (error) {
      this.isStopped = true
      throw trapOf(error)
    } finally {
      this.refresh()
    }
  }
}

/**
 * A walk over the blocks of a file or a folder. A class that extends this one has the calls `begin`,
 * `take` and `item`.
 */
export class Walk extends Holder {
  constructor (root, options) {
    super()
    place(this, root, root.length, 0)
    const status = this.begin(root.length, options)
    if (status !== 0) throw ofStatus(status)
  }

  /** Returns the CID of the block that the walk wants, or undefined at its end. */
  wanted () {
    const status = this.call(() => this.calls.kombilad_walk_wanted(this.held, this.cidAt))
    if (status === DONE) return undefined
    if (status !== 0) throw ofStatus(status)
    return checkedCid(madeCid(this))
  }
}

/**
 * Iterates over the items of a walk of this class. Asks for a block when the items of the blocks
 * before it were taken.
 */
export async function * itemsOf (OwnWalk, get, cid, options) {
  const walk = new OwnWalk(bytesOf(ownCid(cid).bytes), options)
  for (let wanted; (wanted = walk.wanted()) !== undefined;) {
    const block = await blockOf(get, wanted)
    const count = inBlock(wanted, () => walk.take(bytesOf(block)))
    for (let each = 0; each < count; each++) yield walk.item(each)
  }
}

/** The code of the hash function identity. */
const IDENTITY = 0

/**
 * Returns the block that is in a CID, or otherwise what `get` returns. Throws MISSING_BLOCK if that is
 * undefined or null.
 */
export async function blockOf (get, cid) {
  if (cid.multihash.code === IDENTITY) return cid.multihash.digest
  const block = await get(cid)
  if (block === undefined || block === null) throw ofBlock(ofName('MISSING_BLOCK'), cid)
  return block
}

/** Adds the CID of a block to an error of this package, and returns the error. */
export function ofBlock (error, cid) {
  if (error.name === 'KombiladError') {
    error.cid = cid
    error.message += `, in block ${cid}`
  }
  return error
}

/** Returns the result of `work`. Adds the CID of a block to an error of this package. */
export function inBlock (cid, work) {
  try {
    return work()
  } catch (error) {
    throw ofBlock(error, cid)
  }
}

/**
 * Returns the error of a status of a block, with its place: the byte of a field, or the index of a
 * link. Other statuses have no place.
 */
export function stopped (core, status) {
  const isByte = (status >= 80 && status < 96) || (status >= 144 && status < 160) || (status >= 208 && status < 224)
  const error = ofStatus(status, isByte ? core.offset() : undefined)
  if ((status >= 228 && status < 232) || status === 234) {
    error.link = core.offset()
    error.message += ` (at link ${error.link})`
  }
  return error
}

/** Returns a BigInt as a number if it is a safe integer, and otherwise unchanged. */
export function narrow (long) {
  const number = Number(long)
  return Number.isSafeInteger(number) ? number : long
}
