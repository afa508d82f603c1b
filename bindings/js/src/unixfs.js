import { ownCid } from './cid.js'
import { bytesOf, inputOf, longOf, place, run, sizeOf } from './core.js'
import { inBlock, narrow, stopped } from './walk.js'

/** The kinds of nodes, in the order of their numbers. */
const KINDS = ['raw', 'folder', 'file', 'metadata', 'symlink', 'shard']
const SYMLINK = 4
/** The size in bytes of the core's record of a node, and the bits of the fields that it has. */
export const NODE = 32
const [SIZE, MODE, TIME] = [1, 2, 4]

function nodeIn (core, block, cid) {
  const size = sizeOf(block)
  const node = place(core, block, size, NODE + size + cid.length)
  const target = node + NODE
  core.bytes.set(cid, target + size)
  const status = core.calls.kombilad_unixfs_node(target + size, cid.length, core.room, size, node, target, size, core.neededAt, core.offsetAt)
  if (status !== 0) throw stopped(core, status)
  const length = core.needed()
  const { bytes, numbers } = core
  const kind = numbers.getUint32(node, true)
  const fields = numbers.getUint32(node + 4, true)
  return {
    kind: KINDS[kind],
    size: fields & SIZE ? narrow(numbers.getBigUint64(node + 8, true)) : undefined,
    mode: fields & MODE ? numbers.getUint32(node + 28, true) : undefined,
    mtime: fields & TIME ? { seconds: narrow(numbers.getBigInt64(node + 16, true)), nanoseconds: numbers.getUint32(node + 24, true) } : undefined,
    target: kind === SYMLINK ? bytes.slice(target, target + length) : undefined
  }
}

/**
 * Returns the permissions and the time of what is packed, for `writeAttributes`. Throws INPUT if one
 * of the numbers is out of range.
 */
export function attributesOf ({ mode, mtime } = {}) {
  const { seconds = 0, nanoseconds = 0 } = mtime ?? {}
  return {
    fields: (mode == null ? 0 : MODE) + (mtime == null ? 0 : TIME),
    mode: Number(longOf(mode ?? 0, 'mode has to be an integer from 0 to 2^32 - 1', 0n, 2n ** 32n - 1n)),
    seconds: longOf(seconds, 'the seconds of mtime have to be an integer of 64 bits', -(2n ** 63n), 2n ** 63n - 1n),
    nanoseconds: Number(longOf(nanoseconds, 'the nanoseconds of mtime have to be an integer from 0 to 999,999,999', 0n, 999999999n))
  }
}

/** Writes these to an address of the core's memory, as a record of a node. Returns the address. */
export function writeAttributes ({ numbers }, at, { fields, mode, seconds, nanoseconds }) {
  numbers.setUint32(at + 4, fields, true)
  numbers.setBigInt64(at + 16, seconds, true)
  numbers.setUint32(at + 24, nanoseconds, true)
  numbers.setUint32(at + 28, mode, true)
  return at
}

/**
 * Verifies the block of a CID, and returns what it says of a file, a folder or a symbolic link.
 * What it doesn't state is undefined.
 */
export function readNode (cid, block) {
  const own = ownCid(cid)
  return inBlock(own, () => run(nodeIn, inputOf(block), bytesOf(own.bytes)))
}
