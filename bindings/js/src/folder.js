import { CID, checkedCid, madeCid, ownCid, verify } from './cid.js'
import { bytesOf, place, run } from './core.js'
import { ofName, ofStatus } from './errors.js'
import { textOfUtf8 } from './text.js'
import { Walk, blockOf, inBlock, itemsOf, narrow, ofBlock, stopped } from './walk.js'
import { utf8 } from './writer.js'

/** The sizes in bytes of the core's records of an entry and of a place. */
export const ENTRY = 120
const SPAN = 16
/** The minimum number of bytes of an entry in a block. */
const SHORTEST_ENTRY = 6
const UNKNOWN_HASH = 112
const WRONG_DIGEST = 113
const MISSING = 236
const MORE = 237

/** A walk over a folder. The items of a block are its entries. */
class FolderWalk extends Walk {
  begin (size) { return this.call(() => this.calls.kombilad_folder_new(this.room, size, this.held)) }

  take (block) {
    const size = block.length
    const most = Math.floor(size / SHORTEST_ENTRY)
    const behind = most * ENTRY + size
    // The entries may need twenty times as much room as the block. A wrong block doesn't get it.
    if (size + behind > this.size) {
      const isVerified = verify(this.wanted(), block)
      if (isVerified !== true) throw ofStatus(isVerified === false ? WRONG_DIGEST : UNKNOWN_HASH)
    }
    this.entries = place(this, block, size, behind)
    this.names = this.entries + most * ENTRY
    const status = this.call(() => this.calls.kombilad_folder_take(this.held, this.room, size, this.entries, most, this.names, size, this.neededAt, this.offsetAt))
    if (status !== 0) throw stopped(this, status)
    return this.needed()
  }

  item (each) {
    const { bytes, numbers } = this
    const at = this.entries + each * ENTRY
    // The low halves of 64-bit numbers: the place of the name in 32-bit memory, and 0 or 1.
    const [begins, length, hasSize] = [88, 96, 112].map((field) => numbers.getUint32(at + field, true))
    const name = this.names + begins
    return {
      name: textOfUtf8(bytes, name, name + length),
      cid: checkedCid(bytes.slice(at + 1, at + 1 + bytes[at])),
      tsize: hasSize === 0 ? undefined : narrow(numbers.getBigUint64(at + 104, true))
    }
  }
}

/**
 * Iterates over the entries of a folder of UnixFS, plain or sharded, block by block. `get` is as in
 * `readFile`.
 */
export function listFolder (get, cid) { return itemsOf(FolderWalk, get, cid) }

/**
 * Looks for a name in a folder. `blocks` are those from the folder's own on. Returns the status and
 * the CID that belongs to it. If one more block is needed, replaces the last block with a copy,
 * which the core has verified.
 */
function lookupIn (core, folder, name, blocks) {
  const parts = [...blocks, folder, name]
  const spans = parts.length * SPAN
  core.reserve(parts.reduce((sum, { length }) => sum + length, spans))
  const { bytes, numbers, room } = core
  let end = spans
  parts.forEach((part, each) => {
    bytes.set(part, room + end)
    numbers.setBigUint64(room + each * SPAN, BigInt(end), true)
    numbers.setBigUint64(room + each * SPAN + 8, BigInt(part.length), true)
    end += part.length
  })
  const nameAt = room + end - name.length
  const folderAt = nameAt - folder.length
  const status = core.calls.kombilad_folder_lookup(folderAt, folder.length, nameAt, name.length, room, end, room, blocks.length, core.cidAt, core.offsetAt)
  core.refresh()
  if (status !== 0 && status !== MISSING && status !== MORE) throw stopped(core, status)
  if (status === MORE && blocks.length > 0) blocks.push(core.bytes.slice(folderAt - blocks.pop().length, folderAt))
  return { status, cid: status === MISSING ? undefined : checkedCid(madeCid(core)) }
}

/** Returns the CID of the entry of a folder with this name, or undefined if it has none. */
async function entryOf (get, folder, name) {
  const blocks = []
  let wanted = folder
  for (;;) {
    const { status, cid } = inBlock(wanted, () => run(lookupIn, folder.bytes, name, blocks))
    if (status !== MORE) return cid
    wanted = cid
    const block = await blockOf(get, wanted)
    blocks.push(inBlock(wanted, () => bytesOf(block)))
  }
}

/**
 * Returns a promise of the CID at a path such as `a/b/c` in a folder. Empty names are skipped. `get`
 * is as in `readFile`. Throws MISSING_ENTRY if a folder has no entry with the next name. Symbolic
 * links aren't followed.
 */
export async function resolvePath (get, cid, path) {
  if (typeof path !== 'string') throw ofName('INPUT', undefined, ': the path')
  let found = CID.decode(ownCid(cid).bytes)
  for (let from = 0, to; from <= path.length; from = to + 1) {
    to = path.indexOf('/', from)
    if (to < 0) to = path.length
    if (from === to) continue
    const entry = await entryOf(get, found, utf8(path.slice(from, to)))
    if (entry === undefined) {
      const missing = path.slice(0, to)
      throw Object.assign(ofBlock(ofName('MISSING_ENTRY', undefined, `: ${missing}`), found), { path: missing })
    }
    found = entry
  }
  return found
}
