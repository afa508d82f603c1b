import { CID, ownCid } from './cid.js'
import { bytesOf, iterableOf, longOf, place, run } from './core.js'
import { ofStatus } from './errors.js'
import { zeros } from './writer.js'

/** The size in bytes of the core's record of a CID. */
const CID_RECORD = 88
/** The maximum number of bytes of a section before its block. A root takes fewer in the header. */
const SECTION = 96

function headerIn (core, roots) {
  const size = (roots.length + 1) * SECTION
  core.reserve(roots.length * CID_RECORD + size)
  const { bytes, room } = core
  const out = room + roots.length * CID_RECORD
  bytes.fill(0, room, out)
  roots.forEach((root, each) => bytes.set([root.length, ...root], room + each * CID_RECORD))
  const status = core.calls.kombilad_car_header(room, roots.length, out, size, core.neededAt, core.offsetAt)
  if (status !== 0) throw ofStatus(status)
  const length = core.needed()
  return core.bytes.slice(out, out + length)
}

/** Returns the bytes of a section that are before a block of this size. */
function sectionIn (core, cid, size) {
  const out = place(core, cid, cid.length, SECTION)
  const status = core.calls.kombilad_car_section(core.room, cid.length, BigInt(size), out, SECTION, core.neededAt)
  if (status !== 0) throw ofStatus(status)
  const length = core.needed()
  return core.bytes.slice(out, out + length)
}

/**
 * Yields the bytes of a CAR of version 1: its header, and then a section for each block. Keeps no
 * block.
 */
export async function * encodeCar (roots, blocks) {
  const sections = iterableOf(blocks, ': the blocks have to be an iterable')
  const first = []
  for await (const root of iterableOf(roots, ': the roots have to be an iterable of CIDs')) first.push(CID.decode(ownCid(root).bytes).bytes)
  yield run(headerIn, first)
  for await (const { cid, bytes } of sections) {
    const block = bytesOf(bytes)
    const head = run(sectionIn, bytesOf(ownCid(cid).bytes), block.length)
    const section = zeros(head.length + block.length)
    section.set(head)
    section.set(block, head.length)
    yield section
  }
}

/** The size in bytes of the core's record of a CID and an offset. */
const ROW = CID_RECORD + 8
/** The number of bytes of a CAR of version 2 before its payload. */
const FRONT = 51

function indexIn (core, rows, payload) {
  const given = rows.length * ROW
  // An entry takes fewer bytes than a row, unless its digest is long.
  let most = given + 2 * ROW
  for (;;) {
    core.reserve(given + most)
    const { bytes, numbers, room } = core
    const out = room + given
    bytes.fill(0, room, out)
    rows.forEach(({ cid, offset }, each) => {
      const at = room + each * ROW
      bytes[at] = cid.length
      bytes.set(cid, at + 1)
      numbers.setBigUint64(at + CID_RECORD, offset, true)
    })
    const status = core.calls.kombilad_car_index(room, rows.length, payload, out, most, core.neededAt, core.offsetAt)
    const needed = core.needed()
    if (status === 0) return core.bytes.slice(out, out + needed)
    if (status !== 2 || needed <= most) throw ofStatus(status)
    most = needed
  }
}

/**
 * Returns what a CAR of version 2 has around a payload, which is a CAR of version 1: the bytes before
 * it, and the index of its blocks after it.
 */
export function encodeCarIndex (blocks, payloadLength) {
  const payload = longOf(payloadLength, 'the length of the payload')
  const rows = []
  for (const { cid, offset } of blocks) {
    rows.push({ cid: CID.decode(ownCid(cid).bytes).bytes, offset: longOf(offset, 'an offset') })
  }
  const around = run(indexIn, rows, payload)
  return { header: around.slice(0, FRONT), index: around.slice(FRONT) }
}
