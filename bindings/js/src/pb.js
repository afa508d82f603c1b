import { checkedCid } from './cid.js'
import { failed, inputOf, place, run, sizeOf } from './core.js'
import { entriesOf, integer } from './block.js'
import { Texts } from './text.js'

const ENTRY = 16

/**
 * Makes the entries of a node, and returns the result of `work`. The arguments of `work` are the
 * core with the block in its room, the index of the first entry in 32-bit words, the number of
 * entries, and the block's length.
 */
function withEntries (core, bytes, work) {
  const length = sizeOf(bytes)
  // A link takes at least eight bytes of a block, and has at most three entries.
  let most = Math.min(64, length)
  for (;;) {
    const tape = place(core, bytes, length, most * ENTRY)
    const status = core.calls.kombilad_pb_tape(core.room, length, tape, most, core.neededAt, core.offsetAt)
    const count = core.needed()
    if (status === 0) return work(core, tape >>> 2, count, length)
    if (status !== 2 || count <= most) throw failed(core, status)
    most = count
  }
}

function nodeOf (core, first, count, length) {
  const { words, bytes, room } = core
  const texts = new Texts(bytes, room + length)
  const node = {}
  const Links = []
  let link
  for (let at = first; at < first + count * 4; at += 4) {
    const begins = room + words[at + 2]
    switch (words[at]) {
      case 3: link.Tsize = integer(core, at); break
      case 6: link.Name = texts.at(begins, words[at + 1]); break
      case 7: node.Data = bytes.slice(begins, begins + words[at + 1]); break
      default: Links.push(link = { Hash: checkedCid(bytes.slice(begins, begins + words[at + 1])) })
    }
  }
  node.Links = Links
  return node
}

/**
 * Returns the entries of a node in the order of `kombilad_pb_tape`: for each link its CID (kind 8),
 * name (6) and size (3), and then the data (7).
 */
export function pbTape (bytes) { return run(withEntries, inputOf(bytes), entriesOf) }

/** The DAG-PB codec, which only decodes. Its nodes have the form of `@ipld/dag-pb`. */
export const dagPb = {
  name: 'dag-pb',
  code: 0x70,
  /** Returns the node of a block. */
  decode (bytes) { return run(withEntries, inputOf(bytes), nodeOf) }
}
