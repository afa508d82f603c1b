import { failed, inputOf, levelsOf, place, run, sizeOf, valuesOf } from './core.js'
import { textOfUtf8 } from './text.js'
import { utf8 } from './writer.js'

/**
 * The number of extra bytes in the first buffer. The JSON usually has at most twice as many bytes
 * as the block.
 */
const SPARE = 64

function toJsonIn (core, bytes, levels, values) {
  const size = sizeOf(bytes)
  let most = 2 * size + SPARE
  for (;;) {
    const out = place(core, bytes, size, most)
    const status = core.calls.kombilad_block_to_json(core.room, size, levels, values, out, most, core.neededAt, core.offsetAt)
    const needed = core.needed()
    if (status === 0) return textOfUtf8(core.bytes, out, out + needed)
    if (status !== 2 || needed <= most) throw failed(core, status)
    most = needed
  }
}

/** Returns the DAG-JSON of a block. */
export function toJSON (bytes, options) {
  return run(toJsonIn, inputOf(bytes), levelsOf(options), valuesOf(options))
}

function fromJsonIn (core, bytes, levels, values) {
  const size = sizeOf(bytes)
  // Only a float, or a string of 256 bytes or more, takes more bytes in the block than in the text.
  let most = size + SPARE
  for (;;) {
    const out = place(core, bytes, size, most)
    const status = core.calls.kombilad_block_of_json(core.room, size, levels, values, out, most, core.neededAt, core.offsetAt)
    const needed = core.needed()
    if (status === 0) return core.bytes.slice(out, out + needed)
    if (status !== 2 || needed <= most) throw failed(core, status)
    most = needed
  }
}

/** Returns the canonical block of DAG-JSON, which is a string or UTF-8 bytes. */
export function fromJSON (text, options) {
  return run(fromJsonIn, typeof text === 'string' ? utf8(text) : inputOf(text), levelsOf(options), valuesOf(options))
}
