// Decodes untrusted blocks within limits.
// [begin: limits]
import { decode, setMemoryLimit } from 'kombilad'

setMemoryLimit(64 * 1024 * 1024)

/** Returns the value of an untrusted block, or the code and the offset of its error. */
function read (block) {
  try {
    return { value: decode(block, { levels: 8, values: 1000 }) }
  } catch (error) {
    return { code: error.code, offset: error.offset }
  }
}

console.log(read(Uint8Array.of(0x82, 1, 2)))
// Nine nested lists.
console.log(read(new Uint8Array(9).fill(0x81, 0, 8).fill(0x80, 8)))
// The head of a list of 4,294,967,295 items, without the items.
console.log(read(Uint8Array.of(0x9a, 255, 255, 255, 255)))
// [end: limits]
