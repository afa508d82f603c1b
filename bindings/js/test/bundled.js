// A bundler makes one file from this file and the package. bundle.mjs checks the result.
import { CID, KombiladError, Packer, decode, encode, links } from 'kombilad'

const cid = CID.parse('bafyreiftoih67acderu7ozytqwpf5ftf7fr3r6r5dmquwy46nqp77cwohi')
const block = encode({ name: 'a record', next: cid, size: 2n ** 53n })
let code
try {
  decode(new Uint8Array([0x61, 0xff]))
} catch (error) {
  code = error instanceof KombiladError && error.code
}
globalThis.packed = new Packer({ put () {} }).file(new Blob(['hello world'])).then(({ cid }) => { globalThis.root = String(cid) })
globalThis.found = { name: decode(block).name, size: String(decode(block).size), links: links(block).map(String), code }
