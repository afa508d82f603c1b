// Writes a file of IPFS to standard output, from a gateway that nobody has to trust.
//
//     node fetch_file.mjs GATEWAY CID      such as https://trustless-gateway.link
import { once } from 'node:events'
import { CID, readFile } from 'kombilad'

// The maximum number of bytes of a block.
const LONGEST = 4 << 20

const [gateway, text] = process.argv.slice(2)

/** Returns the block of a CID, or undefined if the gateway has none. */
async function get (cid) {
  const url = `${gateway.replace(/\/$/, '')}/ipfs/${cid}?format=raw`
  const answer = await fetch(url, { signal: AbortSignal.timeout(30000) })
  if (answer.status === 404 || answer.status === 410) return undefined
  if (!answer.ok) throw new Error(`${url}: status ${answer.status}`)
  const block = new Uint8Array(LONGEST)
  let length = 0
  for await (const chunk of answer.body) {
    if (length + chunk.length > LONGEST) throw new Error(`${url}: more than ${LONGEST} bytes`)
    block.set(chunk, length)
    length += chunk.length
  }
  return block.subarray(0, length)
}

async function main () {
  for await (const piece of readFile(get, CID.parse(text))) {
    if (!process.stdout.write(piece)) await once(process.stdout, 'drain')
  }
}

main().catch(({ message, cause }) => {
  console.error(`fetch_file: ${cause ? `${message}: ${cause.message}` : message}`)
  process.exitCode = 1
})
