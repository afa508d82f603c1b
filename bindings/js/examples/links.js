// Prints the links of the block in a file.
import { readFileSync } from 'node:fs'
import { links } from 'kombilad'

const block = readFileSync(process.argv[2])

for (const cid of links(block)) console.log(String(cid))
