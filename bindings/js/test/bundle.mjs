// Tests bundles of bundled.js: three for a browser, in Chromium, and one for Node.
//
//     node bundle.mjs FOLDER     (the folder has the files below)
import assert from 'node:assert/strict'
import { writeFileSync } from 'node:fs'
import { createRequire } from 'node:module'
import { resolve } from 'node:path'
import { browse, serve } from './chromium.mjs'

const FOUND = { name: 'a record', size: '9007199254740992', links: ['bafyreiftoih67acderu7ozytqwpf5ftf7fr3r6r5dmquwy46nqp77cwohi'], code: 'BLOCK_UTF8' }
// The root that `ipfs add` prints.
const ROOT = 'Qmf412jQZiuVUtdgnB36FXFX7xg5V6KEbSJ4dpQuhkLyfD'
const folder = resolve(process.argv[2])

createRequire(import.meta.url)(`${folder}/node.cjs`)
assert.deepEqual(globalThis.found, FOUND)
await globalThis.packed
assert.equal(globalThis.root, ROOT)

const server = await serve(folder)
try {
  for (const [script, type] of [['esm.js', 'module'], ['iife.js', 'text/javascript'], ['rollup.js', 'text/javascript']]) {
    writeFileSync(`${folder}/${script}.html`, `<!doctype html><link rel="icon" href="data:,"><script type="${type}" src="${script}"></script>`)
    const page = await browse(`${server.url}${script}.html`)
    try {
      await page.until('window.found !== undefined && window.root !== undefined')
      assert.deepEqual(await page.value('window.found'), FOUND, script)
      assert.equal(await page.value('window.root'), ROOT, script)
      assert.deepEqual(page.problems, [], script)
    } finally {
      await page.close()
    }
  }
} finally {
  server.close()
}
