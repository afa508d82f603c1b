// Compares the times of the package and of an equally strict reader in plain JavaScript. They run
// in turns, and each time is the minimum of many runs.
//
//     node bench.mjs PACKAGE FOLDER
//
// bench/data.py writes the data in FOLDER. If PACKAGE is not a folder, it is imported by its name.
import { existsSync, readFileSync } from 'node:fs'
import { deepStrictEqual } from 'node:assert'
import { resolve } from 'node:path'
import { pathToFileURL } from 'node:url'
import * as plain from './plain.mjs'

const [name, folder] = process.argv.slice(2)
const kombilad = await import(existsSync(name) ? pathToFileURL(resolve(name, 'src/node.js')) : name)

/** Returns the minimum time of each function in microseconds. */
function least (works, rounds = 120) {
  const times = works.map((work) => {
    const begun = performance.now()
    for (let each = 0; each < 2000 && performance.now() - begun < 100; each++) work()
    const begin = performance.now()
    work()
    return Math.max(1, Math.floor(2 / (performance.now() - begin)))
  })
  const found = works.map(() => Infinity)
  for (let round = 0; round < rounds; round++) {
    works.forEach((work, at) => {
      const begin = performance.now()
      for (let each = 0; each < times[at]; each++) work()
      found[at] = Math.min(found[at], (performance.now() - begin) / times[at] * 1000)
    })
  }
  return found
}

const blocks = Object.fromEntries(['record', 'file', 'hamt', 'integers', 'keys', 'strings', 'post'].map((it) => [it, readFileSync(`${folder}/${it}.cbor`)]))
blocks.records = Buffer.concat([Uint8Array.of(0x98, 200), ...new Array(200).fill(blocks.record)])

let tapes = true
try {
  kombilad.decode(blocks.record)
} catch (error) {
  if (error.code !== 'NO_TAPE') throw error
  tapes = false
}

const bytesOfLinks = (links) => links.map(({ bytes }) => [...bytes])
const columns = ['block', 'bytes', 'check, µs', 'links, µs', 'plain', 'ratio', ...tapes ? ['decode, µs', 'plain', 'ratio', 'encode, µs'] : []]
console.log(`| ${columns.join(' | ')} |\n|${'---|'.repeat(columns.length)}`)
for (const [label, data] of Object.entries(blocks)) {
  const block = new Uint8Array(data)
  deepStrictEqual(bytesOfLinks(kombilad.links(block)), bytesOfLinks(plain.links(block)))
  const works = [() => kombilad.check(block), () => kombilad.links(block), () => plain.links(block)]
  if (tapes) {
    const value = kombilad.decode(block)
    deepStrictEqual(JSON.stringify(value, big), JSON.stringify(plain.decode(block), big))
    works.push(() => kombilad.decode(block), () => plain.decode(block), () => kombilad.encode(value))
  }
  const [check, links, plainLinks, decode, plainDecode, encode] = least(works)
  const row = [label, block.length, check.toFixed(2), links.toFixed(2), plainLinks.toFixed(2), (links / plainLinks).toFixed(2)]
  if (tapes) row.push(decode.toFixed(2), plainDecode.toFixed(2), (decode / plainDecode).toFixed(2), encode.toFixed(2))
  console.log(`| ${row.join(' | ')} |`)
}

function big (key, value) {
  if (typeof value === 'bigint') return `${value}n`
  return value?.bytes instanceof Uint8Array || value?.['/'] !== undefined ? undefined : value
}
