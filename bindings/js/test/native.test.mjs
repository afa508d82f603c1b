// Compares each call of the module with the native library. bindings/test/native_cases.py wrote the
// file that CASES names.
import assert from 'node:assert/strict'
import { createReadStream } from 'node:fs'
import { createInterface } from 'node:readline'
import { test } from 'node:test'
import { core } from './package.mjs'

const { run } = core
const FILL = 0xa5
const UNWRITTEN = 0x5a5a5a5a
const WIDTHS = { block_at: 16, link_positions: 16, pb_tape: 16, tape: 16, cid_from_text: 88, cid_of_block: 88 }
// The calls whose only output buffer is the CID of the record.
const IN_RECORD = ['cid_from_text', 'cid_of_block']

function outcome (instance, name, data, numbers, length) {
  const width = WIDTHS[name] ?? 1
  const size = length * width
  const call = instance.calls[`kombilad_${name}`]
  const inRecord = IN_RECORD.includes(name)
  const path = Buffer.from(name === 'block_at' ? numbers[2] : '', 'hex')
  const after = core.place(instance, data, data.length, size + 16 + path.length)
  const { room, neededAt, offsetAt, cidAt } = instance
  const buffer = inRecord ? cidAt : after
  instance.bytes.fill(FILL, buffer, buffer + size + (inRecord ? 0 : 16))
  instance.words[neededAt >>> 2] = instance.words[offsetAt >>> 2] = UNWRITTEN
  const given = [room, data.length]
  const pathAt = buffer + size + 16
  if (path.length > 0) instance.bytes.set(path, pathAt)
  let status
  if (name === 'cid_of_block') status = call(BigInt(numbers[0]) << 32n | BigInt(numbers[1]), ...given, cidAt) ?? 0
  else if (name === 'cid_to_text') status = call(...given, numbers[0], buffer, length, neededAt)
  else if (name === 'cid_from_text') status = call(...given, cidAt, neededAt)
  else if (name === 'cid_check') status = call(...given)
  else if (name === 'block_at') status = call(...given, numbers[0], numbers[1], pathAt, path.length, buffer, neededAt, offsetAt)
  else if (name === 'links_count') status = call(...given, ...numbers, neededAt, offsetAt)
  else if (name.startsWith('block_check')) status = call(...given, ...numbers, offsetAt)
  else status = call(...given, ...numbers, buffer, length, neededAt, offsetAt)
  instance.refresh()
  const { bytes } = instance
  assert.equal(instance.calls.kombilad_wasm_live(), 0, 'what a call took it has freed')
  if (!inRecord) assert.ok(bytes.subarray(buffer + size, buffer + size + 16).every((byte) => byte === FILL), 'nothing is written behind a buffer')
  assert.ok(Buffer.from(bytes.buffer, room, data.length).equals(data), 'the input stays as it is')
  return [status >>> 0, instance.needed(), status === 1 ? UNWRITTEN : instance.offset(), Buffer.from(bytes.buffer, buffer, size).toString('hex')]
}

test('the module returns the same results as the native library', { skip: process.env.CASES === undefined && 'CASES names no file' }, async () => {
  const counts = {}
  const statuses = new Set()
  for await (const line of createInterface({ input: createReadStream(process.env.CASES) })) {
    const [name, hex, numbers, length, ...native] = JSON.parse(line)
    const ours = run(outcome, name, Buffer.from(hex, 'hex'), numbers, length)
    for (let at = 0; at < 4; at++) {
      if (ours[at] !== native[at]) assert.fail(`${name} of ${hex.slice(0, 400)} with ${numbers} and ${length}: the module has ${ours}, the library ${native}`.slice(0, 2000))
    }
    counts[name] = (counts[name] ?? 0) + 1
    statuses.add(native[0])
  }
  console.log(Object.entries(counts).map(([name, count]) => `${name} ${count}`).join(', '), `statuses ${[...statuses].sort((a, b) => a - b)}`)
  assert.ok(Object.keys(counts).length >= 10)
  assert.ok(statuses.size >= 30)
})
