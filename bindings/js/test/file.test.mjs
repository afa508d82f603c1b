// Tests readFile over the files of FILES, which file_cases.py packs, and the client fetch_file.mjs
// against honest and dishonest gateways.
import assert from 'node:assert/strict'
import { execFile, spawn } from 'node:child_process'
import { once } from 'node:events'
import { copyFileSync, readFileSync } from 'node:fs'
import { join } from 'node:path'
import { createInterface } from 'node:readline'
import { describe, test } from 'node:test'
import { fileURLToPath } from 'node:url'
import { promisify } from 'node:util'
import { kombilad } from './package.mjs'

const { CarReader, CID, KombiladError, links, readFile, setMemoryLimit } = kombilad
const files = process.env.FILES
const content = readFileSync(join(files, 'content'))
const top = fileURLToPath(new URL('../../..', import.meta.url))

/** Returns the root of a CAR, and its blocks by the strings of their CIDs. */
async function packed (name) {
  const car = await CarReader.fromBytes(readFileSync(join(files, `${name}.car`)))
  const blocks = new Map()
  for await (const { cid, bytes } of car.blocks()) blocks.set(String(cid), bytes)
  return { root: (await car.getRoots())[0], blocks }
}

/** Returns the bytes that are read before an error, and the error or undefined. */
async function read (get, cid, options) {
  const pieces = []
  try {
    for await (const piece of readFile(get, cid, options)) {
      assert.notEqual(piece.length, 0)
      pieces.push(piece)
    }
  } catch (error) {
    return { bytes: Buffer.concat(pieces), error }
  }
  return { bytes: Buffer.concat(pieces) }
}

const from = (blocks) => (cid) => blocks.get(String(cid))

describe('readFile', () => {
  test('reads a block that is in its CID', async () => {
    const { bytes, error } = await read(() => assert.fail('no block is asked for'), CID.decode(Uint8Array.of(1, 0x55, 0, 2, 104, 105)))
    assert.deepEqual([String(bytes), error], ['hi', undefined])
  })

  for (const name of ['two-levels', 'raw-leaves', 'nodes']) {
    test(`reads a file (${name})`, async () => {
      const { root, blocks } = await packed(name)
      const asked = []
      const got = await read(async (cid) => { asked.push(String(cid)); return blocks.get(String(cid)) }, root)
      assert.equal(got.error, undefined)
      assert.ok(got.bytes.equals(content))
      assert.deepEqual(asked, [...blocks.keys()])
    })

    test(`refuses a wrong block (${name})`, async () => {
      const { root, blocks } = await packed(name)
      for (const at of [0, 1, blocks.size - 1]) {
        const cid = [...blocks.keys()][at]
        const changed = blocks.get(cid).slice()
        changed[changed.length >> 1] ^= 1
        const { bytes, error } = await read(from(new Map(blocks).set(cid, changed)), root)
        assert.ok(error instanceof KombiladError)
        assert.deepEqual([error.code, String(error.cid)], ['WRONG_DIGEST', cid])
        assert.ok(error.message.includes(cid))
        assert.ok(content.subarray(0, bytes.length).equals(bytes))
      }
    })
  }

  test('reads a range, and only the blocks that hold it', async () => {
    const { length } = content
    for (const [name, chunk] of [['two-levels', 262144], ['raw-leaves', 9000], ['nodes', 8000]]) {
      const { root, blocks } = await packed(name)
      for (const [start, count] of [[0, 10], [0, length], [chunk - 1, 2], [chunk, chunk], [chunk + 1, 3 * chunk], [length - 1, 1], [length - 5, 100], [length, 1], [length + 1, 1], [500000, 0]]) {
        const asked = []
        const { bytes, error } = await read((cid) => { asked.push(String(cid)); return blocks.get(String(cid)) }, root, { start, length: count })
        assert.equal(error, undefined)
        assert.ok(bytes.equals(content.subarray(start, start + count)), `${name} ${start} ${count}`)
        assert.ok(asked.length <= Math.ceil(bytes.length / chunk) * 3 + 6 || count === length, `${asked.length} blocks of ${name}`)
      }
      for (const [options, begins, ends] of [
        [{ start: 999999n, length: 3n }, 999999, 1000002],
        [{ start: 999999 }, 999999, length],
        [{ length: 7 }, 0, 7],
        [{ start: 5, length: Infinity }, 5, length],
        [{ start: 2n ** 64n - 1n, length: 2n ** 64n - 1n }, length, length],
        [{ start: Number.MAX_SAFE_INTEGER, length: 1 }, length, length],
        [{ start: undefined, length: undefined }, 0, length],
        [{ start: 100, length: 50, bytes: 50 }, 100, 150]
      ]) assert.ok((await read(from(blocks), root, options)).bytes.equals(content.subarray(begins, ends)), `${name} ${begins} ${ends}`)
      assert.equal((await read(from(blocks), root, { start: 100, length: 51, bytes: 50 })).error.code, 'FILE_TOO_LARGE')
      for (const value of [-1, 1.5, NaN, '1', -1n, 2n ** 64n, 2 ** 53, {}]) {
        for (const options of [{ start: value }, { length: value }]) await assert.rejects(readFile(() => assert.fail(), root, options).next(), { code: 'INPUT' })
      }
      await assert.rejects(readFile(() => assert.fail(), root, { start: Infinity }).next(), { code: 'INPUT' })
    }
  })

  test('names a missing block', async () => {
    const { root, blocks } = await packed('two-levels')
    const last = [...blocks.keys()].at(-1)
    for (const nothing of [undefined, null]) {
      const { bytes, error } = await read((cid) => String(cid) === last ? nothing : blocks.get(String(cid)), root)
      assert.deepEqual([error.code, String(error.cid)], ['MISSING_BLOCK', last])
      assert.ok(bytes.equals(content.subarray(0, 3 * 262144)))
    }
  })

  test('keeps within limits', async () => {
    const { root, blocks } = await packed('raw-leaves')
    const exact = { bytes: content.length, blocks: blocks.size, levels: 3 }
    assert.ok((await read(from(blocks), root, exact)).bytes.equals(content))
    const none = { bytes: Infinity, blocks: Infinity, waiting: Infinity, levels: Infinity }
    assert.ok((await read(from(blocks), root, none)).bytes.equals(content))
    for (const [limit, code] of [
      [{ bytes: content.length - 1 }, 'FILE_TOO_LARGE'],
      [{ blocks: blocks.size - 1 }, 'FILE_TOO_MANY_BLOCKS'],
      [{ waiting: 1 }, 'FILE_TOO_MANY_PARTS'],
      [{ levels: 2 }, 'FILE_TOO_DEEP'],
      [{ levels: -1 }, 'FILE_TOO_DEEP'],
      [{ bytes: NaN }, 'FILE_TOO_LARGE']
    ]) {
      const { bytes, error } = await read(from(blocks), root, { ...exact, ...limit })
      assert.deepEqual([error?.code, error?.offset], [code, undefined])
      assert.ok(content.subarray(0, bytes.length).equals(bytes) && blocks.has(String(error.cid)))
    }
  })

  test('refuses what is no file', async () => {
    const { root, blocks } = await packed('folder')
    assert.equal((await read(from(blocks), root)).error.code, 'FILE_NOT_FILE')
    const block = Uint8Array.of(0xa0)
    const cids = [0x71, 0x70].map((code) => CID.ofBlock(code, block))
    assert.equal((await read(() => block, cids[0])).error.code, 'FILE_CODEC')
    const { error } = await read(() => block, cids[1])
    assert.deepEqual([error.code, error.offset], ['PB_END', 0])
    assert.equal((await read(() => 'text', root)).error.code, 'INPUT')
    assert.equal((await read(() => block, 'text')).error.code, 'INPUT')
    await assert.rejects(readFile(() => { throw new Error('no network') }, root).next(), /no network/)
  })

  test('reads several files at once, beside other calls', async () => {
    const { root, blocks } = await packed('nodes')
    const all = await Promise.all(Array.from({ length: 5 }, () => read(async (cid) => {
      links(Uint8Array.of(0x80))
      return blocks.get(String(cid))
    }, root)))
    for (const { bytes } of all) assert.ok(bytes.equals(content))
  })

  test('keeps within the memory limit, which a long file needs no more of', async () => {
    const { root, blocks } = await packed('nodes')
    setMemoryLimit(5 << 20)
    try {
      for (let round = 0; round < 20; round++) assert.ok((await read(from(blocks), root)).bytes.equals(content))
      const { error } = await read(() => new Uint8Array(8 << 20), root)
      assert.equal(error.code, 'NO_MEMORY')
    } finally {
      setMemoryLimit(2 ** 32)
    }
  })
})

describe('the client', () => {
  const client = join(process.env.PACKAGE, '..', '..', 'fetch_file.mjs')
  copyFileSync(new URL('../examples/fetch_file.mjs', import.meta.url), client)

  /** Fetches the file from a gateway that lies in this way, if any. */
  async function fetched (lie, name = 'two-levels') {
    const words = ['-m', 'tests.gateway', ...(lie ? ['--lie', lie] : []), join(files, `${name}.car`)]
    const gateway = spawn('python3', words, { cwd: top, stdio: ['ignore', 'pipe', 'inherit'] })
    try {
      const [url] = await once(createInterface(gateway.stdout), 'line')
      const { root } = await packed('two-levels')
      return await promisify(execFile)(process.execPath, [client, url, String(root)], { encoding: 'buffer', maxBuffer: 1 << 24, timeout: 60000 })
    } catch (error) {
      if (error.stdout === undefined) throw error
      return error
    } finally {
      gateway.kill()
    }
  }

  test('fetches a file from an honest gateway', async () => {
    const { stdout, stderr } = await fetched()
    assert.ok(stdout.equals(content))
    assert.equal(String(stderr), '')
  })

  for (const lie of ['OTHER_BLOCK', 'CHANGED_BYTE', 'CUT_IN_BLOCK', 'ENDLESS', 'EMPTY_BODY']) {
    test(`writes nothing of a dishonest gateway (${lie})`, async () => {
      const { code, stdout, stderr } = await fetched(lie)
      assert.equal(code, 1)
      assert.equal(stdout.length, 0)
      assert.match(String(stderr), /^fetch_file: /)
    })
  }

  test('names a block that the gateway lacks', async () => {
    const { code, stdout, stderr } = await fetched(undefined, 'folder')
    assert.deepEqual([code, stdout.length], [1, 0])
    assert.match(String(stderr), /^fetch_file: a block is missing, in block Qm/)
  })
})
