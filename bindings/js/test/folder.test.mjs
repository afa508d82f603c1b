// Tests listFolder, resolvePath and readNode over the blocks of FOLDERS, which folder_cases.py
// writes.
import assert from 'node:assert/strict'
import { readFileSync } from 'node:fs'
import { join } from 'node:path'
import { before, describe, test } from 'node:test'
import { runInNewContext } from 'node:vm'
import { core, kombilad } from './package.mjs'

const { CarReader, CID, KombiladError, listFolder, readFile, readNode, resolvePath, setMemoryLimit } = kombilad
const cases = JSON.parse(readFileSync(join(process.env.FOLDERS, 'cases.json'), 'utf8'))
const blocks = new Map()
let top
before(async () => {
  const car = await CarReader.fromBytes(readFileSync(join(process.env.FOLDERS, 'blocks.car')))
  for await (const { cid, bytes } of car.blocks()) blocks.set(String(cid), bytes)
  ;[top] = await car.getRoots()
})

const get = (cid) => blocks.get(String(cid))
/** Returns a number of 64 bits in the JSON: the text of one that is not a safe integer. */
const long = (number) => typeof number === 'string' ? BigInt(number) : number ?? undefined
const sharded = cases.folders.find(([, walked]) => walked.length > 100)

/** Returns the items before an error, and the error or undefined. */
async function listed (get, cid) {
  const items = []
  try {
    for await (const item of listFolder(get, cid)) items.push(item)
  } catch (error) {
    return { items, error }
  }
  return { items }
}

/** Returns a `get` that keeps the CIDs that it was asked for. */
function keeping (asked) {
  return async (cid) => {
    asked.push(String(cid))
    return get(cid)
  }
}

const stops = (work, code, cid, more = {}) => assert.rejects(work, (error) => {
  assert.ok(error instanceof KombiladError, error)
  assert.deepEqual([error.code, String(error.cid)], [code, String(cid)])
  assert.ok(error.message.includes(String(cid)))
  assert.deepEqual({ link: error.link, path: error.path }, { link: undefined, path: undefined, ...more })
  return true
})

/** Calls that read a block which `get` returns for this CID. */
const calls = (get, cid) => [
  async () => listFolder(get, cid).next(),
  async () => resolvePath(get, cid, 'a'),
  async () => readFile(get, cid).next()
]

describe('listFolder', () => {
  for (const [root, walked, entries] of cases.folders) {
    test(`lists the entries of ${root}`, async () => {
      const asked = []
      const { items, error } = await listed(keeping(asked), CID.parse(root))
      assert.equal(error, undefined)
      assert.deepEqual(asked, walked)
      assert.deepEqual(items.map(({ name, cid, tsize }) => [name, String(cid), tsize]), entries.map(([name, cid, tsize]) => [name, cid, long(tsize)]))
      assert.ok(items.every(({ cid }) => cid instanceof CID))
    })
  }

  test('asks for a block only after the entries before it', async () => {
    const [root, walked, entries] = sharded
    const asked = []
    const list = listFolder(keeping(asked), CID.parse(root))
    assert.equal(asked.length, 0)
    assert.equal((await list.next()).value.name, entries[0][0])
    const count = asked.length
    assert.ok(count < 5 && walked.length > 100)
    assert.deepEqual(await list.return(), { done: true, value: undefined })
    assert.deepEqual(await list.next(), { done: true, value: undefined })
    assert.equal(asked.length, count)
  })

  test('names the fault of a block', async () => {
    for (const [root, code, cid, link] of cases.faults) {
      const { items, error } = await listed(get, CID.parse(root))
      assert.deepEqual([error?.code, String(error?.cid), error?.link], [code, cid, link ?? undefined], root)
      assert.deepEqual(items, [])
      assert.equal(error.message.includes(`(at link ${link})`), link !== null)
      assert.equal(error.offset !== undefined, /^(PB|UNIXFS)_/.test(code))
      // A look-up has the same errors. In a shard it reads only the slot of the hash of its name.
      if (root === cid && code !== 'FOLDER_WRONG_SLOT') await stops(() => resolvePath(get, CID.parse(root), 'a'), code, cid, { link: link ?? undefined })
    }
  })

  test('ends at a block that is missing, or is not that of its CID', async () => {
    const [root, walked, entries] = sharded
    for (const at of [1, walked.length >> 1, walked.length - 1]) {
      const lacks = (given) => (cid) => String(cid) === walked[at] ? given : get(cid)
      const changed = blocks.get(walked[at]).slice()
      changed[changed.length >> 1] ^= 1
      for (const [given, code] of [
        [undefined, 'MISSING_BLOCK'],
        [null, 'MISSING_BLOCK'],
        [changed, 'WRONG_DIGEST'],
        [blocks.get(walked[at]).subarray(1), 'WRONG_DIGEST'],
        [new Uint8Array(), 'WRONG_DIGEST'],
        [new Uint8Array(1 << 20), 'WRONG_DIGEST'],
        ['text', 'INPUT'],
        [7, 'INPUT']
      ]) {
        const { items, error } = await listed(lacks(given), CID.parse(root))
        assert.deepEqual([error?.code, String(error?.cid)], [code, walked[at]])
        assert.deepEqual(items.map(({ name }) => name), entries.slice(0, items.length).map(([name]) => name))
      }
    }
  })

  test('lists several folders at once, and several times', async () => {
    const all = await Promise.all(cases.folders.flatMap((folder) => [folder, folder]).map(async ([root, , entries]) => [(await listed(async (cid) => get(cid), CID.parse(root))).items, entries]))
    for (const [items, entries] of all) assert.deepEqual(items.map(({ name }) => name), entries.map(([name]) => name))
  })

  test('keeps within the memory limit, and gives a wrong block no room', async () => {
    const [root, , entries] = sharded
    setMemoryLimit(5 << 20)
    try {
      for (let round = 0; round < 10; round++) {
        const { items, error } = await listed(get, CID.parse(root))
        assert.deepEqual([error, items.length], [undefined, entries.length])
      }
      setMemoryLimit(10 << 20)
      for (const [size, code] of [[1 << 20, 'WRONG_DIGEST'], [8 << 20, 'NO_MEMORY']]) {
        const long = new Uint8Array(size)
        for (const call of calls(() => long, CID.parse(root))) await stops(call, code, root)
      }
      const long = new Uint8Array(1 << 20)
      await stops(() => listFolder(() => long, CID.ofBlock(0x70, long)).next(), 'NO_MEMORY', CID.ofBlock(0x70, long))
      const unknown = CID.create(1, 0x70, { bytes: Uint8Array.of(0x11, 1, 0) })
      await stops(() => listFolder(() => long, unknown).next(), 'UNKNOWN_HASH', unknown)
    } finally {
      setMemoryLimit(2 ** 32)
    }
  })
})

describe('resolvePath', () => {
  test('finds the CID at a path', async () => {
    for (const [root, path, cid] of cases.paths) assert.equal(String(await resolvePath(async (cid) => get(cid), CID.parse(root), path)), cid, path)
  })

  test('of no names is the CID, and asks for nothing', async () => {
    for (const text of ['bafkqaaa', sharded[0]]) {
      const cid = CID.parse(text)
      assert.ok((await resolvePath(() => assert.fail(), cid, '')).equals(cid))
    }
  })

  test('asks for the blocks on the way, each once', async () => {
    const [root, walked, entries] = sharded
    for (const [name] of entries.slice(-50)) {
      const asked = []
      await resolvePath(keeping(asked), CID.parse(root), name)
      assert.equal(asked[0], root)
      assert.ok(asked.length > 1 && asked.length <= 8 && new Set(asked).size === asked.length && asked.every((cid) => walked.includes(cid)))
    }
  })

  test('names a missing entry', async () => {
    for (const [root, path, missing, folder] of cases.missing) {
      await stops(() => resolvePath(get, CID.parse(root), path), 'MISSING_ENTRY', folder, { path: missing })
      await assert.rejects(resolvePath(get, CID.parse(root), path), { message: `a folder has no entry with this name: ${missing}, in block ${folder}` })
    }
  })

  test('follows no symbolic link, and enters no file', async () => {
    for (const [root, path, code, cid] of cases.stopped) await stops(() => resolvePath(get, CID.parse(root), path), code, cid)
  })

  test('ends at a block that is missing, or is not that of its CID', async () => {
    const [root, , entries] = sharded
    const name = entries.at(-1)[0]
    const asked = []
    await resolvePath(keeping(asked), CID.parse(root), name)
    for (const at of asked) {
      const changed = blocks.get(at).slice()
      changed[changed.length >> 1] ^= 1
      for (const [given, code] of [[undefined, 'MISSING_BLOCK'], [null, 'MISSING_BLOCK'], [changed, 'WRONG_DIGEST'], [new Uint8Array(), 'WRONG_DIGEST'], [new Uint8Array(1 << 20), 'WRONG_DIGEST'], ['text', 'INPUT'], [{}, 'INPUT']]) {
        await stops(() => resolvePath((cid) => String(cid) === at ? given : get(cid), CID.parse(root), name), code, at)
      }
    }
  })

  test('may get each block in the same buffer', async () => {
    const [root, , entries] = sharded
    const buffer = new Uint8Array(1 << 16)
    const shared = (cid) => {
      buffer.fill(0)
      buffer.set(get(cid))
      return buffer.subarray(0, get(cid).length)
    }
    for (const [name, cid] of entries.slice(-50)) assert.equal(String(await resolvePath(shared, CID.parse(root), name)), cid)
    assert.equal((await listed(shared, CID.parse(root))).items.length, entries.length)
  })

  test('takes a string, and a CID', async () => {
    for (const path of [undefined, null, 7, ['a'], new Uint8Array()]) await assert.rejects(resolvePath(get, top, path), { code: 'INPUT' })
    await assert.rejects(resolvePath(get, top, '\ud800'), { code: 'ENCODE_STRING' })
    for (const call of calls(get, 'text')) await assert.rejects(call, { code: 'INPUT' })
    await assert.rejects(resolvePath(get, { bytes: Uint8Array.of(1, 0x55, 0), '/': undefined, get asCID () { return this } }, ''), { code: 'INPUT' })
  })
})

describe('readNode', () => {
  for (const [text, node] of cases.nodes) {
    test(`reads a node (${JSON.stringify(node)})`, () => {
      const cid = CID.parse(text)
      const { size, mtime, target } = node
      const expected = {
        kind: node.kind,
        size: long(size),
        mode: node.mode,
        mtime: mtime && { seconds: long(mtime.seconds), nanoseconds: mtime.nanoseconds },
        target: target === undefined ? undefined : Uint8Array.from(Buffer.from(target, 'hex'))
      }
      assert.deepEqual(readNode(cid, get(cid)), expected)
      assert.deepEqual(readNode(cid, Uint8Array.from(get(cid)).buffer), expected)
    })
  }

  test('names the fault of a block', async () => {
    for (const [cid, code] of cases.damaged) {
      await stops(async () => readNode(CID.parse(cid), blocks.get(cid)), code, cid)
      assert.throws(() => readNode(CID.parse(cid), blocks.get(cid)), ({ offset }) => (offset !== undefined) === code.startsWith('UNIXFS_'))
    }
    const block = Uint8Array.of(0xa0)
    const [cbor, pb] = [0x71, 0x70].map((code) => CID.ofBlock(code, block))
    await stops(async () => readNode(cbor, block), 'FILE_CODEC', cbor)
    await stops(async () => readNode(pb, block), 'PB_END', pb)
    await stops(async () => readNode(top, block), 'WRONG_DIGEST', top)
    const unknown = CID.create(1, 0x70, { bytes: Uint8Array.of(0x11, 1, 0) })
    await stops(async () => readNode(unknown, block), 'UNKNOWN_HASH', unknown)
    for (const call of calls(() => block, unknown)) await stops(call, 'UNKNOWN_HASH', unknown)
    await stops(async () => readNode(top, 'text'), 'INPUT', top)
    assert.throws(() => readNode('text', block), { code: 'INPUT' })
  })
})

describe('a get', () => {
  test('may be of any kind', async () => {
    const foreign = runInNewContext('(bytes) => Uint8Array.from(bytes)')
    class Lying extends Uint8Array { get length () { return 1e9 } get byteLength () { return 1 } }
    for (const form of [
      (block) => Buffer.from(block),
      (block) => new DataView(Uint8Array.from([0, ...block]).buffer, 1),
      (block) => Uint8Array.from(block).buffer,
      (block) => new Lying(block),
      foreign,
      async (block) => block,
      (block) => ({ then: (done) => done(block) })
    ]) {
      const [root, , entries] = cases.folders[0]
      assert.equal((await listed((cid) => form(get(cid)), CID.parse(root))).items.length, entries.length)
      for (const [root, path, cid] of cases.paths.slice(0, 8)) assert.equal(String(await resolvePath((cid) => form(get(cid)), CID.parse(root), path)), cid)
    }
  })

  test('may return an object that is no block', async () => {
    const detached = new Uint8Array(8)
    structuredClone(detached.buffer, { transfer: [detached.buffer] })
    const objects = [detached, new Proxy(new Uint8Array(8), {}), Object.create(Uint8Array.prototype), { length: 8, 0: 1 }, [1, 2], 'text', 7n, Symbol('block'), () => {}, new Proxy({}, { getPrototypeOf () { throw new Error('a trap') } })]
    for (const object of objects) for (const call of calls(() => object, top)) await stops(call, 'INPUT', top)
  })

  test('may throw, reject, or be no function, and its error is not changed', async () => {
    for (const error of [new Error('no network'), new KombiladError('OTHER', 'of another call'), 7]) {
      const { message } = error
      for (const get of [() => { throw error }, async () => { throw error }, () => Promise.reject(error)]) {
        for (const call of calls(get, top)) await assert.rejects(async () => { try { await call() } catch (thrown) { throw new Error('caught', { cause: thrown }) } }, (caught) => caught.cause === error)
      }
      assert.equal(error.message, message)
    }
    for (const call of calls(undefined, top)) await assert.rejects(call, TypeError)
  })

  test('ends the iteration by an error', async () => {
    for (const begin of [listFolder, readFile]) {
      const items = begin(() => undefined, top)
      await stops(() => items.next(), 'MISSING_BLOCK', top)
      assert.deepEqual(await items.next(), { done: true, value: undefined })
    }
  })

  test('may call back', async () => {
    const [root, , entries] = sharded
    const cid = CID.parse(root)
    const started = core.starts()
    // The iteration's own calls wait for each other.
    const waiting = []
    const list = listFolder((cid) => {
      if (waiting.length < 3) waiting.push(list.next())
      return get(cid)
    }, cid)
    const names = []
    for await (const { name } of list) names.push(name)
    const early = (await Promise.all(waiting)).map(({ value }) => value.name)
    assert.deepEqual([...names, ...early].sort(), entries.map(([name]) => name).sort())
    assert.equal(core.starts(), started + 1)
    // Other calls on the same folder.
    let calls = 0
    const inner = async (wanted) => {
      if (calls++ < 5) {
        for (const [root, path, found] of cases.paths.slice(0, 3)) assert.equal(String(await resolvePath(get, CID.parse(root), path)), found)
        assert.equal((await listed(get, cid)).items.length, entries.length)
        assert.equal(readNode(wanted, get(wanted)).kind, 'shard')
      }
      return get(wanted)
    }
    assert.equal((await listed(inner, cid)).items.length, entries.length)
    assert.equal(String(await resolvePath(inner, cid, entries.at(-1)[0])), entries.at(-1)[1])
    // A CID that it changes is not read again.
    const changing = (cid) => {
      const block = get(cid)
      cid.bytes.fill(0)
      cid.bytes = 'text'
      return block
    }
    assert.equal((await listed(changing, cid)).items.length, entries.length)
    assert.equal(String(await resolvePath(changing, cid, entries.at(-1)[0])), entries.at(-1)[1])
  })
})
