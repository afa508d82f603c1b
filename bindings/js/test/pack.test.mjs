// Tests Packer, encodeCar and encodeCarIndex. The roots are those that `ipfs add` prints, and otherwise those of the
// independent writer in tests/ipld, as are the files of FILES and the folders of FOLDERS.
import assert from 'node:assert/strict'
import { readFileSync } from 'node:fs'
import { join } from 'node:path'
import { Readable } from 'node:stream'
import { describe, test } from 'node:test'
import { runInNewContext } from 'node:vm'
import { core, kombilad } from './package.mjs'

const { CarBlockIterator, CarIndexer, CarReader, CID, KombiladError, Packer, encodeCar, encodeCarIndex, links, listFolder, readFile, readNode, resolvePath, setMemoryLimit, verify } = kombilad
const files = process.env.FILES
const cases = JSON.parse(readFileSync(join(process.env.FOLDERS, 'cases.json'), 'utf8'))
const bytes = (text) => new TextEncoder().encode(text)
const LOREM = bytes('Lorem ipsum dolor sit amet, sit enim montes aliquam. Cras non lorem, rhoncus condimentum, irure et ante. Pulvinar suscipit odio ante, et tellus a enim, wisi ipsum, vel rhoncus eget faucibus varius, luctus turpis nibh vel odio nulla pede.')
const content = Uint8Array.from({ length: 70000 }, (_, at) => at * at * 7 + Math.floor(at / 251))
const TIME = { seconds: 1700000000, nanoseconds: 123 }
const LARGEST = 2n ** 64n - 1n

/** Returns a packer, the blocks that it puts, in their order, and a function that gets one. */
function packerOf (options) {
  const put = []
  const blocks = new Map()
  const packer = new Packer({
    put: async (cid, block) => {
      put.push([String(cid), block])
      blocks.set(put.at(-1)[0], block)
    },
    ...options
  })
  return { packer, put, get: (cid) => blocks.get(String(cid)) }
}

/** A CID with too many bytes. A byte would hold 4 for their number, and the first 4 are a CID. */
const changed = CID.parse('bafkqaaa')
changed.bytes = Uint8Array.of(1, 0x55, ...Array(258).fill(0))

/** Returns the number of blocks that the core of an idle packer keeps: its room, and its record. */
const live = (packer) => packer._spare.calls.kombilad_wasm_live()

async function all (iterable) {
  const found = []
  for await (const each of iterable) found.push(each)
  return found
}

const fails = (work, code, more = {}) => assert.rejects(work, (error) => {
  assert.ok(error instanceof KombiladError, error)
  assert.deepEqual({ code: error.code, entry: error.entry }, { code, entry: undefined, ...more })
  return true
})

describe('a file', () => {
  for (const [name, given, options, root, total] of [
    ['empty', '', {}, 'QmbFMke1KXqnYyBBWxB74N4c5SBnJMVAiMNRcGu6x1AwQH', 6],
    ['of a chunk', 'hello world', {}, 'Qmf412jQZiuVUtdgnB36FXFX7xg5V6KEbSJ4dpQuhkLyfD'],
    ['of a chunk and a line', 'foobar\n', {}, 'QmRgutAxd8t7oGkSm4wmeuByG6M51wcTso6cubDdQtuEfL'],
    ['of chunks', 'foobar\n', { chunkSize: 2 }, 'QmRJHYTNvC3hmd9gJQARxLR1QMEincccBV53bBw524yyq6'],
    ['of two levels', LOREM, { chunkSize: 1 }, 'QmRQ6NZNUs4JrCT2y7tmCC1wUhjqYuTssB8VXbbN3rMffg'],
    ['of long chunks', LOREM, { chunkSize: 32n }, 'QmYSLcVQqxKygiq7x9w1XGYxU29EShB8ZemiaQ8GAAw17h'],
    ['of 174 chunks', new Uint8Array(174), { chunkSize: 1 }, 'QmdgQac8c6Bo3MP5bHAg2yQ25KebFUsmkZFvyByYzf8UCB'],
    ['of 175 chunks', new Uint8Array(349), { chunkSize: 2 }, 'QmcHNWF1d56uCDSfJPA7t9fadZRV9we5HGSTGSmwuqmMP9'],
    ['empty and raw', '', { version: 1, rawLeaves: true }, 'bafkreihdwdcefgh4dqkjv67uzcmw7ojee6xedzdetojuzjevtenxquvyku', 0],
    ['raw', 'hello world', { version: 1, rawLeaves: true }, 'bafkreifzjut3te2nhyekklss27nh3k72ysco7y32koao5eei66wof36n5e', 11],
    // Of the independent writer.
    ['of raw chunks below a root of version 0', 'foobar\n', { rawLeaves: true, chunkSize: 2 }, 'QmP1h7NSAhBDW2moahZxX5TMy7oVpqAxrLjxXhxwQk5EXU'],
    ['of four levels', '123456789', { version: 1, rawLeaves: true, chunkSize: 1, links: 2 }, 'bafybeifp4suip7m3csqminzfsyg4a6meztrrzkliqpdpr3jzsmx2evsgna', 953],
    ['of eight levels', content, { chunkSize: 16, links: 3n }, 'QmPgGtcBe4tWix97fWV6GwdMY6NLgUhsZLHvTwc994ZW8d', 410835],
    ['of eight levels of raw chunks', content, { chunkSize: 16, links: 3, version: 1, rawLeaves: true }, 'bafybeifrnserssl545b7jlcmhosr5rwc6rslclzrglv6stcub5lvlgwprm', 388971],
    ['of 70,000 chunks', new Uint8Array(70000), { chunkSize: 1 }, 'QmX43vrW8tYsrsAGraYfN5HN9c8qk9f4jnEdvzvVrhY7qx', 3731936]
  ]) {
    test(`${name} has the recorded root`, async () => {
      const source = typeof given === 'string' ? bytes(given) : given
      const { packer, put, get } = packerOf(options)
      const packed = await packer.file(source)
      assert.deepEqual([String(packed.cid), packed.size, packed.total], [root, source.length, total ?? packed.total])
      assert.equal(put.at(-1)[0], root)
      // A block comes after those to which it has links.
      const seen = new Set()
      for (const [cid, block] of put) {
        if (put.length < 1000) assert.equal(verify(CID.parse(cid), block), true)
        if (CID.parse(cid).code === 0x70) for (const { Hash } of kombilad.dagPb.decode(block).Links) assert.ok(seen.has(String(Hash)))
        seen.add(cid)
      }
      if (put.length < 10000) assert.ok(Buffer.concat(await all(readFile(get, packed.cid))).equals(source))
      assert.equal(live(packer), 2)
    })
  }

  test('has the permissions and the time in its root', async () => {
    for (const [options, attributes, root] of [
      [{ chunkSize: 2 }, { mode: 0o644, mtime: TIME }, 'QmRid8hfWKA9ktQLuS69EXzdddMxvhti5krCbRKpJdXpuA'],
      [{}, { mode: 0o644n, mtime: { seconds: -1 } }, 'QmWEGtJK5wgBGahJG3UCgXksLJDNtC8uSADfYmugtNdsSV'],
      [{ version: 1, rawLeaves: true }, { mode: 0o644 }, 'bafybeih7opfpjeeprz6heblkylou64ygy3ks33l7hfzy6rql4zdhnqc4di']
    ]) {
      const { packer, get } = packerOf(options)
      const { cid } = await packer.file(bytes('foobar\n'), attributes)
      assert.equal(String(cid), root)
      const { mode, mtime } = readNode(cid, get(cid))
      assert.equal(mode, 0o644)
      assert.deepEqual(mtime, attributes.mtime && { nanoseconds: 0, ...attributes.mtime })
    }
  })

  test('has as permissions and time what readNode returns', async () => {
    const { packer, get } = packerOf()
    for (const mode of [undefined, 0, 2 ** 32 - 1]) {
      for (const mtime of [undefined, { seconds: 0, nanoseconds: 0 }, { seconds: -(2n ** 63n), nanoseconds: 1 }, { seconds: 2n ** 63n - 1n, nanoseconds: 999999999 }]) {
        for (const { cid } of [await packer.file([], { mode, mtime }), await packer.folder([], { mode, mtime }), await packer.symlink('a', { mode, mtime })]) {
          const node = readNode(cid, get(cid))
          assert.deepEqual([node.mode, node.mtime], [mode, mtime])
        }
      }
    }
    assert.equal(String((await packer.file([], { mode: null, mtime: null })).cid), 'QmbFMke1KXqnYyBBWxB74N4c5SBnJMVAiMNRcGu6x1AwQH')
  })

  for (const [name, options] of [['two-levels', {}], ['raw-leaves', { version: 1, rawLeaves: true, chunkSize: 9000, links: 5 }], ['nodes', { chunkSize: 8000, links: 6 }]]) {
    test(`has the blocks of another writer (${name})`, async () => {
      const car = await CarReader.fromBytes(readFileSync(join(files, `${name}.car`)))
      const { packer, put } = packerOf(options)
      const { cid } = await packer.file(readFileSync(join(files, 'content')))
      assert.deepEqual([cid], await car.getRoots())
      const blocks = new Map((await all(car.blocks())).map(({ cid, bytes }) => [String(cid), bytes]))
      assert.deepEqual(new Map(put), blocks)
    })
  }

  test('comes from pieces of any kind', async () => {
    const foreign = runInNewContext('(bytes) => Uint8Array.from(bytes)')
    class Lying extends Uint8Array { get length () { return 1e9 } get byteLength () { return 1 } }
    const pieces = function * (lengths) {
      for (let at = 0, each = 0; at < content.length; each++) yield content.subarray(at, at += lengths[each % lengths.length])
    }
    const stream = () => new ReadableStream({ start: (to) => { for (const piece of pieces([999])) to.enqueue(piece); to.close() } })
    const locked = stream()
    for (const source of [
      content,
      content.slice().buffer,
      new DataView(content.slice().buffer),
      new Uint16Array(content.slice().buffer),
      new Uint8Array(new SharedArrayBuffer(70000)).map((_, at) => content[at]),
      new Lying(content),
      foreign(content),
      new Blob([content]),
      stream(),
      // In browsers in which a stream can't be iterated over.
      { getReader: () => locked.getReader() },
      { stream: () => ({ getReader: () => stream().getReader() }) },
      Readable.from(pieces([500, 1])),
      pieces([1, 15, 16, 17, 0, 31, 32, 33]),
      pieces([70000]),
      [...pieces([16])].map((piece) => Promise.resolve(piece)),
      [new Uint8Array(), content.subarray(0, 32).slice().buffer, Buffer.from(content.subarray(32)), new Uint8Array()],
      (async function * () { yield * pieces([47]) })(),
      // One buffer for all pieces.
      (function * (buffer) { for (const piece of pieces([100])) { buffer.set(piece); yield buffer.subarray(0, piece.length); buffer.fill(0) } })(new Uint8Array(100))
    ]) {
      let count = 0
      const packer = new Packer({ put: () => { count++ }, chunkSize: 16, links: 3 })
      assert.equal(String((await packer.file(source)).cid), 'QmPgGtcBe4tWix97fWV6GwdMY6NLgUhsZLHvTwc994ZW8d')
      assert.equal(count, 6569)
    }
  })

  test('has no last chunk that is empty', async () => {
    for (const [length, count] of [[0, 1], [1, 1], [4, 1], [5, 3], [8, 3], [9, 4]]) {
      const { packer, put } = packerOf({ chunkSize: 4 })
      await packer.file(content.subarray(0, length))
      assert.equal(put.length, count)
    }
  })

  test('isn\'t read from other objects', async () => {
    const { packer, put } = packerOf({ chunkSize: 4 })
    const gone = new Uint8Array(8)
    structuredClone(gone.buffer, { transfer: [gone.buffer] })
    for (const source of [undefined, null, 7, '', 'text', Symbol('source'), {}, () => [], gone, [gone], ['text'], [7], [[1]], [undefined], new Proxy(new Uint8Array(8), {}), Object.create(ArrayBuffer.prototype)]) {
      await assert.rejects(packer.file(source), (error) => error.code === 'INPUT' || error instanceof TypeError)
    }
    assert.equal(put.length, 0)
    assert.equal(live(packer), 2)
  })

  test('isn\'t read on if its buffer is detached or resized meanwhile', async () => {
    for (const end of [
      (buffer) => structuredClone(buffer, { transfer: [buffer] }),
      ...(ArrayBuffer.prototype.resize === undefined ? [] : [(buffer) => buffer.resize(9)])
    ]) {
      const source = new Uint8Array(new ArrayBuffer(20, { maxByteLength: 20 }))
      const packer = new Packer({ put: () => { if (source.length > 9) end(source.buffer) }, chunkSize: 4 })
      await fails(packer.file(source), 'INPUT')
      assert.equal(live(packer), 2)
    }
  })
})

describe('a folder', () => {
  test('has the root of ipfs add', async () => {
    const { packer } = packerOf()
    const empty = await packer.folder([])
    assert.deepEqual([String(empty.cid), empty.size, empty.total], ['QmUNLLsPACCz1vLxQVkXqqLX5R1X345qqfHbsf67hvA3Nn', 0, 4])
    const link = await packer.symlink('b')
    const inside = await packer.folder([['car', await packer.file(bytes('car\n'))]])
    const root = await packer.folder(new Map([['b', inside], ['a', link]]))
    assert.deepEqual([String(root.cid), root.total], ['QmZDVQHwjHwA4SyzEDtJLNxmZeJVK1W8BWFAHV61x2Rs19', 158])
    const second = packerOf({ version: 1, shardedAbove: 0 }).packer
    assert.equal(String((await second.folder(new Map())).cid), 'bafybeiczsscdsbs7ffqz55asqdf3smv6klcw3gofszvwlyarci47bgf354')
    // Of the independent writer.
    assert.equal(String((await second.folder([], { mode: 0o755 })).cid), 'bafybeibvjvylaiqr3dng5lcgfi4efjxiytcoodswp2m3dx5oyludj4orda')
  })

  test('is sharded above a size', async () => {
    const numbers = ['016', '037', '058', '009', '038', '050', '049', '004', '025', '034', '041', '033', '017', '040', '003', '048']
    const file = await packerOf().packer.file([])
    const entries = numbers.map((number) => [`long-named-file-${number}`, file])
    for (const [shardedAbove, count] of [[848, 1], [848n, 1], [Infinity, 1], [LARGEST, 1], [847, 9], [0, 9]]) {
      const { packer, put, get } = packerOf({ shardedAbove })
      const { cid } = await packer.folder(entries)
      assert.equal(put.length, count)
      assert.equal(put[0][0], String(cid))
      if (count > 1) assert.equal(String(cid), 'QmZbFPTnDBMWbQ6iBxQAhuhLz8Nu9XptYS96e7cuf5wvbk')
      assert.deepEqual((await all(listFolder(get, cid))).map(({ name, tsize }) => [name, tsize]).sort(), entries.map(([name]) => [name, 6]).sort())
      // The blocks come in the order in which they are asked for.
      const asked = []
      await all(listFolder((cid) => { asked.push(String(cid)); return get(cid) }, cid))
      assert.deepEqual(asked, put.map(([cid]) => cid))
      assert.ok((await resolvePath(get, cid, 'long-named-file-016')).equals(file.cid))
    }
    const { packer } = packerOf({ shardedAbove: 0 })
    const inside = await packerOf().packer.folder([['foobar', await packer.file(bytes('foobar\n'))]])
    assert.equal(String((await packer.folder([['non_sharded_dir', inside]])).cid), 'QmQXUANxYGpkwMTWQUdZBPx9jqfFP7acNgL4FHRWkndKCe')
  })

  test('has the blocks of another writer', async () => {
    const car = await CarReader.fromBytes(readFileSync(join(process.env.FOLDERS, 'blocks.car')))
    for (const [root, walked, entries] of cases.folders) {
      if (entries.some(([, , tsize]) => tsize === null || BigInt(tsize) >= 2n ** 53n)) continue
      const isSharded = readNode(CID.parse(root), (await car.get(CID.parse(root))).bytes).kind === 'shard' && entries.length > 0
      if (entries.length === 0 && root !== 'QmUNLLsPACCz1vLxQVkXqqLX5R1X345qqfHbsf67hvA3Nn') continue
      const { packer, put } = packerOf({ version: CID.parse(root).version, shardedAbove: isSharded ? 0 : Infinity })
      const { cid } = await packer.folder(entries.map(([name, cid, total]) => [name, { cid: CID.parse(cid), total }]))
      assert.equal(String(cid), root)
      assert.deepEqual(put.map(([cid]) => cid), walked)
      for (const [cid, block] of put) assert.deepEqual((await car.get(CID.parse(cid))).bytes, block)
    }
  })

  test('has its names in the order of their bytes', async () => {
    const { packer, get } = packerOf()
    const file = await packer.file([])
    const names = ['a', '\ud83d\udcc1', '\uffee', '__proto__']
    const { cid, total } = await packer.folder(names.map((name) => [name, file]))
    assert.deepEqual([String(cid), total], ['QmTuxMEKSugKmYtVB3GNQvEGBbWgJaXSGbt49vXBEyN8j7', 213])
    // The order of their UTF-16 is another.
    assert.deepEqual((await all(listFolder(get, cid))).map(({ name }) => name), ['__proto__', 'a', '\uffee', '\ud83d\udcc1'])
    const shards = packerOf({ shardedAbove: 0 })
    assert.equal(String((await shards.packer.folder(names.slice(0, 3).map((name) => [name, file]), { mode: 0o700, mtime: { seconds: 1, nanoseconds: 2 } })).cid), 'QmZ5AA7p2PH8bPCEkwPBEyrCr1DvvzSHZs6r17cwoaoYa4')
    const ten = Array.from({ length: 10 }, (_, at) => [`entry ${at}`, file])
    assert.equal(String((await packerOf({ version: 1 }).packer.folder(ten, { mode: 0o755, mtime: { seconds: -5n, nanoseconds: 999999999 } })).cid), 'bafybeidvnkglueumchmhwnhcj4dyykiwmw5ljexwipcyk26zi4y3zyjnzu')
  })

  test('may have 66,000 entries, from any iterable', async () => {
    const { packer, put, get } = packerOf()
    const file = await packer.file([])
    const entries = async function * () { for (let at = 66000; at-- > 0;) yield [`entry ${at}`, file] }
    const { cid, total } = await packer.folder(entries())
    assert.deepEqual([String(cid), total], ['QmeiHHVbFLZucvJT5f46fdjiZ3u6VaW6UX4nnnwQKFK4Sj', 5426566])
    assert.ok((await resolvePath(get, cid, 'entry 65999')).equals(file.cid))
    assert.ok(put.length > 256)
  })

  test('names the entry at fault', async () => {
    const file = await packerOf().packer.file([])
    const other = { bytes: Uint8Array.of(1, 0x55, 0), get asCID () { return this } }
    for (const shardedAbove of [0, Infinity]) {
      const { packer, put } = packerOf({ shardedAbove })
      for (const [entries, code, entry] of [
        [['', 'z'], 'PACK_INVALID_NAME', ''],
        [['z', '.'], 'PACK_INVALID_NAME', '.'],
        [['..'], 'PACK_INVALID_NAME', '..'],
        [['z', 'a/b', '0'], 'PACK_INVALID_NAME', 'a/b'],
        [['b\0', 'a'], 'PACK_INVALID_NAME', 'b\0'],
        [['b', 'a', 'c', 'b'], 'PACK_NAME_ORDER', 'b'],
        [['z', '\ud800'], 'ENCODE_STRING', '\ud800']
      ]) {
        await fails(packer.folder(entries.map((name) => [name, file])), code, { entry })
        await assert.rejects(packer.folder(entries.map((name) => [name, file])), ({ message }) => message.endsWith(`: ${JSON.stringify(entry)}`))
      }
      for (const packed of [undefined, null, 7, {}, { cid: file.cid }, { cid: String(file.cid), total: 1 }, { cid: other, total: 1 }, { ...file, total: -1 }, { ...file, total: 2n ** 64n }, { ...file, total: '6' }]) {
        await fails(packer.folder([['a', file], ['b', packed]]), 'INPUT', { entry: 'b' })
      }
      await fails(packer.folder([['a', { cid: changed, total: 1 }]]), 'CID_TRAILING_BYTES', { entry: 'a' })
      for (const entries of [undefined, null, 7, 'ab', {}, [[7, file]], [[undefined, file]]]) await fails(packer.folder(entries), 'INPUT')
      for (const entries of [[7], [null]]) await assert.rejects(packer.folder(entries), TypeError)
      await fails(packer.folder([['a', { ...file, total: LARGEST }], ['b', file]]), 'PACK_TOO_LARGE')
      assert.equal(put.length, 0)
      assert.equal(live(packer), 2)
      assert.equal((await packer.folder([['a', file]])).total > 0, true)
    }
    await assert.rejects(packerOf().packer.folder([['a', file], ['a', file]]), { message: 'two entries have the same name, so rename one of them: "a"' })
    // Two names with the same hash.
    const same = ['the first name: dpwkakja43xpjxjy', 'the other name: f7WyyMIsI4bW37zX'].map((name) => [name, file])
    await fails(packerOf({ shardedAbove: 0 }).packer.folder(same), 'PACK_SAME_HASH')
    await packerOf().packer.folder(same)
  })

  test('may have a total above the safe integers', async () => {
    const { packer, get } = packerOf()
    const { cid } = await packer.file([])
    const root = await packer.folder([['a', { cid, total: 2n ** 63n }], ['b', { cid, total: Number.MAX_SAFE_INTEGER }]])
    assert.equal(root.total, 2n ** 63n + BigInt(Number.MAX_SAFE_INTEGER) + BigInt(get(root.cid).length))
    const above = await packer.folder([['c', root]])
    assert.equal(above.total, root.total + BigInt(get(above.cid).length))
    assert.deepEqual((await all(listFolder(get, above.cid))).map(({ tsize }) => tsize), [root.total])
  })
})

describe('a symbolic link', () => {
  test('has the root of ipfs add', async () => {
    const { packer, put } = packerOf()
    for (const [target, root] of [['foobar', 'QmNgQEdXVdLw79nH2bnxLMxnyWMaXrijfqMTiDVat3iyuz'], [bytes('b'), 'QmfLJN6HLyREnWr7QQNmgmuNziUhcbwUopkHQ8gD3pMfp6'], [bytes('b').buffer, 'QmfLJN6HLyREnWr7QQNmgmuNziUhcbwUopkHQ8gD3pMfp6']]) {
      const { cid, size, total } = await packer.symlink(target)
      assert.deepEqual([String(cid), size, total], [root, 0, put.at(-1)[1].length])
    }
    // Of the independent writer.
    const second = packerOf({ version: 1 })
    const { cid, total } = await second.packer.symlink('../target', { mode: 0o777, mtime: { seconds: 2 ** 40, nanoseconds: 0 } })
    assert.deepEqual([String(cid), total], ['bafybeihgwa2rjpd42lwxsqktuwkzx57ztdb42iuixwjpypposgz37ot3za', 27])
    assert.deepEqual(readNode(cid, second.get(cid)).target, bytes('../target'))
  })

  test('has a target that is Unicode', async () => {
    const { packer, put } = packerOf()
    await fails(packer.symlink(Uint8Array.of(0xff)), 'TEXT_UTF8')
    await fails(packer.symlink('\ud800'), 'ENCODE_STRING')
    for (const target of [undefined, null, 7, {}]) await fails(packer.symlink(target), 'INPUT')
    assert.equal(put.length, 0)
    assert.equal(live(packer), 2)
  })
})

describe('a packer', () => {
  test('has options within their ranges', async () => {
    const put = () => {}
    const made = (options) => async () => new Packer({ put, ...options })
    for (const version of [2, -1, 0.5, '1', 2 ** 32, 1n, null]) await fails(made({ version }), 'CID_UNKNOWN_VERSION')
    for (const chunkSize of [0, -1, 1.5, NaN, Infinity, 2 ** 26 + 1, 2 ** 32 + 1, '16', null]) await fails(made({ chunkSize }), 'INPUT')
    for (const links of [0, 1, 1n]) await fails(made({ links }), 'PACK_WIDTH')
    for (const links of [-1, 2 ** 32, 2.5, NaN, '3', null]) await fails(made({ links }), 'INPUT')
    for (const shardedAbove of [-1, 2n ** 64n, 0.5, -Infinity, NaN, '0', null]) await fails(made({ shardedAbove }), 'INPUT')
    for (const put of [undefined, null, {}, 'put']) await fails(made({ put }), 'INPUT')
    await assert.rejects(made({ get links () { throw new Error('a getter') } }), { message: 'a getter' })
    for (const options of [{ version: 1, rawLeaves: true, chunkSize: 2 ** 26, links: 2 ** 32 - 1, shardedAbove: LARGEST }, { chunkSize: 1, links: 2, shardedAbove: 0 }]) {
      const { packer } = packerOf(options)
      assert.equal((await packer.file(bytes('abc'))).size, 3)
    }
  })

  test('has attributes within their ranges, before anything is called', async () => {
    const packer = new Packer({ put: () => assert.fail() })
    const source = { [Symbol.asyncIterator]: () => assert.fail() }
    for (const attributes of [
      ...[-1, 2 ** 32, 1.5, NaN, '7', 2n ** 32n, {}].map((mode) => ({ mode })),
      ...[2 ** 53, 0.5, '0', 2n ** 63n, -(2n ** 63n) - 1n, null].map((seconds) => ({ mtime: { seconds } })),
      ...[1e9, -1, 0.5, 2n ** 32n, '1', null].map((nanoseconds) => ({ mtime: { seconds: 0, nanoseconds } }))
    ]) {
      for (const work of [() => packer.file(source, attributes), () => packer.folder(source, attributes), () => packer.symlink('a', attributes)]) await fails(work, 'INPUT')
    }
    await assert.rejects(packer.file(source, { mtime: { seconds: 0, nanoseconds: 1e9 } }), /nanoseconds of mtime have to be an integer from 0 to 999,999,999/)
    await assert.rejects(packer.file(source, { get mode () { throw new Error('a getter') } }), { message: 'a getter' })
  })

  test('passes on an error of put or of the source, and can be used again', async () => {
    const root = 'QmPgGtcBe4tWix97fWV6GwdMY6NLgUhsZLHvTwc994ZW8d'
    let count = Infinity
    let error
    const packer = new Packer({ put: async () => { if (count-- === 0) throw error }, chunkSize: 16, links: 3, shardedAbove: 0 })
    const thrown = async (work) => {
      try {
        await work()
      } catch (caught) {
        return caught
      }
      return assert.fail('nothing was thrown')
    }
    const file = await packer.file([])
    for (error of [new Error('no room'), new KombiladError('OTHER', 'of another call'), undefined, 7]) {
      for (const at of [0, 1, 500, 6567, 6568]) {
        count = at
        let isClosed = false
        const source = (function * () { try { yield content.subarray(0, 69995); yield content.subarray(69995) } finally { isClosed = true } })()
        assert.equal(await thrown(() => packer.file(source)), error)
        assert.equal(isClosed, true)
        assert.equal(live(packer), 2)
      }
      for (const work of [() => packer.symlink('a'), () => packer.folder([['a', file], ['b', file]])]) {
        count = 0
        assert.equal(await thrown(work), error)
        assert.equal(live(packer), 2)
      }
      count = Infinity
      const failing = error
      for (const source of [
        (function * () { yield content.subarray(0, 1000); throw failing })(),
        (async function * () { yield content.subarray(0, 1000); throw failing })(),
        new ReadableStream({ pull: (to) => to.error(failing) }),
        { [Symbol.iterator] () { throw failing } },
        { getReader: () => ({ read: () => Promise.reject(failing), cancel: async () => {} }) }
      ]) assert.equal(await thrown(() => packer.file(source)), failing)
      assert.equal(live(packer), 2)
      assert.equal(String((await packer.file(content)).cid), root)
    }
    // A stream that can't be iterated over is cancelled.
    let cancelled = 0
    count = 3
    error = new Error('no room')
    const stream = { getReader: () => ({ read: async () => ({ done: false, value: content }), cancel: async () => cancelled++ }) }
    assert.equal(await thrown(() => packer.file(stream)), error)
    assert.equal(cancelled, 1)
  })

  test('awaits put before the next block, and reads no CID again that it changes', async () => {
    let open = 0
    const packer = new Packer({
      chunkSize: 100,
      links: 3,
      put: async (cid, block) => {
        assert.equal(open++, 0)
        await new Promise((resolve) => setImmediate(resolve))
        assert.equal(open--, 1)
        cid.bytes.fill(0)
        block.fill(0)
      }
    })
    const { cid } = await packer.file(content.subarray(0, 2000))
    const expected = packerOf({ chunkSize: 100, links: 3 }).packer
    assert.ok(cid.equals((await expected.file(content.subarray(0, 2000))).cid))
    const root = await packer.folder([['a', await packer.symlink('b')]])
    assert.ok(root.cid.equals((await expected.folder([['a', await expected.symlink('b')]])).cid))
  })

  test('packs several files at once, beside other calls', async () => {
    const started = core.starts()
    const { packer } = packerOf({ chunkSize: 999, links: 3 })
    const roots = await Promise.all(Array.from({ length: 5 }, (_, at) => packer.file((async function * () {
      links(Uint8Array.of(0x80))
      await packer.symlink('of another call')
      yield content.subarray(at)
    })())))
    for (const [at, { cid }] of roots.entries()) assert.ok(cid.equals((await packer.file(content.subarray(at))).cid))
    // One core each, one for the links that are packed meanwhile, and the packer's own.
    assert.ok(core.starts() - started <= 12)
    const before = core.starts()
    for (let each = 0; each < 20; each++) await packer.file(content)
    assert.equal(core.starts(), before)
  })

  test('needs no more memory for a long file, or for many', async () => {
    setMemoryLimit(8 << 20)
    try {
      const packer = new Packer({ put: () => {} })
      const piece = new Uint8Array(300000)
      await packer.file(Array(10).fill(piece))
      const { byteLength } = packer._spare.memory.buffer
      assert.equal((await packer.file(Array(80).fill(piece))).size, 24000000)
      for (let each = 0; each < 1000; each++) await packer.folder([['a', await packer.file(content.subarray(0, each))]])
      assert.equal(packer._spare.memory.buffer.byteLength, byteLength)
      const large = new Packer({ put: () => {}, chunkSize: 8 << 20 })
      await fails(large.file(new Uint8Array(9 << 20)), 'NO_MEMORY')
      const { packer: same } = packerOf()
      const old = same._spare
      setMemoryLimit(2 ** 32)
      await same.file([])
      assert.notEqual(same._spare, old)
      assert.equal(String((await large.file([])).cid), 'QmbFMke1KXqnYyBBWxB74N4c5SBnJMVAiMNRcGu6x1AwQH')
      assert.equal((await large.file(new Uint8Array(9 << 20))).size, 9 << 20)
    } finally {
      setMemoryLimit(2 ** 32)
    }
  })

  test('drops a core that stopped', async () => {
    const { packer } = packerOf()
    packer._spare.calls = { ...packer._spare.calls, kombilad_pack_take () { throw new WebAssembly.RuntimeError('unreachable') } }
    await fails(packer.file([]), 'TRAP')
    assert.equal(packer._spare, undefined)
    assert.equal(String((await packer.file([])).cid), 'QmbFMke1KXqnYyBBWxB74N4c5SBnJMVAiMNRcGu6x1AwQH')
  })
})

describe('encodeCar', () => {
  test('writes what another writer does', async () => {
    for (const file of [join(files, 'raw-leaves.car'), join(files, 'nodes.car'), join(files, 'folder.car'), join(process.env.FOLDERS, 'blocks.car')]) {
      const car = readFileSync(file)
      const reader = await CarReader.fromBytes(car)
      const iterator = await CarBlockIterator.fromIterable([car])
      for (const blocks of [reader.blocks(), iterator]) assert.ok(Buffer.concat(await all(encodeCar(await reader.getRoots(), blocks))).equals(car))
    }
  })

  test('writes a header by its specification', async () => {
    // {"roots":[],"version":1}, and with two roots of which one is identity.
    const cids = [CID.parse('QmbFMke1KXqnYyBBWxB74N4c5SBnJMVAiMNRcGu6x1AwQH'), CID.parse('bafkqaaa')]
    assert.deepEqual(await all(encodeCar([], [])), [Uint8Array.from(Buffer.from('11a265726f6f7473806776657273696f6e01', 'hex'))])
    const [header, ...sections] = await all(encodeCar(new Set(cids), [{ cid: cids[1], bytes: new ArrayBuffer(0) }, { cid: cids[1], bytes: Buffer.alloc(300, 7) }]))
    const link = (cid) => Buffer.concat([Buffer.from('d82a58', 'hex'), Buffer.from([cid.bytes.length + 1, 0]), cid.bytes])
    const expected = Buffer.concat([Buffer.from('a265726f6f747382', 'hex'), link(cids[0]), Buffer.from('d82a450001550000', 'hex'), Buffer.from('6776657273696f6e01', 'hex')])
    assert.deepEqual(Buffer.from(header), Buffer.concat([Buffer.from([expected.length]), expected]))
    assert.deepEqual(sections.map((section) => Buffer.from(section).toString('hex')), ['0401550000', 'b00201550000' + '07'.repeat(300)])
  })

  test('may have many roots, and roots of the greatest length', async () => {
    const number = [...Array(8).fill(0x80), 1]
    const longest = CID.decode(Uint8Array.of(1, ...number, ...number, 64, ...Array(64).fill(9)))
    const roots = Array(1000).fill(longest)
    const [header, section] = await all(encodeCar(roots, [{ cid: longest, bytes: new Uint8Array(1) }]))
    const { roots: read, version } = kombilad.decode(header.subarray(3))
    assert.deepEqual([read, version, section.length], [roots, 1, longest.bytes.length + 2])
    assert.deepEqual(await (await CarReader.fromBytes(header)).getRoots(), roots)
  })

  test('asks for a block after the sections before it, and closes what it reads from', async () => {
    const cid = CID.parse('bafkqaaa')
    let asked = 0
    let isClosed = false
    const blocks = async function * () { try { for (;;) { asked++; yield { cid, bytes: new Uint8Array() } } } finally { isClosed = true } }
    const car = encodeCar([cid], blocks())
    assert.equal(asked, 0)
    await car.next()
    assert.equal(asked, 0)
    await car.next()
    assert.equal(asked, 1)
    assert.deepEqual(await car.return(), { done: true, value: undefined })
    assert.deepEqual([asked, isClosed], [1, true])
    isClosed = false
    const error = new Error('no block')
    await assert.rejects(all(encodeCar([cid], (function * () { yield { cid, bytes: new Uint8Array() }; throw error })())), error)
    // What was yielded doesn't change with the block.
    const block = Uint8Array.of(1, 2, 3)
    const sections = encodeCar([], [{ cid, bytes: block }])
    await sections.next()
    const { value } = await sections.next()
    block.fill(0)
    assert.deepEqual([...value.subarray(-3)], [1, 2, 3])
  })

  test('refuses what are no CIDs and no blocks', async () => {
    const cid = CID.parse('bafkqaaa')
    const gone = new Uint8Array(8)
    structuredClone(gone.buffer, { transfer: [gone.buffer] })
    for (const [roots, blocks, code] of [
      [undefined, [], 'INPUT'],
      [cid, [], 'INPUT'],
      ['text', [], 'INPUT'],
      [['text'], [], 'INPUT'],
      [[changed], [], 'CID_TRAILING_BYTES'],
      [[], undefined, 'INPUT'],
      [[], 7, 'INPUT'],
      [[], [{ cid, bytes: 'text' }], 'INPUT'],
      [[], [{ cid, bytes: gone }], 'INPUT'],
      [[], [{ cid: 'text', bytes: new Uint8Array() }], 'INPUT'],
      [[], [{ cid: changed, bytes: new Uint8Array() }], 'CID_TRAILING_BYTES'],
      [[], [[cid, new Uint8Array()]], 'INPUT']
    ]) await fails(() => all(encodeCar(roots, blocks)), code)
    await assert.rejects(all(encodeCar([], [{ get cid () { throw new Error('a getter') } }])), { message: 'a getter' })
  })

  test('writes what is packed, and it is read back', async () => {
    const { packer, put } = packerOf({ chunkSize: 5000, links: 3, version: 1, rawLeaves: true })
    const root = await packer.folder([['content', await packer.file(content)], ['link', await packer.symlink('content')]])
    const car = Readable.from(encodeCar([root.cid], put.map(([cid, bytes]) => ({ cid: CID.parse(cid), bytes }))))
    const reader = await CarReader.fromIterable(car)
    assert.deepEqual(await reader.getRoots(), [root.cid])
    const get = async (cid) => (await reader.get(cid))?.bytes
    assert.deepEqual((await all(listFolder(get, root.cid))).map(({ name }) => name), ['content', 'link'])
    assert.ok(Buffer.concat(await all(readFile(get, await resolvePath(get, root.cid, 'content')))).equals(content))
  })
})

describe('encodeCarIndex', () => {
  const sha2 = (digest) => CID.decode(Uint8Array.from([1, 0x55, 0x12, 32, ...digest]))
  const hex = (part) => Buffer.from(part).toString('hex')
  const long = (number) => { const part = Buffer.alloc(8); part.writeBigUInt64LE(BigInt(number)); return part.toString('hex') }
  const front = (full, length) => '0aa16776657273696f6e02' + full + '00'.repeat(15) + long(51) + long(length) + long(51 + length)

  test('writes the header and the index by their specification', () => {
    const [low, high] = [Array(32).fill(1), Array(32).fill(200)]
    const rows = [{ cid: sha2(high), offset: 7 }, { cid: sha2(low), offset: 2n ** 64n - 1n }, { cid: CID.decode(Uint8Array.of(1, 0x55, 0, 1, 9)), offset: 3 }, { cid: sha2(low), offset: 5n }]
    const expected = '810802000000' + long(0) + '01000000' + '09000000' + long(9) + '09' + long(3) +
      long(0x12) + '01000000' + '28000000' + long(120) + '01'.repeat(32) + long(5) + '01'.repeat(32) + 'ff'.repeat(8) + 'c8'.repeat(32) + long(7)
    for (const length of [0, 4660, 4660n]) {
      const { header, index } = encodeCarIndex(rows, length)
      assert.deepEqual([hex(header), hex(index)], [front('80', Number(length)), expected])
    }
    // An empty digest has no row.
    const { header, index } = encodeCarIndex(new Set([{ cid: CID.parse('bafkqaaa'), offset: 0 }]), 9)
    assert.deepEqual([hex(header), hex(index)], [front('00', 9), '810800000000'])
    assert.equal(hex(encodeCarIndex([], 9).header), front('80', 9))
  })

  test('makes a CAR of version 2 that is read', async () => {
    for (const name of ['raw-leaves.car', 'nodes.car', 'folder.car']) {
      const payload = readFileSync(join(files, name))
      const blocks = await all(await CarIndexer.fromBytes(payload))
      const { header, index } = encodeCarIndex(blocks, payload.length)
      const reader = await CarReader.fromBytes(Buffer.concat([header, payload, index]))
      assert.equal(reader.version, 2)
      assert.deepEqual(await all(reader.cids()), blocks.map(({ cid }) => cid))
    }
  })

  test('indexes 70,000 blocks, and digests of the greatest length', () => {
    const number = [...Array(8).fill(0x80), 1]
    const longest = (at) => CID.decode(Uint8Array.of(1, ...number, ...number, 64, ...Array(61).fill(9), at >> 16, (at >> 8) & 255, at & 255))
    const rows = Array.from({ length: 70000 }, (_, at) => ({ cid: longest(69999 - at), offset: at }))
    const { index } = encodeCarIndex(rows, 2 ** 40)
    assert.equal(index.length, 2 + 4 + 8 + 4 + 4 + 8 + 70000 * 72)
    for (const at of [0, 1, 65535, 65536, 69999]) {
      const row = Buffer.from(index.buffer, index.byteOffset + 30 + at * 72, 72)
      assert.deepEqual([row.readUIntBE(61, 3), row.readUInt32LE(64)], [at, 69999 - at])
    }
  })

  test('refuses what are no CIDs, offsets or lengths', () => {
    const cid = CID.parse('bafkqaaa')
    for (const offset of [-1, 0.5, 2n ** 64n, '1', undefined, NaN, 2 ** 53]) {
      assert.throws(() => encodeCarIndex([{ cid, offset }], 0), { code: 'INPUT' })
      assert.throws(() => encodeCarIndex([], offset), { code: 'INPUT' })
    }
    assert.throws(() => encodeCarIndex([], 2n ** 64n - 51n), { code: 'CAR_LENGTH_TOO_LARGE' })
    assert.ok(encodeCarIndex([], 2n ** 64n - 52n))
    assert.throws(() => encodeCarIndex([{ cid: changed, offset: 0 }], 0), KombiladError)
    for (const rows of [[{}], [{ cid: 'bafkqaaa', offset: 0 }], [null], null, 7]) assert.throws(() => encodeCarIndex(rows, 0))
  })
})
