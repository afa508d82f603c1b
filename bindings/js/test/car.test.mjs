// Tests CAR files that are encoded here, without the package, by their specification:
// https://ipld.io/specs/transport/car/
import assert from 'node:assert/strict'
import { createReadStream, mkdtempSync, rmSync, truncateSync, writeFileSync } from 'node:fs'
import { tmpdir } from 'node:os'
import { join } from 'node:path'
import { createInterface } from 'node:readline'
import { test } from 'node:test'
import { kombilad, needsTape } from './package.mjs'

const { CID, CarBlockIterator, CarCIDIterator, CarIndexedReader, CarIndexer, CarReader, KombiladError, verify } = kombilad
const hex = (text) => Buffer.from(text, 'hex')
const varint = (number) => number < 128 ? [number] : [number & 127 | 128, ...varint(number >>> 7)]
const framed = (...parts) => {
  const content = Buffer.concat(parts)
  return Buffer.concat([Buffer.from(varint(content.length)), content])
}

const blocks = [Buffer.from('a0', 'hex'), Buffer.alloc(300, 7), Buffer.alloc(0)].map((bytes, at) => ({ cid: CID.ofBlock(at ? 0x55 : 0x71, bytes), bytes: new Uint8Array(bytes) }))
blocks.push({ cid: CID.parse('QmdfTbBqBPQ7VNxZEYEj14VmRuZBkqFbiwReogJgS1zR1n'), bytes: new Uint8Array() }, { cid: CID.decode(hex('01550002abcd')), bytes: new Uint8Array(hex('abcd')) })
const link = (cid) => Buffer.concat([hex('d82a58'), Buffer.from([cid.bytes.length + 1, 0]), cid.bytes])
const header = (roots) => framed(hex('a265726f6f7473'), Buffer.from([0x80 | roots.length]), ...roots.map(link), hex('6776657273696f6e01'))
const roots = [blocks[1].cid, blocks[0].cid]
const sections = blocks.map(({ cid, bytes }) => framed(cid.bytes, bytes))
const one = Buffer.concat([header(roots), ...sections])
const two = Buffer.concat([hex('0aa16776657273696f6e02'), hex('00'.repeat(16)), words(51 + 9, one.length, 0), Buffer.alloc(9), one, Buffer.from('an index')])

function words (...numbers) {
  const bytes = Buffer.alloc(numbers.length * 8)
  numbers.forEach((number, at) => bytes.writeBigUInt64LE(BigInt(number), at * 8))
  return bytes
}

async function all (iterable) {
  const found = []
  for await (const each of iterable) found.push(each)
  return found
}

function * chunks (bytes, size) {
  for (let at = 0; at < bytes.length; at += size) yield bytes.subarray(at, at + size)
}

for (const [version, car] of [[1, one], [2, two]]) {
  test(`version ${version} is read, in chunks of any size`, needsTape, async () => {
    for (const size of [1, 2, 7, 64, 1000, car.length]) {
      const iterator = await CarBlockIterator.fromIterable(chunks(car, size))
      assert.equal(iterator.version, version)
      assert.deepEqual(await iterator.getRoots(), roots)
      const found = await all(iterator)
      assert.deepEqual(found.map(({ cid, bytes }) => ({ cid, bytes })), blocks)
      for (const { cid, bytes, begins, offset, length } of found) {
        assert.deepEqual(new Uint8Array(car.subarray(offset, offset + bytes.length)), bytes)
        assert.equal(begins + length, offset + bytes.length)
        assert.equal(verify(cid, bytes), true)
      }
      await assert.rejects(all(iterator), { code: 'CAR_READ_ONCE' })
    }
    assert.deepEqual((await all(await CarCIDIterator.fromBytes(car))).map(String), blocks.map(({ cid }) => String(cid)))
  })

  test(`version ${version} is read into memory`, needsTape, async () => {
    const reader = await CarReader.fromBytes(new Uint8Array(car))
    assert.equal(reader.version, version)
    assert.deepEqual(await reader.getRoots(), roots)
    assert.deepEqual(await all(reader.blocks()), blocks)
    assert.deepEqual(await all(reader.cids()), blocks.map(({ cid }) => cid))
    assert.deepEqual(await reader.get(CID.parse(String(blocks[1].cid))), blocks[1])
    assert.equal(await reader.has(blocks[2].cid), true)
    assert.equal(await reader.has(CID.ofBlock(0x55, hex('00'))), false)
    assert.equal(await reader.get(CID.ofBlock(0x55, hex('00'))), undefined)
    await assert.rejects(reader.has(String(blocks[0].cid)), { code: 'INPUT' })
  })

  test(`version ${version} is indexed`, needsTape, async () => {
    for (const indexer of [await CarIndexer.fromBytes(car), await CarIndexer.fromIterable(chunks(car, 11))]) {
      assert.equal(indexer.version, version)
      assert.deepEqual(await indexer.getRoots(), roots)
      const found = await all(indexer)
      assert.deepEqual(found.map(({ cid }) => cid), blocks.map(({ cid }) => cid))
      let begins = car.indexOf(one) + header(roots).length
      for (const [number, { length, blockLength, offset, blockOffset }] of found.entries()) {
        assert.deepEqual([offset, length], [begins, sections[number].length])
        assert.deepEqual(new Uint8Array(car.subarray(blockOffset, blockOffset + blockLength)), blocks[number].bytes)
        assert.equal(blockOffset + blockLength, offset + length)
        begins += length
      }
    }
  })

  test(`version ${version} is read from a file one block at a time`, needsTape, async () => {
    const folder = mkdtempSync(join(tmpdir(), 'kombilad-'))
    const path = join(folder, 'blocks.car')
    try {
      writeFileSync(path, car)
      const reader = await CarIndexedReader.fromFile(path)
      assert.equal(reader.version, version)
      assert.deepEqual(await reader.getRoots(), roots)
      assert.deepEqual(await all(reader.blocks()), blocks)
      assert.deepEqual(await all(reader.cids()), blocks.map(({ cid }) => cid))
      for (const block of blocks) assert.deepEqual(await reader.get(CID.parse(String(block.cid))), block)
      assert.equal(await reader.has(blocks[2].cid), true)
      assert.equal(await reader.has(CID.ofBlock(0x55, hex('00'))), false)
      assert.equal(await reader.get(CID.ofBlock(0x55, hex('00'))), undefined)
      truncateSync(path, car.indexOf(one) + one.length - 1)
      await assert.rejects(reader.get(blocks.at(-1).cid), { code: 'CAR_UNEXPECTED_END', offset: car.indexOf(one) + one.length - 1 })
      assert.deepEqual(await reader.get(blocks[1].cid), blocks[1])
      await reader.close()
      await assert.rejects(reader.get(blocks[1].cid))
      await assert.rejects(CarIndexedReader.fromFile(join(folder, 'none.car')), { code: 'ENOENT' })
      await assert.rejects(CarIndexedReader.fromFile(path), { code: version === 1 ? 'CAR_UNEXPECTED_END' : 'CAR_SHORT_PAYLOAD' })
    } finally {
      rmSync(folder, { recursive: true })
    }
  })

  test(`version ${version}, cut at any byte, is read up to this byte or rejected`, needsTape, async () => {
    const ends = new Set()
    let end = car.indexOf(one) + header(roots).length
    ends.add(end)
    for (const section of sections) ends.add(end += section.length)
    for (let length = 0; length < car.indexOf(one) + one.length; length++) {
      const cut = car.subarray(0, length)
      let error
      await all(await CarBlockIterator.fromBytes(cut).catch((why) => { error = why; return [] })).catch((why) => { error = why })
      if (version === 1 && ends.has(length)) assert.equal(error, undefined)
      else assert.ok(error instanceof KombiladError && error.code.startsWith('CAR_') && error.code.endsWith(version === 1 ? 'END' : error.code.slice(-3)), `${length}: ${error}`)
    }
  })
}

test('the first of two blocks with the same CID is found', needsTape, async () => {
  const other = new Uint8Array([1, 2, 3])
  const reader = await CarReader.fromBytes(Buffer.concat([one, framed(blocks[0].cid.bytes, other)]))
  assert.equal((await all(reader.blocks())).length, blocks.length + 1)
  assert.deepEqual(await reader.get(blocks[0].cid), blocks[0])
})

test('the source of the bytes is closed', needsTape, async () => {
  let returned = 0
  const source = (bytes) => {
    const inner = chunks(bytes, 50)
    return { [Symbol.iterator]: () => ({ next: () => inner.next(), return: () => { returned++; return inner.return() } }) }
  }
  for await (const { cid } of await CarBlockIterator.fromIterable(source(one))) {
    assert.deepEqual(cid, blocks[0].cid)
    break
  }
  assert.equal(returned, 1)
  await assert.rejects(CarBlockIterator.fromIterable(source(hex('00'))), { code: 'CAR_EMPTY' })
  assert.equal(returned, 2)
  await assert.rejects(CarBlockIterator.fromIterable(source(Buffer.concat([one, hex('00'), one]))).then(all), { code: 'CAR_EMPTY' })
  assert.equal(returned, 3)
  await CarBlockIterator.fromIterable(source(one)).then(all)
  assert.equal(returned, 3)
})

test('errors have a code and an offset', needsTape, async () => {
  const fails = (car, code, offset) => assert.rejects(CarBlockIterator.fromBytes(car).then(all), (error) => {
    assert.deepEqual([error.code, error.offset], [code, offset])
    return true
  })
  await fails(hex(''), 'CAR_UNEXPECTED_END', 0)
  await fails(hex('00'), 'CAR_EMPTY', 0)
  await fails(hex('8100'), 'CAR_LENGTH_NOT_SHORTEST', 1)
  await fails(hex('ffffffffffffffffff02'), 'CAR_LENGTH_TOO_LARGE', 9)
  await fails(hex('ffffff7f'), 'CAR_TOO_LONG', 0)
  await fails(framed(hex('a0')), 'CAR_NOT_A_HEADER', 1)
  await fails(framed(hex('f6')), 'CAR_NOT_A_HEADER', 1)
  await fails(framed(hex('a265726f6f7473806776657273696f6e02')), 'CAR_NOT_A_HEADER', 1)
  await fails(framed(hex('a265726f6f747381016776657273696f6e01')), 'CAR_NOT_A_HEADER', 1)
  await fails(framed(hex('a265726f6f7473')), 'BLOCK_END', 1)
  await fails(framed(hex('a165726f6f7473ff')), 'BLOCK_UNSUPPORTED', 1)
  const empty = header([])
  await fails(Buffer.concat([empty, hex('00')]), 'CAR_EMPTY', empty.length)
  await fails(Buffer.concat([empty, hex('0301550000')]), 'CID_END', empty.length + 1)
  await fails(Buffer.concat([empty, hex('040255000000')]), 'CID_UNKNOWN_VERSION', empty.length + 1)
  await fails(Buffer.concat([empty, hex('ffffffff0f')]), 'CAR_TOO_LONG', empty.length)
  await fails(Buffer.concat([hex('0aa16776657273696f6e02'), Buffer.alloc(16), words(5, 5, 0)]), 'CAR_PAYLOAD', 27)
  // The header of version 2 ends the payload within the last section.
  const short = Buffer.from(two)
  short.writeBigUInt64LE(BigInt(one.length - 1), 11 + 24)
  await fails(short, 'CAR_UNEXPECTED_END', 60 + one.length - 1)
  await assert.rejects(CarBlockIterator.fromIterable(5), { code: 'INPUT' })
  await assert.rejects(CarBlockIterator.fromIterable(['text']), { code: 'INPUT' })
  // The keys of the header may be in any order.
  const turned = framed(hex('a26776657273696f6e0165726f6f747380'))
  assert.deepEqual(await all(await CarBlockIterator.fromBytes(turned)), [])
})

test('random CARs give the same results as with the plain reader', { skip: process.env.CARS === undefined && 'CARS names no file' }, async () => {
  const sizes = [1, 2, 9, 60, 300, 1 << 20]
  let count = 0
  for await (const line of createInterface({ input: createReadStream(process.env.CARS) })) {
    const [car, head, sections, error] = JSON.parse(line)
    const bytes = hex(car)
    const read = [null, [], null]
    try {
      const iterator = await CarBlockIterator.fromIterable(chunks(bytes, sizes[count++ % sizes.length]))
      read[0] = [iterator.version, (await iterator.getRoots()).map((root) => Buffer.from(root.bytes).toString('hex'))]
      for await (const { cid, bytes, begins, offset, length } of iterator) {
        assert.equal(begins + length, offset + bytes.length)
        read[1].push([Buffer.from(cid.bytes).toString('hex'), Buffer.from(bytes).toString('hex'), begins, offset])
      }
    } catch (why) {
      read[2] = [why.code, why.offset]
    }
    assert.deepEqual(read, [head, sections, error], car)
  }
  assert.ok(count >= 1000)
})
