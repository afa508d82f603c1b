// Tests the package through its public calls. The expected values come from RFC 8949, the table of
// multicodecs, SHA2-256 in Node, and well-known CIDs of zero bytes and of an empty map.
import assert from 'node:assert/strict'
import { createHash } from 'node:crypto'
import { describe, test } from 'node:test'
import { inspect, types } from 'node:util'
import { runInNewContext } from 'node:vm'
import { core, errors, fresh, kombilad, needsTape } from './package.mjs'

const { CID, KombiladError, check, canonicalize, countLinks, decode, encode, fromJSON, get, isCanonical, linkPositions, links, setMemoryLimit, sha256, tape, toJSON, verify } = kombilad
const hex = (text) => Uint8Array.from(Buffer.from(text, 'hex'))
const toHex = (bytes) => Buffer.from(bytes).toString('hex')

const EMPTY_RAW = 'bafkreihdwdcefgh4dqkjv67uzcmw7ojee6xedzdetojuzjevtenxquvyku'
const EMPTY_V0 = 'QmdfTbBqBPQ7VNxZEYEj14VmRuZBkqFbiwReogJgS1zR1n'
const EMPTY_MAP = 'bafyreigbtj4x7ip5legnfznufuopl4sg4knzc2cof6duas4b3q2fy6swua'
const DIGEST = 'e3b0c44298fc1c149afbf4c8996fb92427ae41e4649b934ca495991b7852b855'

const fails = (work, code, offset) => assert.throws(work, (error) => {
  assert.ok(error instanceof KombiladError && error instanceof Error)
  assert.deepEqual([error.code, error.offset], [code, offset])
  return true
})

describe('CID', () => {
  const raw = CID.parse(EMPTY_RAW)
  const old = CID.parse(EMPTY_V0)

  test('has the parts that its bytes encode', () => {
    assert.deepEqual([raw.version, raw.code, raw.multihash.code, raw.multihash.size], [1, 0x55, 0x12, 32])
    assert.equal(toHex(raw.multihash.digest), DIGEST)
    assert.equal(toHex(raw.multihash.bytes), '1220' + DIGEST)
    assert.equal(toHex(raw.bytes), '01551220' + DIGEST)
    assert.deepEqual([old.version, old.code, toHex(old.bytes)], [0, 0x70, '1220' + DIGEST])
    const large = CID.decode(hex('01' + '818002' + '00' + '00'))
    assert.equal(large.code, 0x8001)
  })

  test('is written and read in each base', () => {
    assert.equal(String(raw), EMPTY_RAW)
    assert.equal(String(old), EMPTY_V0)
    assert.equal(raw.toString('base16'), 'f01551220' + DIGEST)
    assert.equal(raw.toString('base32upper'), 'B' + EMPTY_RAW.slice(1).toUpperCase())
    assert.equal(raw.toString('base64url'), 'u' + Buffer.from(raw.bytes).toString('base64url'))
    for (const base of kombilad.bases) assert.ok(CID.parse(raw.toString(base)).equals(raw), base)
    assert.equal(raw.toString({ prefix: 'x', encode: toHex }), toHex(raw.bytes))
    assert.ok(CID.parse('/ipfs/' + EMPTY_V0).equals(old))
    assert.deepEqual(raw.toJSON(), { '/': EMPTY_RAW })
    fails(() => raw.toString('base1'), 'UNKNOWN_BASE')
    fails(() => old.toString('base32'), 'V0_BASE')
    for (const text of [undefined, null, 7, {}, hex('01550000')]) fails(() => CID.parse(text), 'INPUT')
    fails(() => CID.parse(''), 'TEXT_UNKNOWN_BASE')
    fails(() => CID.parse('bafkqaa1'), 'TEXT_INVALID_LETTER', 7)
    fails(() => CID.parse('bafkqäaa'), 'TEXT_INVALID_LETTER', 5)
  })

  test('is decoded from all bytes or from the first bytes', () => {
    assert.ok(CID.decode(raw.bytes).equals(raw))
    assert.notEqual(CID.decode(raw.bytes).bytes.buffer, raw.bytes.buffer)
    for (const cid of [raw, old, CID.parse('bafkqaaa')]) {
      const [first, rest] = CID.decodeFirst(Uint8Array.from([...cid.bytes, 1, 2]))
      assert.ok(first.equals(cid))
      assert.deepEqual([...rest], [1, 2])
    }
    fails(() => CID.decode(hex('01551220')), 'CID_END')
    fails(() => CID.decode(hex('0155000000')), 'CID_TRAILING_BYTES')
    fails(() => CID.decode(hex('')), 'CID_END')
    fails(() => CID.decode(hex('02550000')), 'CID_UNKNOWN_VERSION')
    fails(() => CID.decodeFirst(hex('0155008000')), 'CID_NOT_SHORTEST')
    fails(() => CID.decode('bafkqaaa'), 'INPUT')
  })

  test('is created from its parts', () => {
    const digest = sha256.digest(new Uint8Array())
    assert.equal(String(CID.create(1, 0x55, digest)), EMPTY_RAW)
    assert.equal(String(CID.create(0, 0x70, digest)), EMPTY_V0)
    assert.equal(String(CID.ofBlock(0x71, hex('a0'))), EMPTY_MAP)
    assert.equal(String(old.toV1().toV0()), EMPTY_V0)
    assert.equal(old.toV1().code, 0x70)
    fails(() => raw.toV0(), 'WRONG_VERSION')
    for (const code of [-1, 1.5, 2 ** 53, -1n, 2n ** 64n, '0x55', undefined]) {
      fails(() => CID.ofBlock(code, hex('a0')), 'INPUT')
      fails(() => CID.create(1, code, digest), 'INPUT')
    }
    for (const code of [127, 128, 2 ** 32 - 1, 2 ** 32, 2 ** 53 - 1]) {
      assert.equal(CID.create(1, code, digest).code, code)
      assert.deepEqual(CID.create(1, code, digest), CID.ofBlock(BigInt(code), new Uint8Array()))
    }
    for (const code of [2n ** 53n, 2n ** 53n + 1n, 2n ** 64n - 1n]) {
      const cid = CID.create(1, code, digest)
      assert.equal(cid.code, code)
      assert.ok(CID.decodeFirst(Uint8Array.from([...cid.bytes, 0]))[0].equals(cid))
    }
    assert.equal(CID.decode(hex('0155' + '8180808080808010' + '0107')).multihash.code, 2n ** 53n + 1n)
    fails(() => CID.create(1, 0x55, { bytes: hex('1220ff') }), 'CID_END')
    fails(() => CID.create(0, 0x55, digest), 'WRONG_VERSION')
    fails(() => CID.create(2, 0x55, digest), 'CID_UNKNOWN_VERSION')
    const { bytes } = CID.ofBlock(2n ** 64n - 1n, new Uint8Array(1000))
    assert.equal(toHex(bytes), '01ffffffffffffffffff011220' + createHash('sha256').update(new Uint8Array(1000)).digest('hex'))
    assert.equal(new CID(1, 0x55, digest, raw.bytes).toString(), EMPTY_RAW)
  })

  test('compares with other CIDs, and accepts those of another class', () => {
    // Like the class in the documentation of multiformats, which checks the CIDs of another copy of
    // the package in the same way.
    class Other {
      constructor (version, code, multihash, bytes) { Object.assign(this, { version, code, multihash, bytes, '/': bytes }) }
      get asCID () { return this }
      static asCID (value) {
        if (value instanceof Other) return value
        return value['/'] === value.bytes || value.asCID === value ? new Other(value.version, value.code, value.multihash, value.bytes) : null
      }
    }
    for (const cid of [raw, old]) {
      const its = Other.asCID(cid)
      assert.deepEqual([its.version, its.code, its.multihash.code, its.multihash.digest, its.bytes], [cid.version, cid.code, 0x12, cid.multihash.digest, cid.bytes])
      assert.ok(cid.equals(its) && CID.asCID(its).equals(cid))
      assert.deepEqual(decode(encode({ cid: its, list: [its] })), { cid, list: [cid] })
      assert.equal(verify(its, new Uint8Array()), true)
    }
    // A plain object of that form, such as a message to a worker makes of a CID.
    const other = { code: 0x55, version: 1, multihash: raw.multihash, bytes: raw.bytes, '/': raw.bytes }
    assert.ok(raw.equals(other))
    assert.ok(CID.asCID(other) instanceof CID)
    assert.equal(CID.asCID(raw), raw)
    // CIDs of this class after such a message, and CIDs of the class before that of multiformats.
    for (const cid of [raw, old]) {
      const sent = structuredClone({ list: [cid, cid] })
      assert.ok(CID.asCID(sent.list[0]).equals(cid))
      assert.deepEqual(encode(sent), encode({ list: [cid, cid] }))
      const before = { version: cid.version, code: cid.code, multihash: cid.multihash.bytes, [Symbol.for('@ipld/js-cid/CID')]: true }
      assert.ok(cid.equals(before))
    }
    assert.equal(inspect(raw), `CID(${EMPTY_RAW})`)
    assert.equal(CID.asCID({ '/': EMPTY_RAW }), null)
    assert.equal(CID.asCID(null), null)
    assert.equal(CID.asCID({ bytes: hex('01'), '/': hex('01') }), null)
    assert.ok(!raw.equals(old) && !raw.equals(undefined))
    assert.ok(raw['/'] === raw.bytes && raw.asCID === raw && raw.link() === raw)
    assert.equal(Object.prototype.toString.call(raw), '[object CID]')
    assert.deepEqual(links(encode([other])), [raw])
    assert.notDeepEqual(raw, old)
  })

  test('verifies a block', () => {
    assert.equal(verify(raw, new Uint8Array()), true)
    assert.equal(verify(raw, new Uint8Array(1)), false)
    assert.equal(verify(CID.decode(hex('01550002abcd')), hex('abcd')), true)
    assert.equal(verify(CID.decode(hex('01550002abcd')), hex('abce')), false)
    assert.equal(verify(CID.decode(hex('01550002abcd')), hex('abcdef')), false)
    const sha512 = 'cf83e1357eefb8bdf1542850d66d8007d620e4050b5715dc83f4a921d36ce9ce47d0d13c5d85f2b0ff8318d2877eec2f63b931bd47417a81a538327af927da3e'
    assert.equal(verify(CID.decode(hex(`01551340${sha512}`)), new Uint8Array()), true)
    assert.equal(verify(CID.decode(hex(`01551340${sha512}`)), new Uint8Array(1)), false)
    const blake2b = 'bddd813c634239723171ef3fee98579b94964e3bb1cb3e427262c8c068d52319'
    assert.equal(verify(CID.decode(hex(`0155a0e40220${blake2b}`)), Buffer.from('abc')), true)
    assert.equal(verify(CID.decode(hex(`0155a0e40220${blake2b}`)), Buffer.from('abd')), false)
    assert.equal(verify(CID.decode(hex('01551300')), new Uint8Array()), false)
    assert.equal(verify(CID.decode(hex('01551100')), new Uint8Array()), undefined, 'SHA1 is not computed')
    assert.equal(verify(CID.decode(hex('01551202e3b0')), new Uint8Array()), false, 'a part of a digest is none')
    assert.equal(verify(CID.ofBlock(0x71, new Uint8Array(100000)), Buffer.alloc(100000)), true)
    fails(() => verify(EMPTY_RAW, new Uint8Array()), 'INPUT')
  })
})

describe('values', needsTape, () => {
  const link = CID.parse('bafkqaaa')
  // The rows are from RFC 8949, appendix A, and for links from the specification of DAG-CBOR.
  const rows = [
    [0, '00'], [10, '0a'], [23, '17'], [24, '1818'], [100, '1864'], [1000, '1903e8'], [1000000, '1a000f4240'], [1000000000000, '1b000000e8d4a51000'],
    [18446744073709551615n, '1bffffffffffffffff'], [-18446744073709551616n, '3bffffffffffffffff'], [-1, '20'], [-10, '29'], [-100, '3863'], [-1000, '3903e7'],
    [1.1, 'fb3ff199999999999a'], [1e300, 'fb7e37e43c8800759c'], [-4.1, 'fbc010666666666666'], [false, 'f4'], [true, 'f5'], [null, 'f6'],
    [hex('01020304'), '4401020304'], ['', '60'], ['IETF', '6449455446'], ['"\\', '62225c'], ['ü', '62c3bc'], ['水', '63e6b0b4'], ['\u{10151}', '64f0908591'],
    [[], '80'], [[1, [2, 3], [4, 5]], '8301820203820405'], [{}, 'a0'], [{ a: 1, b: [2, 3] }, 'a26161016162820203'],
    [2 ** 53 - 1, '1b001fffffffffffff'], [2n ** 53n, '1b0020000000000000'], [-(2 ** 53 - 1), '3b001ffffffffffffe'], [-(2n ** 53n), '3b001fffffffffffff'],
    [4294967295, '1affffffff'], [4294967296, '1b0000000100000000'], [65535, '19ffff'], [65536, '1a00010000'], [255, '18ff'], [256, '190100'], [-256, '38ff'], [-257, '390100'],
    [link, 'd82a450001550000'], [{ '': link, é: 1, aaa: 2 }, 'a360d82a45000155000062c3a90163616161' + '02'], ['\ufeffx', '64efbbbf78'], ['a'.repeat(24), '7818' + '61'.repeat(24)]
  ]

  test('are decoded and encoded as in the standards', () => {
    for (const [value, bytes] of rows) {
      assert.deepEqual(decode(hex(bytes)), value, bytes)
      assert.equal(toHex(encode(value)), bytes)
    }
    assert.ok(Object.is(decode(hex('fb8000000000000000')), -0))
  })

  test('of each length are the same after encoding and decoding', () => {
    for (let length = 0; length < 70; length++) {
      const value = { ['k'.repeat(length)]: 't'.repeat(length), ['ö' + 'k'.repeat(length)]: 'ü'.repeat(length), b: new Uint8Array(length).fill(length), l: new Array(length).fill(length) }
      assert.deepEqual(decode(encode(value)), value)
    }
    const large = { bytes: new Uint8Array(1000000).fill(7), text: 'ab東'.repeat(100000), list: new Array(100000).fill('x'), more: new Array(10000).fill({ a: [link] }) }
    assert.deepEqual(decode(encode(large)), large)
  })

  test('of each length in UTF-8 are the same after encoding and decoding', () => {
    // The lengths at which non-ASCII letters make a head longer, and at which an engine encodes
    // strings differently.
    for (const letter of ['t', 'ü', '東', '\u{1f642}']) {
      for (const count of [1, 7, 8, 11, 12, 15, 16, 23, 24, 31, 32, 33, 63, 64, 84, 85, 86, 127, 128, 255, 256, 5000, 21845, 21846, 32767, 32768, 65535, 65536, 65537]) {
        const text = letter.repeat(count) + 'a'
        const block = encode(text)
        assert.equal(toHex(block.subarray(-Buffer.byteLength(text))), toHex(Buffer.from(text)), `${count} times ${letter}`)
        assert.equal(decode(block), text)
        fails(() => encode(`${text}\udc00`), 'ENCODE_STRING')
      }
    }
    for (let count = 0; count < 10; count++) assert.deepEqual(decode(encode(new Array(count).fill([count]))), new Array(count).fill([count]))
    // Integers from RFC 8949, appendix A, in a list that is too long for an array literal.
    const integers = [-1, -100, -1000, 18446744073709551615n, -18446744073709551616n, 1000000, 9007199254740991]
    assert.deepEqual(decode(hex('87' + '20' + '3863' + '3903e7' + '1bffffffffffffffff' + '3bffffffffffffffff' + '1a000f4240' + '1b001fffffffffffff')), integers)
    assert.deepEqual(decode(encode(integers)), integers)
  })

  test('that nest deeply are the same after encoding and decoding, with the values next to them', () => {
    let value = { end: [] }
    for (let level = 0; level < 700; level++) value = level % 3 ? [level, value, [level], {}] : { a: value, b: [-level - 1], ['__proto__']: 'x', c: 'beside' }
    const made = decode(encode(value))
    let [ours, given] = [made, value]
    for (let level = 699; level >= 0; level--) {
      if (level % 3) {
        assert.deepEqual([ours.length, ours[0], ours[2], ours[3]], [4, level, [level], {}])
        ;[ours, given] = [ours[1], given[1]]
      } else {
        assert.deepEqual([Object.keys(ours), ours.b, ours.c], [['a', 'b', 'c', '__proto__'], [-level - 1], 'beside'])
        ;[ours, given] = [ours.a, given.a]
      }
    }
    assert.deepEqual(ours, { end: [] })
    const lists = '82'.repeat(600) + '0102'.repeat(1) + '03'.repeat(599)
    let list = decode(hex(lists))
    for (let level = 0; level < 599; level++) {
      assert.deepEqual([list.length, list[1]], [2, 3])
      list = list[0]
    }
    assert.deepEqual(list, [1, 2])
    const own = decode(hex('81'.repeat(300) + 'a1695f5f70726f746f5f5fa16178f5'))
    let inner = own
    while (Array.isArray(inner)) inner = inner[0]
    assert.deepEqual([Object.keys(inner), inner.x], [['__proto__'], undefined])
  })

  test('keep their keys when the cache has similar keys', () => {
    // Keys that replace each other in the cache, and a key whose UTF-16 units are the bytes of
    // another key.
    const keys = ['ab', 'ba', 'aab', 'a0b', 'é', 'Ã©', 'abcdefgh', 'abcXefgh', 'abcdXfgh', '\u0000', '']
    for (let round = 0; round < 3; round++) for (const key of keys) assert.deepEqual(Object.keys(decode(encode({ [key]: 1 }))), [key])
    // Pairs of keys: the UTF-16 units of the first key are the bytes of the second. Among 30,000
    // pairs, some have the same place in the cache.
    const keyOf = (key) => Object.keys(decode(Uint8Array.of(0xa1, 0x60 | Buffer.byteLength(key), ...Buffer.from(key), 1)))[0]
    for (let number = 0; number < 30000; number++) {
      const key = String.fromCharCode(0xa0 + number % 0x500, 0x61 + number % 7, 0x100 + number * 7 % 0x6ff)
      const spelled = Buffer.from(key).toString('latin1')
      assert.ok(keyOf(spelled) === spelled && keyOf(key) === key, `${number}: ${key} after ${spelled}`)
    }
  })

  test('have sorted keys, which are own properties', () => {
    assert.equal(toHex(encode({ bb: 1, a: 2, ab: 3, b: 4 })), 'a4616102616204626162036262' + '6201')
    // In the order of UTF-8, U+FF5E comes before U+1F642, whose first UTF-16 unit is lower.
    assert.deepEqual(Object.keys(decode(encode({ '\u{1f642}': 1, '\uff5ea': 2 }))), ['\u{1f642}', '\uff5ea'].sort((a, b) => Buffer.compare(Buffer.from(a), Buffer.from(b))))
    // A value is read once, unless keys that aren't ASCII have a different order in UTF-8.
    for (const [others, last, times] of [[{ bb: 1, a: 2, ab: 3 }, 'b', 1], [{ '\u{1f642}': 1 }, '\uff5ea', 2]]) {
      let count = 0
      encode(Object.defineProperty(others, last, { get: () => ++count, enumerable: true }))
      assert.equal(count, times)
    }
    const value = decode(hex('a1695f5f70726f746f5f5fa16178f5'))
    assert.equal(value.x, undefined)
    assert.deepEqual(Object.keys(value), ['__proto__'])
    assert.equal(Object.getPrototypeOf(value), Object.prototype)
    assert.equal(toHex(encode(value)), 'a1695f5f70726f746f5f5fa16178f5')
    assert.equal(toHex(encode(new Map([['b', 1], ['a', 2]]))), 'a2616102616201')
    assert.equal(toHex(encode(Object.assign(Object.create(null), { a: 1 }))), 'a1616101')
  })

  test('have keys that are own properties, whatever Object.prototype has', () => {
    // Few keys and many keys, and maps that nest too deeply for recursive calls.
    const names = ['toString', 'hostile', '', '7', 'constructor', '__proto__', '__defineGetter__', 'é', 'x'.repeat(40)]
    const few = encode(new Map(names.map((name) => [name, 1])))
    const many = encode(new Map([...names, ...Array.from({ length: 200 }, (_, at) => `key ${at}`)].map((name) => [name, 1])))
    const deep = Buffer.concat([Buffer.alloc(300, 0x81), few])
    const inside = (value) => Array.isArray(value) ? inside(value[0]) : value
    let calls = 0
    const added = names.filter((name) => !(name in Object.prototype))
    for (const name of added) Object.defineProperty(Object.prototype, name, { configurable: true, get () { calls++; return undefined }, set () { calls++ } })
    const usual = Object.getOwnPropertyDescriptor(Object.prototype, 'toString')
    let made
    try {
      Object.defineProperty(Object.prototype, 'toString', { writable: false })
      made = [few, many, few].map((block) => decode(block))
      // The list in which the outer lists are kept has an item 7.
      delete Object.prototype[7]
      made.push(inside(decode(deep)))
    } finally {
      Object.defineProperty(Object.prototype, 'toString', usual)
      for (const name of added) delete Object.prototype[name]
    }
    assert.equal(calls, 0)
    for (const map of made) {
      assert.ok(names.every((name) => Object.getOwnPropertyDescriptor(map, name).value === 1))
      assert.equal(Object.getPrototypeOf(map), Object.prototype)
    }
    assert.deepEqual(made.map((map) => Object.keys(map).length), [9, 209, 9, 9])
  })

  test('outside the data model are rejected', () => {
    for (const value of [undefined, () => 1, Symbol('a'), [undefined], { a: undefined }, new Date(), new Map([[1, 2]]), new Set(), /a/]) fails(() => encode(value), 'ENCODE_UNSUPPORTED')
    for (const value of [NaN, Infinity, -Infinity, 2n ** 64n, -(2n ** 64n) - 1n]) fails(() => encode(value), 'ENCODE_NUMBER')
    fails(() => encode('a\ud800'), 'ENCODE_STRING')
    fails(() => encode({ ['\udc00']: 1 }), 'ENCODE_STRING')
    const round = []
    round.push(round)
    fails(() => encode(round), 'ENCODE_TOO_DEEP')
    assert.deepEqual(encode([1]), hex('8101'), 'and the next call is as if there had been none')
  })

  test('do not share memory with the input or the core', () => {
    const block = encode([new Uint8Array([1, 2, 3]), link])
    const [bytes, cid] = decode(block)
    block.fill(0)
    encode('overwritten'.repeat(10))
    assert.deepEqual([...bytes], [1, 2, 3])
    assert.equal(String(cid), 'bafkqaaa')
    assert.deepEqual([bytes.buffer.byteLength, cid.bytes.buffer.byteLength], [3, 4])
  })
})

describe('blocks', () => {
  const link = 'd82a450001550000'

  test('are checked, and errors have an offset', needsTape, () => {
    assert.equal(check(hex('a0')), undefined)
    fails(() => check(hex('')), 'BLOCK_END', 0)
    fails(() => check(hex('8201')), 'BLOCK_END', 2)
    fails(() => decode(hex('82011801')), 'BLOCK_NOT_SHORTEST', 2)
    fails(() => links(hex('8201f93c00')), 'BLOCK_FLOAT', 2)
    fails(() => countLinks(hex('fb7ff8000000000000')), 'BLOCK_FLOAT', 0)
    fails(() => isCanonical(hex('8101ff')), 'BLOCK_TRAILING_BYTES', 2)
    fails(() => decode(hex('8161ff')), 'BLOCK_UTF8', 1)
    fails(() => decode(hex('a2616101616102')), 'BLOCK_DUPLICATE_KEY', 4)
    fails(() => decode(hex('a10101')), 'BLOCK_KEY_NOT_TEXT', 1)
    fails(() => decode(hex('81c101')), 'BLOCK_UNSUPPORTED', 1)
    fails(() => decode(hex('81d82a4101')), 'BLOCK_LINK_BYTES', 3)
    fails(() => decode(hex('81d82a4300025500')), 'LINK_UNKNOWN_VERSION', 3)
    fails(() => decode(hex('9f01ff')), 'BLOCK_UNSUPPORTED', 0)
    fails(() => decode('a0'), 'INPUT')
    fails(() => decode(undefined), 'INPUT')
  })

  test('are checked against limits', needsTape, () => {
    const deep = (levels) => hex('81'.repeat(levels) + '80')
    check(deep(1023))
    fails(() => check(deep(1024)), 'TOO_DEEP', 1024)
    check(deep(1024), { levels: 1025 })
    fails(() => decode(hex('83010203'), { values: 3 }), 'TOO_MANY', 3)
    assert.deepEqual(decode(hex('83010203'), { values: 4 }), [1, 2, 3])
    fails(() => decode(hex('80'), { levels: 0 }), 'TOO_DEEP', 0)
    let value = decode(deep(500000), { levels: Infinity })
    let levels = 0
    for (; value.length; value = value[0]) levels++
    assert.equal(levels, 500000)
  })

  test('do not change when a call makes other calls', needsTape, () => {
    const options = { get levels () { decode(encode([1, 2, 3])); return 5 }, get values () { links(hex('80')); return 9 } }
    assert.deepEqual(decode(hex('a16161820405'), options), { a: [4, 5] })
    assert.equal(isCanonical(hex('a2616202616101'), options), false)
    assert.equal(toHex(encode({ get a () { return decode(encode({ b: encode([1]) })).b } })), 'a1616142' + '8101')
  })

  test('have links in order', () => {
    const block = hex(`83${link}a16161${link}61ff`.replace('61ff', '6178'))
    assert.deepEqual(links(block).map(String), ['bafkqaaa', 'bafkqaaa'])
    assert.equal(countLinks(block), 2)
    assert.deepEqual(linkPositions(block), [{ offset: 5, length: 4 }, { offset: 16, length: 4 }])
    for (const { offset, length } of linkPositions(block)) assert.equal(toHex(block.subarray(offset, offset + length)), '01550000')
    const view = new Uint8Array([...hex('ffff'), ...block, 0]).subarray(2, 2 + block.length)
    assert.deepEqual(linkPositions(view), linkPositions(block))
    assert.deepEqual(links(Buffer.from(block)), links(block))
    assert.deepEqual(links(new DataView(view.buffer, 2, block.length)), links(block))
    assert.deepEqual(links(block.buffer.slice(0)), links(block))
    const many = hex('997530' + link.repeat(30000))
    assert.equal(links(many).length, 30000)
    assert.equal(links(many)[29999].bytes.buffer.byteLength, 4)
  })

  test('are canonical or can be made canonical', () => {
    assert.equal(isCanonical(hex('a2616101616202')), true)
    assert.equal(isCanonical(hex('a2616202616101')), false)
    assert.equal(toHex(canonicalize(hex('a2616202616101'))), 'a2616101616202')
    assert.equal(toHex(canonicalize(hex('a26162fb8000000000000000616182a2616201616102fb3ff8000000000000'))), 'a2616182a2616102616201fb3ff80000000000006162fb8000000000000000')
    fails(() => canonicalize(hex('fb7ff8000000000000')), 'BLOCK_FLOAT', 0)
    assert.equal(canonicalize(hex('997530' + link.repeat(30000))).length, 240003)
  })

  test('are converted to DAG-JSON and back', () => {
    for (const [text, block] of [
      ['null', 'f6'], ['18446744073709551615', '1bffffffffffffffff'], ['-0.0', 'fb8000000000000000'], ['"\\"é\\u001f"', '6422c3a91f'],
      ['{"/":{"bytes":"aGk"}}', '426869'], ['[{"/":"bafkqaaa"},[],{}]', '83d82a45000155000080a0'], ['{"aa":1,"b":{"/":2}}', 'a26162a1612f0262616101']
    ]) {
      assert.equal(toJSON(hex(block)), text)
      for (const given of [text, Buffer.from(` ${text}\n`)]) assert.equal(toHex(fromJSON(given)), block)
    }
    assert.equal(toHex(fromJSON('[1e2, {"b": 1, "a": "\\ud83d\\ude00"}]')), '82fb4059000000000000a2616164f09f9880616201')
    assert.equal(toJSON(hex('a2626161f6616201')), '{"aa":null,"b":1}')
    const long = '"' + '東'.repeat(100000) + '"'
    assert.equal(toJSON(fromJSON(long)), long)
    assert.equal(toJSON(hex('7a000186a0' + '01'.repeat(100000))), '"' + '\\u0001'.repeat(100000) + '"')
    assert.equal(fromJSON('[' + '1.5,'.repeat(9999) + '1.5]').length, 90003)
    for (const [text, code, offset] of [
      [hex('22ff22'), 'JSON_UTF8', 1], ['[1,]', 'JSON_SYNTAX', 3], ['', 'JSON_END', 0], ['1e400', 'JSON_FLOAT', 0], [' 18446744073709551616', 'JSON_INTEGER_RANGE', 1],
      ['{"é":1,"\\u00e9":2}', 'JSON_DUPLICATE_KEY', 8], ['{"/":"bafkqaa"}', 'JSON_LINK', 14], ['{"/":{"bytes":"="}}', 'JSON_BYTES', 18], ['{"/":"bafkqaaa","0":1}', 'JSON_RESERVED', 21],
      ['"\ud800"', 'ENCODE_STRING', undefined]
    ]) fails(() => fromJSON(text), code, offset)
    for (const [limits, code, offset] of [[{ levels: 1 }, 'TOO_DEEP', 1], [{ levels: 0 }, 'TOO_DEEP', 0], [{ values: 2 }, 'TOO_MANY', 6]]) fails(() => fromJSON('[{"/":"bafkqaaa"}]', limits), code, offset)
    fails(() => toJSON(hex('8200a1612fa16562797465736161')), 'JSON_RESERVED_MAP', 2)
    fails(() => toJSON(hex('8181')), 'BLOCK_END', 2)
    fails(() => toJSON(hex('818180'), { levels: 2 }), 'TOO_DEEP', 2)
    for (const text of [undefined, null, 7, {}, ['1']]) fails(() => fromJSON(text), 'INPUT')
  })

  test('have values at paths', needsTape, () => {
    const value = { a: [1, { b: 'cd', é: [CID.parse('bafkqaaa')] }], l: CID.parse('bafkqaaa'), 0: { 1: null } }
    const block = encode(value)
    for (const [path, found, remaining = ''] of [
      ['', value], ['/', value], ['a', value.a], ['a/+0', 1], ['/a//1/b/', 'cd'], ['a/01/é', value.a[1].é], ['0/1', null], ['l/', value.l],
      ['l//x/é/', value.l, 'x/é/'], ['a/1/é/0/é', value.l, 'é']
    ]) {
      assert.deepEqual(get(block, path), { value: found, remaining })
    }
    for (const [path, code, segment] of [
      ['b', 'PATH_MISSING', 1], ['toString', 'PATH_MISSING', 1], ['a/2/x', 'PATH_MISSING', 2], ['a/length', 'PATH_MISSING', 2], ['a//-1', 'PATH_MISSING', 2],
      ['a/18446744073709551616', 'PATH_MISSING', 2], ['a/0/0', 'PATH_NOT_A_CONTAINER', 3], ['0/1/x/y', 'PATH_NOT_A_CONTAINER', 3]
    ]) {
      fails(() => get(block, path), code, undefined)
      assert.throws(() => get(block, path), { segment, message: new RegExp(` \\(at segment ${segment}\\)$`) })
    }
    fails(() => get(block, 'a/\ud800'), 'ENCODE_STRING')
    for (const path of [undefined, null, 0, ['a'], new String('a')]) fails(() => get(block, path), 'INPUT') // eslint-disable-line no-new-wrappers
    // The whole block is checked, in the same limits.
    for (let end = 0; end < block.length; end++) {
      const cut = block.subarray(0, end)
      assert.throws(() => check(cut), ({ code, offset }) => { fails(() => get(cut, 'b'), code, offset); return true })
    }
    fails(() => get(hex('a1616181818100'), 'b', { levels: 3 }), 'TOO_DEEP', 5)
    fails(() => get(hex('820102'), '0', { values: 2 }), 'TOO_MANY', 2)
    assert.deepEqual(get(hex('81fb3ff8000000000000'), '0', { levels: 1, values: 2 }), { value: 1.5, remaining: '' })
    const key = '東'.repeat(30000)
    assert.deepEqual(get(encode({ [key]: [7], x: 'y'.repeat(100000) }), `${key}/0`), { value: 7, remaining: '' })
    fails(() => get(block, key), 'PATH_MISSING')
  })

  test('have tapes', needsTape, () => {
    assert.deepEqual(tape(hex(`a26161820102616238ff`)), [
      { kind: 10, length: 6, value: 2 }, { kind: 11, length: 1, value: 2 }, { kind: 9, length: 3, value: 2 },
      { kind: 3, length: 0, value: 1 }, { kind: 3, length: 0, value: 2 }, { kind: 11, length: 1, value: 7 }, { kind: 4, length: 0, value: 255 }
    ].map((entry, at) => at === 0 ? { ...entry, length: 7 } : entry))
  })
})

describe('the instance', () => {
  test('is replaced after a trap, and no later call uses the old one', needsTape, () => {
    const block = encode({ a: [1, 2, 3] })
    const before = core.starts()
    let old
    fails(() => core.run((instance) => {
      old = instance
      // An address after the end of the memory. The core never returns such an address.
      instance.calls.kombilad_block_check(0xfffffff0, 100, 1, 1, instance.offsetAt)
    }), 'TRAP')
    assert.equal(core.starts(), before)
    assert.ok(core.run((instance) => instance !== old))
    assert.equal(core.starts(), before + 1)
    assert.deepEqual(decode(block), { a: [1, 2, 3] })
    assert.equal(core.starts(), before + 1)
  })

  test('is started by init, and is not started again by the first call', async () => {
    setMemoryLimit(0xffff0000)
    const before = core.starts()
    await Promise.all([kombilad.init(), kombilad.init()])
    check(hex('a0'))
    await kombilad.init()
    assert.equal(core.starts(), before + 1)
  })

  test('fails to start if the module cannot be compiled synchronously', async () => {
    const { Module } = WebAssembly
    WebAssembly.Module = function () { throw new RangeError('the buffer is larger than 4KB') }
    try {
      const { run } = await fresh('core.js')
      fails(() => run(() => {}), 'NOT_STARTED')
    } finally {
      WebAssembly.Module = Module
    }
  })

  test('does not exceed a memory limit, and works after the error', needsTape, () => {
    const wide = hex('81'.repeat(200000) + '80')
    setMemoryLimit(6 << 20)
    fails(() => check(wide, { levels: Infinity }), 'NO_MEMORY')
    check(hex('a0'))
    fails(() => check(new Uint8Array(8 << 20)), 'NO_MEMORY')
    assert.deepEqual(decode(encode([1])), [1])
    setMemoryLimit(2 ** 32)
    check(wide, { levels: Infinity })
  })

  test('frees all that it allocates', needsTape, () => {
    for (const block of ['81'.repeat(5000) + '80', '81'.repeat(5000), 'a2616202616101', '1b00']) {
      for (const call of [check, decode, links, canonicalize, isCanonical, toJSON, (bytes, limits) => get(bytes, '0/0', limits)]) {
        try { call(hex(block), { levels: Infinity }) } catch (error) { assert.ok(error instanceof KombiladError) }
        core.run((instance) => assert.equal(instance.calls.kombilad_wasm_live(), 0))
      }
    }
  })
})

describe('dagPb.decode', () => {
  const { dagPb } = kombilad
  const cid = CID.parse('bafkqaaa')
  const small = (parts) => Uint8Array.from(parts.flatMap((part) => typeof part === 'number' ? [part] : [...part]))
  const field = (key, content) => small([key, ...varint(content.length), content])

  function varint (number) {
    const bytes = []
    for (let left = BigInt(number); ; left >>= 7n) {
      if (left < 128n) return [...bytes, Number(left)]
      bytes.push(Number(left & 127n) | 128)
    }
  }

  // Encodes a node. It does not share code with the package.
  function written ({ Data, Links }, first) {
    const links = Links.map(({ Hash, Name, Tsize }) => field(18, small([
      field(10, Hash.bytes),
      ...Name === undefined ? [] : [field(18, new TextEncoder().encode(Name))],
      ...Tsize === undefined ? [] : [24, varint(Tsize)]
    ])))
    const data = Data === undefined ? [] : [field(10, Data)]
    return small(first ? [...data, ...links] : [...links, ...data])
  }

  test('returns nodes in the form of @ipld/dag-pb', () => {
    assert.deepEqual([dagPb.name, dagPb.code], ['dag-pb', 0x70])
    assert.deepEqual(dagPb.decode(hex('')), { Links: [] })
    assert.deepEqual(dagPb.decode(hex('0a00')), { Data: hex(''), Links: [] })
    assert.deepEqual(dagPb.decode(hex('120b0a0401550000' + '120161' + '1801' + '0a026869')), { Data: hex('6869'), Links: [{ Hash: cid, Name: 'a', Tsize: 1 }] })
    assert.deepEqual(Object.keys(dagPb.decode(hex('12060a0401550000')).Links[0]), ['Hash'])
    const names = ['', 'a', 'é', '東京', 'x'.repeat(40), undefined]
    const sizes = [0, 1, 127, 128, 2 ** 32 - 1, 2 ** 32, Number.MAX_SAFE_INTEGER, 2n ** 53n, 2n ** 64n - 1n, undefined]
    const Links = names.flatMap((Name) => sizes.map((Tsize) => Object.fromEntries(Object.entries({ Hash: cid, Name, Tsize }).filter(([, it]) => it !== undefined))))
    for (const Data of [undefined, hex(''), new Uint8Array(300).fill(7)]) {
      for (const some of [[], Links.slice(0, 1), Links.slice(7, 12), Links]) {
        const node = Data === undefined ? { Links: some } : { Data, Links: some }
        for (const first of [true, false]) assert.deepEqual(dagPb.decode(written(node, first)), node)
      }
    }
    const node = dagPb.decode(hex('0a0178'))
    assert.equal(node.Data.buffer.byteLength, 1, 'the data are a copy')
  })

  test('reports errors and their offsets', () => {
    fails(() => dagPb.decode(hex('0a')), 'PB_END', 0)
    fails(() => dagPb.decode(hex('12060a0401550000' + '1800')), 'PB_UNKNOWN_FIELD', 8)
    fails(() => dagPb.decode(hex('12ffffffffffffffffff02')), 'PB_VARINT_TOO_LARGE', 0)
    fails(() => dagPb.decode(hex('0a00' + '0a00')), 'PB_FIELD_ORDER', 2)
    fails(() => dagPb.decode(hex('1200')), 'PB_NO_HASH', 2)
    fails(() => dagPb.decode(hex('12090a0401550000' + '1201ff')), 'PB_UTF8', 8)
    fails(() => dagPb.decode(hex('12050a03015500')), 'LINK_END', 2)
    fails(() => dagPb.decode('text'), 'INPUT')
  })
})

describe('hostile inputs', needsTape, () => {
  const { CarReader, CarBlockIterator, dagPb } = kombilad
  const SECRET = 'hunter2'
  const sha = (bytes) => createHash('sha256').update(bytes).digest('hex')
  const foreign = runInNewContext('({ Uint8Array, DataView, Float64Array })')
  const hasResizable = ArrayBuffer.prototype.resize !== undefined
  const hasGrowable = SharedArrayBuffer.prototype.grow !== undefined

  /**
   * Leaves a secret in the buffer of the writer and in the room of the core, like an earlier call.
   */
  function leaveSecret () {
    const block = encode([SECRET.repeat(1000), new TextEncoder().encode(SECRET.repeat(1000))])
    assert.equal(decode(block)[0].length, 7000)
    core.run((instance) => assert.ok(Buffer.from(instance.bytes.slice(instance.room, instance.room + 14010)).includes(SECRET)))
  }

  /** Returns whether any part of a result contains the secret. */
  function tells (result) {
    if (result instanceof CID) return tells(result.bytes)
    if (result instanceof Uint8Array) return Buffer.from(result.buffer).includes(SECRET)
    if (typeof result === 'string') return result.includes(SECRET)
    return result !== null && typeof result === 'object' && Object.entries(result).some(([key, value]) => tells(key) || tells(value))
  }

  const other = new TextEncoder().encode(SECRET.repeat(50))
  const lies = {
    length: [200, 0, -1, NaN, 2 ** 40, '5', 1.5], byteLength: [200, 0, 2 ** 40], byteOffset: [1, -1, 2 ** 40], buffer: [other.buffer, undefined],
    [Symbol.iterator]: [() => other[Symbol.iterator]()], constructor: [{ [Symbol.species]: function species () { return other } }], [Symbol.toStringTag]: ['Array'],
    slice: [() => other], set: [() => {}], subarray: [() => other], bytes: [other]
  }
  const throwing = { get () { throw new Error('a property was read') } }

  /** Yields objects whose class overrides a property, and objects with such an own property. */
  function * liars (make) {
    for (const key of Reflect.ownKeys(lies)) {
      for (const lie of [...lies[key].map((value) => ({ get: () => value })), throwing]) {
        // The prototype is like that of a class that extends the object's class.
        const input = make()
        const prototype = Object.create(Object.getPrototypeOf(input))
        yield [`${String(key)} of a class`, Object.setPrototypeOf(input, Object.defineProperty(prototype, key, lie))]
        yield [`${String(key)} of its own`, Object.defineProperty(make(), key, lie)]
      }
    }
  }

  /** Yields inputs that have these bytes, even if their properties return other values. */
  function * inputs (bytes) {
    const buffer = () => bytes.buffer.slice(bytes.byteOffset, bytes.byteOffset + bytes.length)
    const filled = (made) => { new Uint8Array(made).fill(0xff); new Uint8Array(made).set(bytes, 8); return made }
    class Long extends Uint8Array { get length () { return 200 } }
    class Species extends Uint8Array { static get [Symbol.species] () { return Long } }
    yield ['Long', new Long(bytes)]
    yield ['Species', new Species(bytes)]
    yield * liars(() => new Uint8Array(bytes))
    yield * liars(() => new Uint8Array(filled(new ArrayBuffer(bytes.length + 300)), 8, bytes.length))
    yield * liars(() => new Int8Array(buffer()))
    yield * liars(() => new DataView(filled(new ArrayBuffer(bytes.length + 300)), 8, bytes.length))
    yield * liars(buffer)
    yield ['a Buffer', Buffer.from(bytes)]
    yield ['a clamped array', new Uint8ClampedArray(bytes)]
    yield ['no prototype', Object.setPrototypeOf(new Uint8Array(bytes), null)]
    yield ['the prototype of objects', Object.setPrototypeOf(new Uint8Array(bytes), Object.prototype)]
    yield ['the prototype of arrays', Object.setPrototypeOf(new Uint8Array(bytes), Array.prototype)]
    yield ['another realm', new foreign.Uint8Array(bytes)]
    yield ['a view of another realm', new foreign.DataView(buffer())]
    yield ['shared', new Uint8Array(filled(new SharedArrayBuffer(bytes.length + 300)), 8, bytes.length)]
    if (hasGrowable) {
      const grown = new SharedArrayBuffer(8, { maxByteLength: bytes.length + 300 })
      const tracking = new Uint8Array(grown, 8)
      grown.grow(bytes.length + 8)
      tracking.set(bytes)
      yield ['shared and grown', tracking]
    }
    if (hasResizable) {
      for (const View of [Uint8Array, DataView]) {
        const shrunk = filled(new ArrayBuffer(bytes.length + 300, { maxByteLength: 1000 }))
        const [tracking, fixed] = [new View(shrunk, 8), new View(shrunk, 8, bytes.length)]
        shrunk.resize(bytes.length + 8)
        yield ['shrunk, and its end followed', tracking]
        yield ['shrunk behind it', fixed]
      }
      const whole = new ArrayBuffer(bytes.length + 300, { maxByteLength: 1000 })
      new Uint8Array(whole).set(bytes)
      whole.resize(bytes.length)
      yield ['a resizable buffer', whole]
    }
  }

  /**
   * Yields inputs without bytes: proxies, objects that have only the prototype, and a shared
   * buffer.
   */
  function * others (bytes) {
    const long = { get: (target, key) => key === 'length' || key === 'byteLength' ? 200 : Reflect.get(target, key, target) }
    for (const traps of [{}, long]) {
      for (const input of [new Uint8Array(bytes), new DataView(bytes.slice().buffer), bytes.slice().buffer, Buffer.from(bytes)]) yield ['a proxy', new Proxy(input, traps)]
    }
    for (const { prototype } of [Uint8Array, Float64Array, ArrayBuffer, DataView, Buffer, SharedArrayBuffer]) {
      yield ['a prototype', Object.create(prototype)]
      yield ['a prototype and a length', Object.create(prototype, { length: { value: 200 }, byteLength: { value: 200 }, 0: { value: 0x80 } })]
    }
    yield ['a shared buffer', new SharedArrayBuffer(9)]
  }

  /** Yields inputs whose buffer is detached, or was resized and no longer contains them. */
  function * gone () {
    class Long extends Uint8Array { get length () { return 200 } }
    for (const View of [Uint8Array, Long, DataView, Float64Array]) {
      const view = new View(new ArrayBuffer(64))
      structuredClone(view.buffer, { transfer: [view.buffer] })
      yield ['detached', view]
    }
    const buffer = new ArrayBuffer(64)
    structuredClone(buffer, { transfer: [buffer] })
    yield ['a detached buffer', buffer]
    if (!hasResizable) return
    for (const View of [Uint8Array, Long, DataView, Float64Array]) {
      const shrunk = new ArrayBuffer(64, { maxByteLength: 64 })
      const views = [new View(shrunk, 32), new View(shrunk, 16, 1)]
      shrunk.resize(8)
      for (const view of views) yield ['out of its buffer', view]
    }
  }

  const block = hex('8243010203d82a450001550000')
  const digest = '1220' + sha(block)
  const cid = '01551220' + sha(block)
  const withBytes = (bytes) => Object.assign(CID.parse('bafkqaaa'), { bytes })
  const parts = ({ Data, Links }) => [toHex(Data), Links]
  // The calls, the bytes of their inputs, and their results by the specifications of the formats.
  const calls = {
    check: [check, block, undefined],
    decode: [(input) => { const [bytes, link] = decode(input); return [toHex(bytes), toHex(link.bytes)] }, block, ['010203', '01550000']],
    links: [(input) => links(input).map(({ bytes }) => toHex(bytes)), block, ['01550000']],
    linkPositions: [linkPositions, block, [{ offset: 9, length: 4 }]],
    countLinks: [countLinks, block, 1],
    isCanonical: [isCanonical, block, true],
    canonicalize: [(input) => toHex(canonicalize(input)), hex('a2616202616101'), 'a2616101616202'],
    tape: [tape, hex('01'), [{ kind: 3, length: 0, value: 1 }]],
    get: [(input) => toHex(get(input, '0').value), block, '010203'],
    toJSON: [toJSON, block, '[{"/":{"bytes":"AQID"}},{"/":"bafkqaaa"}]'],
    fromJSON: [(input) => toHex(fromJSON(input)), Buffer.from('[1]'), '8101'],
    'dagPb.decode': [(input) => parts(dagPb.decode(input)), hex('0a0178'), ['78', []]],
    'CID.decode': [(input) => toHex(CID.decode(input).bytes), hex(cid), cid],
    'CID.decodeFirst': [(input) => CID.decodeFirst(input).map((it) => toHex(it.bytes ?? it)), hex(cid + '0a0b'), [cid, '0a0b']],
    'new CID': [(input) => toHex(new CID(1, 0x55, undefined, input).bytes), hex(cid), cid],
    'CID.create': [(input) => toHex(CID.create(1, 0x55, { bytes: input }).bytes), hex(digest), cid],
    'CID.create of version 0': [(input) => toHex(CID.create(0, 0x70, { bytes: input }).bytes), hex(digest), digest],
    'CID.ofBlock': [(input) => toHex(CID.ofBlock(0x55, input).bytes), block, cid],
    toString: [(input) => withBytes(input).toString('base16'), hex(cid), 'f' + cid],
    multihash: [(input) => toHex(withBytes(input).multihash.digest), hex(cid), sha(block)],
    'sha256.digest': [(input) => toHex(sha256.digest(input).bytes), block, digest],
    'sha256.encode': [(input) => toHex(sha256.encode(input)), block, sha(block)],
    verify: [(input) => verify(CID.decode(hex(cid)), input), block, true],
    'verify by identity': [(input) => verify(CID.decode(hex('01550003010203')), input), hex('010203'), true],
    'verify, of another CID': [(input) => verify(withBytes(input), block), hex(cid), true]
  }

  test('are read as the bytes that they have', () => {
    for (const [name, [call, bytes, expected]] of Object.entries(calls)) {
      leaveSecret()
      for (const [kind, input] of inputs(bytes)) assert.deepEqual(call(input), expected, `${name}: ${kind}`)
    }
  })

  test('without bytes are rejected', () => {
    for (const [name, [call, bytes]] of Object.entries(calls)) {
      leaveSecret()
      for (const [kind, input] of [...others(bytes), ...gone(), ['items', [...bytes]], ['numbered', { length: 3, 0: 1, 1: 0x55, 2: 0 }]]) {
        assert.throws(() => call(input), { name: 'KombiladError', code: 'INPUT' }, `${name}: ${kind}`)
      }
    }
  })

  test('are encoded as the bytes that they have', () => {
    // The heads are from RFC 8949, and the links from the specification of DAG-CBOR.
    const short = hex('80')
    const link = 'd82a582500' + cid
    for (const [call, bytes, expected] of [
      [(input) => encode(input), short, '4180'],
      [(input) => encode([1, { a: input }, input]), short, '8301a161614180' + '4180'],
      [(input) => encode(new Map([['a', input]])), short, 'a161614180'],
      [(input) => encode(input), hex(''), '40'],
      [(input) => encode(input), new Uint8Array(24).fill(7), '5818' + '07'.repeat(24)]
    ]) {
      for (const [kind, input] of inputs(bytes)) {
        leaveSecret()
        const made = call(input)
        assert.ok(!tells(made), kind)
        assert.equal(toHex(made), expected, kind)
      }
    }
    for (const [kind, input] of inputs(hex(cid))) {
      if (!types.isUint8Array(input)) continue
      leaveSecret()
      for (const value of [withBytes(input), { bytes: input, '/': input }, new Proxy(withBytes(input), {})]) assert.equal(toHex(encode(value)), link, kind)
    }
    for (const [kind, input] of others(short)) {
      leaveSecret()
      for (const value of [input, [input], { a: input }, withBytes(input)]) assert.throws(() => encode(value), { name: 'KombiladError', code: 'ENCODE_UNSUPPORTED' }, kind)
    }
    for (const [kind, input] of gone()) {
      leaveSecret()
      for (const value of [input, [input], { a: input }]) assert.throws(() => encode(value), { name: 'KombiladError', code: 'INPUT' }, kind)
    }
    assert.equal(toHex(encode([short])), '814180', 'and the next call is as if there had been none')
  })

  test('that are proxies of lists and CIDs are read once', () => {
    const list = (length) => new Proxy([1, 2], { get: (target, key) => key === 'length' ? length() : target[key] })
    const own = Object.defineProperty([1, 2], Symbol.iterator, throwing)
    for (const value of [new Proxy([1, 2], {}), list(() => 2), own]) assert.equal(toHex(encode(value)), '820102')
    assert.equal(toHex(encode(list(() => 1))), '8101')
    let reads = 0
    assert.equal(toHex(encode(list(() => reads++ === 0 ? 2 : 200))), '820102')
    assert.equal(reads, 1)
    for (const length of [-1, 1.5, NaN, '2', 2n, 2 ** 32, Infinity, undefined, {}, 3, 200]) {
      leaveSecret()
      fails(() => encode(list(() => length)), 'ENCODE_UNSUPPORTED')
    }
    const raw = CID.parse(EMPTY_RAW)
    const proxy = new Proxy(raw, {})
    assert.equal(String(proxy), EMPTY_RAW)
    assert.equal(toHex(encode(proxy)), 'd82a582500' + '01551220' + DIGEST)
    assert.ok(raw.equals(proxy) && verify(proxy, new Uint8Array()))
    // The bytes of a CID of another class are read once. Here a second read returns other bytes.
    const turns = { get bytes () { return reads++ === 0 ? raw.bytes : other }, get asCID () { return this } }
    for (const call of [(it) => toHex(CID.asCID(it).bytes), (it) => toHex(encode(it)).slice(10)]) {
      reads = 0
      assert.equal(call(turns), '01551220' + DIGEST)
      assert.equal(reads, 1)
    }
    fails(() => encode(new Proxy(raw, { get: (target, key) => key === 'bytes' ? new Proxy(target.bytes, {}) : target[key] })), 'ENCODE_UNSUPPORTED')
  })

  test('that change while a call reads them', { skip: !hasResizable && 'the engine has no resizable buffers' }, () => {
    const list = (length) => {
      const bytes = new Uint8Array(new ArrayBuffer(3, { maxByteLength: 300 }), 0, length)
      bytes.set(hex('820102'))
      return bytes
    }
    for (const change of [(buffer) => structuredClone(buffer, { transfer: [buffer] }), (buffer) => buffer.resize(2)]) {
      for (const call of [check, decode, links, linkPositions, countLinks, isCanonical, canonicalize, tape, toJSON, fromJSON]) {
        leaveSecret()
        const bytes = list(3)
        fails(() => call(bytes, { get levels () { change(bytes.buffer); return 9 } }), 'INPUT')
      }
      const bytes = list(3)
      fails(() => encode({ get a () { change(bytes.buffer); return 1 }, b: bytes }), 'INPUT')
    }
    // The length of this array follows its buffer.
    const bytes = list()
    fails(() => decode(bytes, { get levels () { bytes.buffer.resize(2); return 9 } }), 'BLOCK_END', 2)
    fails(() => decode(bytes, { get levels () { bytes.buffer.resize(200); return 9 } }), 'BLOCK_TRAILING_BYTES', 3)
    assert.equal(toHex(encode({ get a () { bytes.buffer.resize(1); return 1 }, b: bytes })), 'a2616101616241' + '82')
    // If the input is a buffer, the call uses the length that the buffer had when the call began.
    const { buffer } = list()
    buffer.resize(3)
    assert.deepEqual(decode(buffer, { get levels () { buffer.resize(200); return 9 } }), [1, 2])
    fails(() => decode(buffer.resize(3) ?? buffer, { get levels () { buffer.resize(1); return 9 } }), 'INPUT')
    // Simulates another thread that grows a shared buffer after its size is read.
    fails(() => core.run((instance) => core.place(instance, new Uint8Array(5), 3, 0)), 'TRAP')
    assert.deepEqual(decode(hex('820102')), [1, 2])
  })

  test('that make another call do not change the first call', () => {
    const secret = encode([SECRET.repeat(100), { a: SECRET.repeat(9) }])
    // A setter of Array.prototype can make a call while a long list is built.
    Object.defineProperty(Array.prototype, '4', { configurable: true, get: () => undefined, set () { decode(secret); encode(SECRET.repeat(100)); CID.parse(EMPTY_RAW) } })
    let made
    try {
      made = decode(hex('88' + '01020304' + '05' + '43010203' + '6161' + '81d82a450001550000'))
    } finally {
      delete Array.prototype[4]
    }
    assert.ok(!tells(made))
    assert.deepEqual([made.length, ...made.slice(5)], [8, hex('010203'), 'a', [CID.parse('bafkqaaa')]])
    assert.equal(toHex(encode([{ get a () { return encode(SECRET.repeat(100)).length } }, { get b () { return 2 } }])), '82a161611902bfa1616202')
    // A limit that is set during a call applies to the next call.
    try {
      core.run(() => setMemoryLimit(4 << 20))
      fails(() => check(new Uint8Array(4 << 20)), 'NO_MEMORY')
    } finally {
      setMemoryLimit(0xffff0000)
    }
  })

  test('that fail halfway do not affect the next call', () => {
    const throws = { get: () => { throw new Error('half way') }, enumerable: true }
    for (const value of [Object.defineProperty({ a: SECRET.repeat(100) }, 'b', throws), [SECRET, undefined], [SECRET, new Proxy(hex('01'), {})]]) {
      assert.throws(() => encode(value))
      assert.equal(toHex(encode([hex('01'), 'x'])), '8241016178')
    }
    for (const bytes of ['82' + '67' + Buffer.from(SECRET).toString('hex'), '']) {
      fails(() => decode(hex(bytes)), 'BLOCK_END', bytes.length / 2)
      assert.deepEqual(decode(hex('8241016178')), [hex('01'), 'x'])
    }
  })

  test('that need too much memory are an error, and the next call works', (context) => {
    const { Uint8Array } = globalThis
    const large = new Uint8Array(3 << 20)
    globalThis.Uint8Array = function () { throw new RangeError('Array buffer allocation failed') }
    try {
      fails(() => encode([large]), 'NO_MEMORY')
    } finally {
      globalThis.Uint8Array = Uint8Array
    }
    assert.equal(toHex(encode([1])), '8101')
    let longest
    try {
      longest = new Uint8Array(2 ** 31)
    } catch {
      return context.diagnostic('no input of 2 GiB')
    }
    fails(() => check(longest), 'NO_MEMORY')
    fails(() => decode(longest), 'NO_MEMORY')
    assert.deepEqual(decode(hex('8101')), [1])
  })

  test('that are CAR files are read as the bytes that they have', async () => {
    const car = hex('11' + 'a265726f6f7473806776657273696f6e01' + '06' + '01550000' + '6869')
    const sections = async (blocks) => {
      const found = []
      for await (const { cid, bytes } of blocks) found.push([toHex(cid.bytes), toHex(bytes)])
      return found
    }
    for (const [kind, input] of inputs(car)) {
      leaveSecret()
      assert.deepEqual(await sections((await CarReader.fromBytes(input)).blocks()), [['01550000', '6869']], kind)
      assert.deepEqual(await sections(await CarBlockIterator.fromIterable([car.subarray(0, 9), new Uint8Array(0), car.subarray(9, 10), car.subarray(10)])), [['01550000', '6869']])
      assert.deepEqual(await sections(await CarBlockIterator.fromIterable([input])), [['01550000', '6869']], kind)
    }
    for (const [kind, input] of [...others(car), ...gone()]) {
      leaveSecret()
      await assert.rejects(async () => CarReader.fromBytes(input), { code: 'INPUT' }, kind)
      await assert.rejects(async () => CarBlockIterator.fromIterable([input]), { code: 'INPUT' }, kind)
    }
    const reader = await CarReader.fromBytes(car)
    for (const [kind, input] of inputs(hex('01550000'))) assert.ok(await reader.has(withBytes(input)), kind)
  })

  test('with a CID whose buffer is detached do not make a call hang', () => {
    const detached = CID.parse(EMPTY_RAW)
    structuredClone(detached.bytes.buffer, { transfer: [detached.bytes.buffer] })
    assert.equal(detached.code, 0)
    for (const call of [() => detached.toString(), () => detached.multihash, () => verify(detached, block), () => encode(detached)]) fails(call, 'INPUT')
    fails(() => withBytes(hex('')).toString(), 'CID_END')
    assert.equal(withBytes(hex('')).multihash.size, 0)
  })
})

test('the module is a codec', () => {
  assert.deepEqual([kombilad.name, kombilad.code], ['dag-cbor', 0x71])
})

test('each status has the name in the header, except those of tapes, which the package does not encode', async () => {
  const { readFile } = await import('node:fs/promises')
  if (process.env.HEADER === undefined) return
  const header = await readFile(process.env.HEADER, 'utf8')
  const statuses = [...header.split('enum kombilad_status {')[1].split('};')[0].matchAll(/^ {4}KOMBILAD_(\w+) = (\d+)\b/gm)].map(([, name, number]) => [name, Number(number)])
  const ours = errors.statusNames
  for (const [name, number] of statuses) if (!['OK', 'TOO_SHORT', 'NOT_CANONICAL', 'OTHER'].includes(name) && !name.startsWith('TAPE_')) assert.equal(ours[name], number, name)
  assert.ok(statuses.length > 35)
})

test('errors have the sentence of the core for their status', () => {
  assert.throws(() => check(hex('a2616101616101')), { code: 'BLOCK_DUPLICATE_KEY', message: 'a map has the same key twice (at byte 4)' })
  assert.throws(() => CID.parse('bafkqaa1'), { code: 'TEXT_INVALID_LETTER', message: 'a character is not a letter of the base (at byte 7)' })
  for (const [name, status] of Object.entries(errors.statusNames)) {
    const { message } = errors.ofStatus(status)
    assert.ok(message !== name && !/status/.test(message) && !message.endsWith('.'), `${name}: ${message}`)
  }
})
