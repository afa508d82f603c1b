// Reads the file in a worker thread: its sections, their digests and links, and the links without a
// block in the file.
import { CID, CarBlockIterator, KombiladError, bases, dagPb, encode, fromJSON, isCanonical, links, listFolder, readFile, readNode, tape, toJSON, verify } from './index.js'
import { keyOf } from './cid.js'
import { pbTape } from './pb.js'
import { CHUNK, patternOf, snippetOf, stringOf } from './search.js'

const RAW = 0x55
const DAG_PB = 0x70
const DAG_CBOR = 0x71
const DAG_JSON = 0x0129
/** The codecs that the user can choose for a file, in the order in which they are tried. */
const CHOICES = [DAG_CBOR, DAG_JSON, DAG_PB, RAW]
const ROOTS = 20 // the maximum number of roots that the page shows
const VALUES = 4000000 // the maximum number of values of a block that is shown as a tree
const LONGEST_BLOCK = 64 << 20
const EVERY = 100 // the minimum number of milliseconds between two reports
const DRAWN = 60 // the maximum number of blocks in the graph
const HITS = 1000 // the maximum number of hits of a search
const SHORTEST_CID = 4 // the minimum number of letters that are looked for in the strings of CIDs
const CIDS = 20000 // the number of CIDs that are searched or written at once
const SHOWN = 65536 // the maximum number of characters of DAG-JSON, or of bytes of a text, that the page shows
const ENTRIES = 1000 // the maximum number of entries of a folder that the page shows
const LONGEST_PICTURE = 32 << 20
const PIECE = 8 << 20 // the minimum number of bytes of a file that are passed to the browser at once
const PATIENCE = 60000 // the number of milliseconds after which a gateway has not answered

/** The state of the open file. */
let open = { turn: 0 }

const CODECS = { 0x55: 'raw', 0x70: 'dag-pb', 0x71: 'dag-cbor', 0x72: 'libp2p-key', 0x78: 'git-raw', 0x85: 'dag-jose', 0x0129: 'dag-json', 0x0200: 'json', 0x51: 'cbor' }
const HASHES = { 0: 'identity', 0x11: 'sha1', 0x12: 'sha2-256', 0x13: 'sha2-512', 0x16: 'sha3-256', 0x1b: 'keccak-256', 0x1e: 'blake3', 0xb220: 'blake2b-256' }

const hexOf = (bytes) => Array.from(bytes, (byte) => byte.toString(16).padStart(2, '0')).join('')

function partsOf (cid) {
  const { code, size, digest } = cid.multihash
  return {
    text: cid.toString(),
    version: cid.version,
    codec: named(cid.code, CODECS),
    hash: named(code, HASHES),
    size,
    digest: hexOf(digest),
    bytes: hexOf(cid.bytes),
    texts: cid.version === 0 ? [['base58btc', cid.toString()], ['as version 1', cid.toV1().toString()]] : bases.map((base) => [base, cid.toString(base)])
  }
}

const named = (code, names) => `0x${code.toString(16)}${names[code] ? ` (${names[code]})` : ''}`

async function * chunksOf (file) {
  const reader = file.stream().getReader()
  for (;;) {
    const { done, value } = await reader.read()
    if (done) return
    yield value
  }
}

const told = (error) => ({ code: error.code ?? 'OTHER', message: error.message, offset: error.offset })

/**
 * Returns the links of a DAG-CBOR, DAG-JSON or DAG-PB block, and an empty array for other codecs.
 * Throws if the block is not of its codec.
 */
function linksOf (code, bytes) {
  if (code === DAG_PB) return dagPb.decode(bytes).Links.map(({ Hash }) => Hash)
  return code === DAG_CBOR || code === DAG_JSON ? links(asCbor(code, bytes)) : []
}

/** Returns the DAG-CBOR block of a block's value, or undefined if the codec is not known here. */
function asCbor (code, bytes) {
  switch (code) {
    case DAG_CBOR: return bytes
    case DAG_JSON: return fromJSON(bytes)
    case DAG_PB: return encode(dagPb.decode(bytes))
    case RAW: return encode(bytes)
    default: return undefined
  }
}

/** Adds a block to `found`, and checks its digest and its content. */
function add (found, { cid, bytes, offset }) {
  const index = found.cids.length
  const key = keyOf(cid)
  const right = verify(cid, bytes)
  found.cids.push(cid)
  found.offsets.push(offset)
  found.lengths.push(bytes.length)
  if (!found.index.has(key)) found.index.set(key, index)
  if (right === false) found.wrong.push(index)
  if (right === undefined) found.unknown.push(index)
  try {
    for (const link of linksOf(cid.code, bytes)) found.linked.set(keyOf(link), link)
    if (cid.code === DAG_CBOR && !isCanonical(bytes)) found.unordered.push(index)
  } catch (error) {
    if (!(error instanceof KombiladError)) throw error
    found.unreadable.push(index)
  }
}

const empty = (file, turn) => ({ file, turn, cids: [], offsets: [], lengths: [], index: new Map(), linked: new Map(), wrong: [], unknown: [], unordered: [], unreadable: [], missing: [], roots: [] })

/** Returns whether the package threw the error, for example because the input is invalid. */
const isOfPackage = (error) => error instanceof KombiladError

/** Reads a file. `wanted` is the CID, as a string, that the page will show, or undefined. */
async function read (file, turn, wanted) {
  const found = empty(file, turn)
  open = found
  let iterator
  try {
    iterator = await CarBlockIterator.fromIterable(chunksOf(file))
  } catch (error) {
    if (!isOfPackage(error)) throw error
    if (/\.car$/i.test(file.name)) {
      postMessage({ type: 'failed', turn, name: file.name, what: 'This is not a CAR.', error: told(error), bytes: await around(file, error.offset) })
      if (file.size > LONGEST_BLOCK) return
    }
    return readBlock(found, wanted)
  }
  found.version = iterator.version
  found.roots = await iterator.getRoots()
  let failure
  let last = 0
  try {
    for await (const section of iterator) {
      if (open.turn !== turn) return
      add(found, section)
      const now = performance.now()
      if (now - last > EVERY) {
        last = now
        postMessage({ type: 'progress', turn, done: section.offset + section.bytes.length, all: file.size, blocks: found.cids.length })
      }
    }
  } catch (error) {
    if (!isOfPackage(error)) throw error
    failure = { ...told(error), bytes: await around(file, error.offset) }
  }
  for (const [key, link] of found.linked) if (!found.index.has(key)) found.missing.push(link)
  for (const root of found.roots) if (!found.index.has(keyOf(root)) && !found.linked.has(keyOf(root))) found.missing.push(root)
  found.linked = new Map()
  postMessage({ type: 'car', turn, name: file.name, size: file.size, version: found.version, roots: found.roots.slice(0, ROOTS).map(linkOf), otherRoots: Math.max(0, found.roots.length - ROOTS), counts: countsOf(found), failure })
}

/** Returns the error of bytes that are not a block of the codec, and undefined if they are. */
function errorOf (code, bytes) {
  try {
    linksOf(code, bytes)
    return undefined
  } catch (error) {
    if (!isOfPackage(error)) throw error
    return told(error)
  }
}

/** Returns the CID of a text, or undefined if the text is not a CID. */
function cidOf (text) {
  try {
    return CID.parse(text)
  } catch (error) {
    if (!isOfPackage(error)) throw error
    return undefined
  }
}

/** Returns the codec with which the bytes have the CID, or undefined if there is none. */
function codecOfCid (text, bytes) {
  const cid = cidOf(text)
  return cid && CHOICES.includes(cid.code) && CID.ofBlock(cid.code, bytes).equals(cid) ? cid.code : undefined
}

/**
 * Reads a file as a block of the codec of the CID `wanted`, or else of the first codec of which it
 * is a block. Any bytes are a block of the codec raw, so only the user can choose it.
 */
async function readBlock (found, wanted) {
  const { file, turn } = found
  const { name, size } = file
  if (size > LONGEST_BLOCK) return postMessage({ type: 'failed', turn, name, what: `This is not a CAR, and has more than the ${LONGEST_BLOCK >> 20} MiB that this page reads as a block.` })
  const bytes = new Uint8Array(await file.arrayBuffer())
  found.own = true
  const wantedCode = wanted && codecOfCid(wanted, bytes)
  if (wantedCode) return take(found, wantedCode, bytes)
  const errors = []
  for (const code of CHOICES) {
    const error = code === RAW ? undefined : errorOf(code, bytes)
    if (error === undefined && code !== RAW) return take(found, code, bytes, { isOther: wanted !== undefined })
    errors.push({ code, error })
  }
  postMessage({ type: 'choice', turn, name, size, errors })
}

/** Takes the file for a block of this codec. `more` is added to the message. */
function take (found, code, bytes, more) {
  const { file, turn } = found
  Object.assign(found, empty(file, turn), { own: true })
  add(found, { cid: CID.ofBlock(code, bytes), bytes, offset: 0 })
  for (const [, link] of found.linked) found.missing.push(link)
  postMessage({ type: 'block-file', turn, name: file.name, size: file.size, code, ...more })
}

/** Returns up to 512 bytes of the file around `offset`, or undefined if there is no offset. */
async function around (file, offset) {
  if (offset === undefined) return undefined
  const begins = Math.max(0, (offset & ~15) - 128)
  return { begins, content: new Uint8Array(await file.slice(begins, begins + 512).arrayBuffer()) }
}

const lists = { wrong: 'wrong', unknown: 'unknown', unordered: 'unordered', unreadable: 'unreadable', missing: 'missing' }
const countsOf = (found) => ({ all: found.cids.length, ...Object.fromEntries(Object.keys(lists).map((name) => [name, found[name].length])) })

/**
 * Returns a CID as a string, the index of its block if the file has it, and whether a gateway may have
 * it.
 */
const linkOf = (cid) => ({ text: cid.toString(), index: open.index.get(keyOf(cid)), isFar: open.gateway !== undefined })

function rowsOf (which, from, count) {
  const list = which === 'all' ? undefined : open[which]
  const rows = []
  const all = list ?? open.cids
  for (let at = from; at < Math.min(from + count, all.length); at++) {
    if (which === 'missing') {
      rows.push({ ...linkOf(list[at]), missing: true })
      continue
    }
    const index = list ? list[at] : at
    rows.push({
      text: open.cids[index].toString(),
      index,
      codec: named(open.cids[index].code, CODECS),
      length: open.lengths[index],
      offset: open.offsets[index],
      wrong: has(open.wrong, index),
      unknown: has(open.unknown, index),
      unreadable: has(open.unreadable, index),
      unordered: has(open.unordered, index)
    })
  }
  return rows
}

/** Returns the index of the first item of a sorted list that is not less than the number. */
function placeIn (list, number) {
  let low = 0
  let high = list.length
  while (low < high) {
    const middle = (low + high) >> 1
    if (list[middle] < number) low = middle + 1
    else high = middle
  }
  return low
}

/** Returns whether a sorted list has the number. */
const has = (list, number) => list[placeIn(list, number)] === number

async function bytesOf ({ file, fetched, offsets, lengths }, index) {
  if (fetched) return fetched[index].slice()
  return new Uint8Array(await file.slice(offsets[index], offsets[index] + lengths[index]).arrayBuffer())
}

/**
 * Posts the graph of the blocks that are reachable from the roots, or from the first block if there
 * are no roots. The graph has at most the DRAWN nearest blocks.
 */
async function graphOf (found) {
  const nodes = []
  const numbers = new Map()
  const edges = []
  let isPart = false
  const numberOf = (cid, depth) => {
    const key = keyOf(cid)
    if (!numbers.has(key)) {
      if (nodes.length === DRAWN) {
        isPart = true
        return undefined
      }
      const index = found.index.get(key)
      numbers.set(key, nodes.length)
      nodes.push({ text: cid.toString(), index, depth, codec: named(cid.code, CODECS), wrong: has(found.wrong, index), unreadable: has(found.unreadable, index) })
    }
    return numbers.get(key)
  }
  for (const root of found.roots.length ? found.roots : found.cids.slice(0, 1)) numberOf(root, 0)
  for (let at = 0; at < nodes.length; at++) {
    const { index, depth, unreadable } = nodes[at]
    if (index === undefined || unreadable) continue
    const seen = new Set()
    for (const link of linksOf(found.cids[index].code, await bytesOf(found, index))) {
      const to = numberOf(link, depth + 1)
      if (to === undefined || seen.has(to)) continue
      seen.add(to)
      edges.push([at, to])
    }
  }
  postMessage({ type: 'graph', turn: found.turn, nodes, edges, isPart, from: found.roots.length ? 'the roots' : 'the first block' })
}

/**
 * Returns the entries of a tape as arrays, which are transferred to the page without a copy. Keys
 * that aren't in the bytes have names.
 */
function packed (entries) {
  const made = { kinds: new Uint8Array(entries.length), lengths: new Uint32Array(entries.length), values: new BigUint64Array(entries.length), names: new Map() }
  entries.forEach(({ kind, length, value, name }, at) => {
    made.kinds[at] = kind
    made.lengths[at] = length
    made.values[at] = BigInt(value)
    if (name !== undefined) made.names.set(at, name)
  })
  return made
}

const LIST = 9
const MAP = 10
const key = (name) => ({ kind: 11, length: 0, value: 0, name })
const FIELDS = { 3: 'Tsize', 6: 'Name', 8: 'Hash' }

/** Returns a DAG-PB node as a tape: a map with its data and its links. */
function nodeTape (bytes) {
  const data = []
  const links = []
  let link
  for (const entry of pbTape(bytes)) {
    if (entry.kind === 7) {
      data.push(key('Data'), entry)
      continue
    }
    if (entry.kind === 8) links.push(link = { kind: MAP, length: 1, value: 0 })
    link.length += 2
    link.value++
    links.push(key(FIELDS[entry.kind]), entry)
  }
  const list = { kind: LIST, length: links.length + 1, value: links.filter(({ kind }) => kind === MAP).length }
  return [{ kind: MAP, length: data.length + links.length + 3, value: data.length / 2 + 1 }, ...data, key('Links'), list, ...links]
}

/** Returns the tape of a block, or undefined if the block has too many values to show. */
function shownTape (bytes) {
  try {
    return packed(tape(bytes, { values: VALUES }))
  } catch (error) {
    if (error.code === 'TOO_MANY') return undefined
    throw error
  }
}

/** Posts a block. `view` is returned to the page, which knows by it how to show the block. */
async function blockOf (index, view) {
  const { cids, offsets, turn } = open
  const bytes = await bytesOf(open, index)
  const cid = cids[index]
  const { code } = cid
  const answer = { type: 'block', turn, index, view, offset: offsets[index], isFirst: open.index.get(keyOf(cid)) === index, bytes, code, cid: partsOf(cid), hasJson: CHOICES.includes(code), right: verify(cid, bytes), own: open.own === true, links: [] }
  try {
    if (code === DAG_CBOR) answer.canonical = isCanonical(bytes)
    if (code === DAG_CBOR) answer.tape = shownTape(bytes)
    if (code === DAG_PB) answer.tape = packed(nodeTape(bytes))
    if (code === DAG_JSON) {
      // The offsets of the values are those in the DAG-CBOR block of the text.
      answer.content = asCbor(code, bytes)
      answer.tape = shownTape(answer.content)
    }
    if (answer.tape) answer.links = linksOf(code, bytes).map(linkOf)
    answer.hasValues = code !== RAW && answer.hasJson
    if (code === DAG_PB || code === RAW) answer.node = nodeOf(cid, bytes)
  } catch (error) {
    if (!isOfPackage(error)) throw error
    answer.tape = undefined
    answer.error = told(error)
  }
  const { kinds, lengths, values } = answer.tape ?? {}
  postMessage(answer, [bytes, answer.content, kinds, lengths, values].filter((it) => it !== undefined).map(({ buffer }) => buffer))
}

/**
 * Finds the block with the CID of a fragment, `CID` or `CID@OFFSET`, and posts it. Posts the parts
 * of the CID if the file does not have it.
 */
async function find (fragment, view) {
  const [text, offset] = fragment.split('@')
  if (open.own) {
    const bytes = new Uint8Array(await open.file.arrayBuffer())
    const code = codecOfCid(text, bytes)
    if (code !== undefined) return take(open, code, bytes, { view })
  }
  const index = indexOf(text, offset)
  if (index === undefined && open.gateway && cidOf(text)) return fetchShown(open, text, view)
  if (index === undefined) showParts(text, { isAbsent: true })
  else await blockOf(index, view)
}

/** Returns the index of the block with this CID, at this offset if several have it. */
function indexOf (text, offset) {
  const cid = cidOf(text)
  if (!cid || !open.cids) return undefined
  const at = offset === undefined ? -1 : placeIn(open.offsets, Number(offset))
  return open.cids[at]?.equals(cid) ? at : open.index.get(keyOf(cid))
}

/** Posts the parts of a CID, or the error of the text. `more` is added to the message. */
function showParts (text, more) {
  try {
    const cid = CID.parse(text)
    postMessage({ type: 'cid', text, cid: partsOf(cid), index: open.index?.get(keyOf(cid)), ...more })
  } catch (error) {
    if (!isOfPackage(error)) throw error
    postMessage({ type: 'cid', text, error: told(error) })
  }
}

// ---- What is copied and saved

/**
 * Returns the DAG-JSON of a block, or of the value from `begins` up to `ends` in the DAG-CBOR block
 * of its value: as a Blob if `isWhole`, and otherwise the first characters of it.
 */
async function jsonOf (index, [begins, ends], isWhole) {
  try {
    const text = toJSON(asCbor(open.cids[index].code, await bytesOf(open, index)).subarray(begins, ends))
    return isWhole ? { blob: new Blob([text], { type: 'application/json' }) } : { text: text.slice(0, SHOWN), length: text.length }
  } catch (error) {
    if (!isOfPackage(error)) throw error
    return { error: told(error) }
  }
}

/** Returns the CIDs of a list as a Blob, with a line for each. */
async function cidsOf (which) {
  const { cids } = open
  const list = which === 'all' ? cids : open[which]
  const parts = []
  for (let begins = 0; begins < list.length; begins += CIDS) {
    parts.push(list.slice(begins, begins + CIDS).map((it) => `${typeof it === 'number' ? cids[it] : it}\n`).join(''))
    await pause()
  }
  return { blob: new Blob(parts, { type: 'text/plain' }) }
}

/** Lets the worker answer other messages. */
const pause = () => new Promise((resolve) => setTimeout(resolve))

// ---- Files and folders

/** Returns what a block says of a file, a folder or a symbolic link, or the error of one that is none. */
function nodeOf (cid, bytes) {
  try {
    return readNode(cid, bytes)
  } catch (error) {
    if (!isOfPackage(error)) throw error
    return { error: told(error) }
  }
}

/**
 * Returns a function that returns the block of a CID in the file or from the gateway, or undefined if
 * it is missing.
 */
const blocksOf = (found) => (cid) => {
  const index = found.index.get(keyOf(cid))
  if (index !== undefined) return bytesOf(found, index)
  return found.gateway && fetchBlock(found.gateway, cid)
}

const ofGateway = (message, cid) => Object.assign(new Error(`${message}, for block ${cid}`), { code: 'GATEWAY' })

/**
 * Returns the bytes that a gateway has for a CID, or undefined if it has none. Throws if it does not
 * answer, or with more bytes than the page reads as a block. Nothing is verified here.
 */
async function fetchBlock (gateway, cid) {
  try {
    const options = { headers: { accept: 'application/vnd.ipld.raw' }, signal: AbortSignal.timeout(PATIENCE), credentials: 'omit', referrerPolicy: 'no-referrer' }
    const { ok, status, body } = await fetch(new URL(`ipfs/${cid}?format=raw`, gateway), options)
    if (status === 404 || status === 410) return undefined
    if (!ok) throw ofGateway(`the gateway answers with status ${status}`, cid)
    const parts = []
    let length = 0
    for (const reader = body.getReader(); ;) {
      const { done, value } = await reader.read()
      if (done) return joined(parts)
      length += value.length
      if (length > LONGEST_BLOCK) {
        await reader.cancel()
        throw ofGateway(`the gateway sends more than ${LONGEST_BLOCK >> 20} MiB`, cid)
      }
      parts.push(value)
    }
  } catch (error) {
    if (error.code === 'GATEWAY') throw error
    throw ofGateway(`the gateway does not answer, or does not let this page ask (${error.message})`, cid)
  }
}

/** Posts the block of a CID from the gateway, after it is verified. */
async function fetchShown (found, text, view) {
  const cid = CID.parse(text)
  const key = keyOf(cid)
  if (!found.index.has(key)) {
    const bytes = await fetchBlock(found.gateway, cid)
    if (open !== found) return
    if (bytes === undefined) throw ofGateway('the gateway has no bytes', cid)
    const right = verify(cid, bytes)
    if (!right) throw ofGateway(right === undefined ? 'this page does not know the hash function' : 'the gateway has other bytes', cid)
    if (!found.index.has(key)) {
      found.fetched.push(bytes)
      add(found, { cid, bytes, offset: 0 })
    }
  }
  postMessage({ type: 'fetched', turn: found.turn, gateway: found.gateway, count: found.cids.length })
  await blockOf(found.index.get(key), view)
}

/** Begins to show blocks of a gateway, with that of a CID. */
async function readGateway (gateway, text, turn, view) {
  open = { ...empty(undefined, turn), gateway, fetched: [] }
  await fetchShown(open, text, view)
}

/** Returns the first ENTRIES entries of a folder, and the error of a block that ends them. */
async function entriesOf (found, index) {
  const entries = []
  try {
    for await (const { name, cid, tsize } of listFolder(blocksOf(found), found.cids[index])) {
      if (entries.length === ENTRIES) return { entries, isPart: true }
      entries.push({ name, tsize, ...linkOf(cid) })
    }
    return { entries }
  } catch (error) {
    return { entries, error: told(error) }
  }
}

/** The beginnings of pictures that browsers show. In RIFF a length precedes the second part. */
const PICTURES = [['image/png', /^\x89PNG\r\n/], ['image/jpeg', /^\xff\xd8\xff/], ['image/gif', /^GIF8[79]a/], ['image/webp', /^RIFF[^]{4}WEBP/]]
const LONGEST_BEGINNING = 12

/** Returns the type of a picture, or undefined if the bytes aren't the beginning of one. */
const pictureOf = (bytes) => PICTURES.find(([, beginning]) => beginning.test(String.fromCharCode(...bytes.subarray(0, LONGEST_BEGINNING))))?.[0]

const joined = (parts) => new Blob(parts).arrayBuffer().then((buffer) => new Uint8Array(buffer))

/** Returns a file as a picture, or the beginning of its text, or neither if it is of another kind. */
async function shownFile (found, index) {
  let parts = []
  let length = 0
  let type
  let isPart = false
  for await (const part of readFile(blocksOf(found), found.cids[index])) {
    parts.push(part)
    length += part.length
    if (type === undefined && length >= LONGEST_BEGINNING) {
      parts = [await joined(parts)]
      type = pictureOf(parts[0]) ?? ''
    }
    isPart = length > (type ? LONGEST_PICTURE : SHOWN)
    if (isPart) break
  }
  if (type) return isPart ? { isTooLong: true } : { blob: new Blob(parts, { type }) }
  const bytes = (await joined(parts)).subarray(0, SHOWN)
  try {
    const text = new TextDecoder('utf-8', { fatal: true }).decode(bytes, { stream: isPart })
    return text.includes('\0') ? {} : { text, isPart }
  } catch {
    return {}
  }
}

/** Returns a file as a Blob. The browser may keep its pieces on the disk. */
async function wholeFile (found, index) {
  const pieces = []
  let parts = []
  let length = 0
  for await (const part of readFile(blocksOf(found), found.cids[index])) {
    if (open !== found) return {}
    parts.push(part)
    length += part.length
    if (length < PIECE) continue
    pieces.push(new Blob(parts))
    parts = []
    length = 0
  }
  return { blob: new Blob([...pieces, ...parts]) }
}

// ---- Search

/** Returns the index of the block that contains these bytes of the file, or undefined. */
function blockAt ({ offsets, lengths }, begins, length) {
  const index = placeIn(offsets, begins + 1) - 1
  return index >= 0 && begins + length <= offsets[index] + lengths[index] ? index : undefined
}

/**
 * Posts the first HITS places in CIDs and blocks of the file that match. The search ends early if
 * `open.search` is no longer `number`.
 */
async function search (found, text, number) {
  const { file, turn, cids } = found
  found.search = number
  const cid = cidOf(text)
  const pattern = patternOf(text, cid?.bytes)
  const hits = []
  let last = performance.now()
  let done = 0
  const isStopped = () => open !== found || found.search !== number
  const report = async () => {
    if (performance.now() - last < EVERY) return
    last = performance.now()
    postMessage({ type: 'searching', turn, number, done, all: file.size, hits: hits.length })
    await pause()
  }
  const part = cid ? `${cid}`.toLowerCase() : /^[a-z0-9]+$/i.test(text) && text.length >= SHORTEST_CID ? text.toLowerCase() : undefined
  for (let index = 0; part && index < cids.length && hits.length < HITS && !isStopped(); index++) {
    const name = cids[index].toString()
    if (name.toLowerCase().includes(part)) hits.push({ text: name, index })
    if (index % CIDS === 0) await report()
  }
  for (; done < file.size && hits.length < HITS && !isStopped(); done += CHUNK) {
    const bytes = new Uint8Array(await file.slice(done, done + CHUNK + pattern.longest - 1).arrayBuffer())
    const string = stringOf(bytes)
    pattern.expression.lastIndex = 0
    for (let hit; hits.length < HITS && (hit = pattern.expression.exec(string)) !== null && hit.index < CHUNK;) {
      const { index: at, 0: { length } } = hit
      const index = blockAt(found, done + at, length)
      if (index !== undefined) hits.push({ text: cids[index].toString(), index, at: done + at - found.offsets[index], length, snippet: snippetOf(bytes, at, length) })
    }
    await report()
  }
  postMessage({ type: 'found', turn, number, hits, done: Math.min(done, file.size), all: file.size, isFull: hits.length === HITS })
}

// ---- Messages

/** The work for each type of message. */
const works = {
  open: ({ file, turn, wanted }) => read(file, turn, wanted),
  gateway: ({ gateway, text, turn, view }) => readGateway(gateway, text, turn, view),
  fetch: ({ text, view }) => fetchShown(open, text, view),
  rows: ({ which, from, count }) => postMessage({ type: 'rows', turn: open.turn, rows: rowsOf(which, from, count) }),
  graph: () => graphOf(open),
  block: ({ index, view }) => blockOf(index, view),
  find: ({ text, view }) => find(text, view),
  codec: async ({ code, view }) => take(open, code, new Uint8Array(await open.file.arrayBuffer()), { view }),
  cid: ({ text, more }) => showParts(text, more),
  search: ({ text, number }) => search(open, text, number),
  stop: () => { open.search = undefined },
  json: async ({ id, index, range, isWhole }) => postMessage({ type: 'reply', id, ...await jsonOf(index, range, isWhole) }),
  entries: async ({ id, index }) => postMessage({ type: 'reply', id, ...await entriesOf(open, index) }),
  'shown-file': async ({ id, index }) => postMessage({ type: 'reply', id, ...await shownFile(open, index) }),
  'whole-file': async ({ id, index }) => postMessage({ type: 'reply', id, ...await wholeFile(open, index) }),
  cids: async ({ id, which }) => postMessage({ type: 'reply', id, ...await cidsOf(which) })
}

onmessage = async ({ data }) => {
  try {
    await works[data.type](data)
  } catch (error) {
    if (data.id !== undefined) postMessage({ type: 'reply', id: data.id, error: told(error) })
    else postMessage({ type: 'failed', turn: data.turn ?? open.turn, what: error.code === 'GATEWAY' ? 'The block can\'t be shown.' : `The page failed: ${error.message}`, error: error.code === 'GATEWAY' ? told(error) : undefined })
  }
}
postMessage({ type: 'ready' })
