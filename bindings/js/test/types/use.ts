import { CID, CarBlockIterator, CarIndexedReader, CarIndexer, CarReader, KombiladError, Packer, check, code, countLinks, decode, encode, encodeCar, encodeCarIndex, fromJSON, get, isCanonical, linkPositions, links, listFolder, name, readFile, readNode, resolvePath, setMemoryLimit, sha256, tape, toJSON, verify, dagCbor, dagPb } from 'kombilad'

const cid: CID = CID.parse('bafkqaaa')
const version: 0 | 1 = cid.version
const text: string = cid.toString('base36') + cid.toString({ prefix: 'x', encode: (bytes: Uint8Array) => String(bytes.length) })
const bytes: Uint8Array = encode({ a: [1, 2n, null, cid], b: new Uint8Array() })
const value: { a: unknown[] } = decode<{ a: unknown[] }>(bytes, { levels: 3 })
const all: CID[] = links(bytes, { values: 10 })
const [first, rest]: [CID, Uint8Array] = CID.decodeFirst(cid.bytes)
const count: number = countLinks(bytes) + linkPositions(bytes)[0].offset + tape(bytes)[0].kind
const same: boolean | undefined = verify(CID.create(1, code, sha256.digest(bytes)), bytes)
check(bytes)
setMemoryLimit(1e8)
const { value: part, remaining }: { value: string, remaining: string } = get<string>(bytes, 'a/0', { levels: 3 })
const segment: number | undefined = (() => { try { get(bytes, part + remaining) } catch (error) { if (error instanceof KombiladError) return error.segment } })()
const json: string = toJSON(bytes, { levels: 3 })
const again: Uint8Array = fromJSON(json, { values: 10 }) ?? fromJSON(bytes)

// A codec in the form that multiformats accepts.
interface Codec<Code extends number, T> { name: string, code: Code, encode(value: T): Uint8Array, decode(bytes: Uint8Array): T }
const codecs: Array<Codec<0x71, unknown>> = [{ name, code, encode, decode }, dagCbor]

export async function blocks (car: Uint8Array): Promise<CID[]> {
  const found: CID[] = []
  for await (const { cid, bytes, offset } of await CarBlockIterator.fromIterable([car])) if (bytes.length > offset) found.push(cid)
  const reader = await CarReader.fromBytes(car)
  return [...await reader.getRoots(), ...found]
}

export async function found (path: string, cid: CID): Promise<[Uint8Array | undefined, number]> {
  const reader = await CarIndexedReader.fromFile(path)
  let end = 0
  for await (const { blockOffset, blockLength } of await CarIndexer.fromBytes(new Uint8Array())) end = blockOffset + blockLength
  return [(await reader.get(cid))?.bytes, end]
}

export function offset (bytes: Uint8Array): number | undefined {
  try {
    return isCanonical(bytes) ? undefined : 0
  } catch (error) {
    return error instanceof KombiladError && error.code === 'BLOCK_UTF8' ? error.offset : undefined
  }
}

export function names (bytes: Uint8Array): string[] { return dagPb.decode(bytes).Links.map(({ Hash, Name }) => Name ?? String(Hash)) }

export async function size (get: (cid: CID) => Promise<Uint8Array | undefined>): Promise<number> {
  let size = 0
  try {
    for await (const piece of readFile(get, cid, { bytes: 1e9 })) size += piece.length
  } catch (error) {
    if (error instanceof KombiladError && error.code === 'MISSING_BLOCK') throw new Error(String(error.cid))
  }
  return size
}

export async function tree (get: (cid: CID) => Uint8Array | undefined, root: CID): Promise<Array<[string, number | bigint]>> {
  const found: Array<[string, number | bigint]> = []
  for await (const { name, cid, tsize } of listFolder(get, await resolvePath(get, root, 'a/b'))) {
    const { kind, size, mode, mtime, target } = readNode(cid, get(cid) ?? new Uint8Array())
    if (kind === 'symlink') found.push([new TextDecoder().decode(target), mode ?? mtime?.seconds ?? 0])
    else found.push([name, size ?? tsize ?? 0])
    if (kind === 'file') for await (const piece of readFile(get, cid, { start: 10n, length: Infinity, levels: 9 })) found.push([name, piece.length])
  }
  return found
}

export async function packed (car: { write(bytes: Uint8Array): unknown }, file: Blob): Promise<number | bigint> {
  const blocks: Array<{ cid: CID, bytes: Uint8Array }> = []
  const packer = new Packer({ put: async (cid, bytes) => { blocks.push({ cid, bytes }) }, version: 1, rawLeaves: true, chunkSize: 1000, links: 3n, shardedAbove: Infinity })
  const a = await packer.file(file, { mode: 0o644, mtime: { seconds: -1n, nanoseconds: 5 } })
  const b = await packer.file(file.stream())
  const c = await packer.file([bytes, bytes.buffer])
  const link = await packer.symlink('a', { mtime: { seconds: 1 } })
  const { mode, mtime } = readNode(a.cid, blocks[0].bytes)
  const root = await packer.folder(new Map([['a', a], ['b', b], ['c', c], ['link', link]]), { mode, mtime })
  for await (const piece of encodeCar([root.cid], blocks)) car.write(piece)
  const sections: Array<{ cid: CID, offset: number }> = []
  for await (const section of await CarIndexer.fromBytes(bytes)) sections.push(section)
  const { header, index } = encodeCarIndex(sections, bytes.length)
  car.write(encodeCarIndex([{ cid: root.cid, offset: 0n }], 2n).index)
  car.write(header.length > 51 ? header : index)
  return root.total
}

export function missing (error: KombiladError): string | undefined { return error.code === 'MISSING_ENTRY' ? error.path : String(error.link) }

export function rejected (): void {
  // @ts-expect-error: this is not a kind of a node
  void (readNode(cid, bytes).kind === 'directory')
  // @ts-expect-error: this is not the name of a base
  cid.toString('base1')
  // @ts-expect-error: a string is not a block
  links('bafkqaaa')
  // @ts-expect-error: a packer needs somewhere to put its blocks
  void new Packer({ version: 1 })
  // @ts-expect-error: this is not the code of an error
  void (new KombiladError().code === 'UTF8')
}

export default [version, text, value, all, first, rest, count, same, codecs]
