// The entry point for browsers, workers and bundlers. It has everything except the reader of files.
import { decode } from './block.js'
import { encode } from './writer.js'

export { CID, bases, sha256, verify } from './cid.js'
export { canonicalize, check, countLinks, decode, get, isCanonical, linkPositions, links, tape } from './block.js'
export { encode } from './writer.js'
export { fromJSON, toJSON } from './json.js'
export { dagPb } from './pb.js'
export { readFile } from './file.js'
export { listFolder, resolvePath } from './folder.js'
export { readNode } from './unixfs.js'
export { Packer } from './pack.js'
export { CarBlockIterator, CarCIDIterator, CarIndexer, CarReader } from './car.js'
export { encodeCar, encodeCarIndex } from './car-writer.js'
export { KombiladError } from './errors.js'
export { init, setMemoryLimit } from './core.js'

/** The name and the code of the DAG-CBOR codec, as in `@ipld/dag-cbor`. */
export const name = 'dag-cbor'
export const code = 0x71

/** The DAG-CBOR codec as one object: a `BlockCodec` of `multiformats`, for example for Helia. */
export const dagCbor = { name, code, encode, decode }
