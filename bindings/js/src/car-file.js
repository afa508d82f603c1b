// Reads CAR files one block at a time, in Node.
import { createReadStream } from 'node:fs'
import { open } from 'node:fs/promises'
import { CarIndexer, byCid } from './car.js'
import { keyOf } from './cid.js'
import { ofName } from './errors.js'

/** Reads single blocks of a CAR file. Only the CIDs and positions of the blocks are in memory. */
export class CarIndexedReader {
  constructor (version, file, roots, places) {
    this.version = version
    this._file = file
    this._roots = roots
    this._places = places
    this._named = byCid(places)
  }

  /** Reads the file once to find its blocks. The file stays open until `close` is called. */
  static async fromFile (path) {
    const iterator = await CarIndexer.fromIterable(createReadStream(path))
    const places = []
    for await (const { cid, blockOffset, blockLength } of iterator) places.push({ cid, blockOffset, blockLength })
    return new CarIndexedReader(iterator.version, await open(path), await iterator.getRoots(), places)
  }

  async _read ({ cid, blockOffset, blockLength }) {
    const bytes = new Uint8Array(blockLength)
    for (let there = 0; there < blockLength;) {
      const { bytesRead } = await this._file.read(bytes, there, blockLength - there, blockOffset + there)
      // The file has become shorter.
      if (bytesRead === 0) throw ofName('CAR_UNEXPECTED_END', blockOffset + there)
      there += bytesRead
    }
    return { cid, bytes }
  }

  async getRoots () { return this._roots }
  async has (cid) { return this._named.has(keyOf(cid)) }

  async get (cid) {
    const place = this._named.get(keyOf(cid))
    return place === undefined ? undefined : this._read(place)
  }

  async * blocks () { for (const place of this._places) yield this._read(place) }
  async * cids () { for (const { cid } of this._places) yield cid }
  async close () { await this._file.close() }
}
