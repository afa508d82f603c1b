import type { Block, CID } from './index.js'

export * from './index.js'

/**
 * Reads single blocks of a CAR file, in Node. Only the CIDs and positions of the blocks are in
 * memory.
 */
export class CarIndexedReader {
  readonly version: 1 | 2
  /** Reads the file once to find its blocks. The file stays open until `close` is called. */
  static fromFile(path: string): Promise<CarIndexedReader>
  getRoots(): Promise<CID[]>
  has(cid: CID): Promise<boolean>
  /**
   * Returns the block with this CID, or the first of several. Throws CAR_UNEXPECTED_END if the file
   * has become shorter.
   */
  get(cid: CID): Promise<Block | undefined>
  blocks(): AsyncGenerator<Block>
  cids(): AsyncGenerator<CID>
  close(): Promise<void>
}
