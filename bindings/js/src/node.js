// The entry point for Node. It adds the reader of files.
export * from './index.js'
export { CarIndexedReader } from './car-file.js'
