// Manages the core's instance and its memory, which has the layout
// [stack, constants][record][room][heap]. A call writes numbers and a CID to the record. Its other
// inputs and outputs are in the room.
import { ofName, ofStatus, startBy, useSentences } from './errors.js'
import { base64 } from './module.js'

let module
let instance
let bound = 0xffff0000
let started = 0

/** Returns the bytes of the core's module, which wasm.sh writes into the package as base64. */
function moduleBytes () { return Uint8Array.from(atob(base64), (letter) => letter.charCodeAt(0)) }

/**
 * Returns a new instance of the core's module. Compiles the module if no call has compiled it.
 * Throws NOT_STARTED if the engine can't compile or instantiate it.
 */
function instantiated () {
  try {
    if (module === undefined) module = new WebAssembly.Module(moduleBytes())
    return new WebAssembly.Instance(module, {})
  } catch (cause) {
    throw Object.assign(ofName('NOT_STARTED', undefined, `: ${cause.message}`), { cause })
  }
}

/**
 * Compiles and starts the core without blocking, if it hasn't started. Without `init` the first
 * call does this, which takes a few milliseconds. Older browsers refuse that on the main thread of
 * a page.
 */
export async function init () {
  if (instance !== undefined) return
  if (module === undefined) module = await WebAssembly.compile(moduleBytes())
  const made = await WebAssembly.instantiate(module, {})
  if (instance === undefined) instance = new Core(made)
}

/**
 * Sets the maximum size of the core's memory in bytes, which is at most 2^32 - 65536. A call that
 * needs more throws NO_MEMORY. Also drops the current instance, so that its memory is freed and the
 * next call starts a new one.
 */
export function setMemoryLimit (bytes) {
  bound = Math.max(0, Math.min(bytes, 0xffff0000))
  instance = undefined
}

/**
 * Returns the number of times that the core was started: once at first, again after a trap or
 * `setMemoryLimit`, and for a call that begins during another call. For tests.
 */
export const starts = () => started

/**
 * The maximum size of the room in bytes. The room ends below 2^31, so that each address in it is
 * the same number as a signed and as an unsigned 32-bit integer.
 */
const LARGEST = 0x7f000000

/** The size of the record in bytes. It has a number of bytes or items, an offset, and a CID. */
const RECORD = 96

/** An instance of the module with its memory. */
export class Core {
  constructor (made = instantiated()) {
    started++
    this.calls = made.exports
    this.memory = made.exports.memory
    this.bound = bound
    this.calls.kombilad_wasm_bound(bound)
    this.size = -1
    this.view()
    this.reserve(0)
    useSentences((status) => this.sentence(status))
  }

  /** Creates views of the memory's current buffer. */
  view () {
    const { buffer } = this.memory
    this.bytes = new Uint8Array(buffer)
    this.words = new Int32Array(buffer)
    this.longs = new BigUint64Array(buffer)
    this.numbers = new DataView(buffer)
  }

  /**
   * Creates new views if the memory has grown. Then it has a new buffer, and views of the old
   * buffer are empty.
   */
  refresh () { if (this.bytes.length === 0) this.view() }

  /** Returns the address of `size` bytes for the record and the room, or 0. */
  grown (size) { return this.calls.kombilad_wasm_room(size) }

  /**
   * Grows the room after the record to at least `size` bytes. Throws NO_MEMORY if that is
   * impossible.
   */
  reserve (size) {
    this.refresh()
    if (size > this.size) {
      if (size > LARGEST) throw ofStatus(1)
      // Tries the next power of two first, so that the room grows rarely, and then exactly `size`.
      let taken = Math.min(2 ** Math.ceil(Math.log2(Math.max(size, 4096))), LARGEST)
      let begins = this.grown(RECORD + taken)
      if (begins === 0) {
        taken = size
        begins = this.grown(RECORD + taken)
        if (begins === 0) throw ofStatus(1)
      }
      this.size = taken
      this.neededAt = begins
      this.offsetAt = begins + 4
      this.cidAt = begins + 8
      this.room = begins + RECORD
      this.refresh()
    }
  }

  /** Returns the record's first number: the size of a call's output, a count, or a position. */
  needed () {
    this.refresh()
    return this.words[this.neededAt >>> 2] >>> 0
  }

  /** Returns the sentence of a status. The core writes it over the record's CID. */
  sentence (status) {
    this.calls.kombilad_status_text(status, this.cidAt, RECORD - 8, this.neededAt)
    return String.fromCharCode(...this.bytes.subarray(this.cidAt, this.cidAt + this.needed()))
  }

  /** Returns the record's second number, which is the offset of an error. */
  offset () {
    this.refresh()
    return this.words[this.offsetAt >>> 2] >>> 0
  }
}

startBy(() => {
  try {
    run(() => {})
  } catch {
    // If the core can't be started, the message of the error is its name.
  }
})

/** Returns the error of a status, with its offset or the number of a segment if it has one. */
export function failed (core, status) {
  if (status === 64 || status === 65) {
    const error = ofStatus(status)
    error.segment = core.offset()
    error.message += ` (at segment ${error.segment})`
    return error
  }
  const has = status === 6 || status === 7 || status >= 48
  return ofStatus(status, has ? core.offset() : undefined)
}

/** Returns whether the memory limit is still the one with which an instance started. */
export function isCurrent (core) { return core.bound === bound }

/**
 * Keeps an instance for the next call, unless the memory limit was changed while a call used it.
 */
function keep (core) { if (isCurrent(core)) instance = core }

/** Returns the error TRAP for a trap or a RangeError, and any other error unchanged. */
export function trapOf (error) {
  if (!(error instanceof WebAssembly.RuntimeError || error instanceof RangeError)) return error
  return Object.assign(ofName('TRAP', undefined, `: ${error.message}`), { cause: error })
}

/**
 * Calls `work` with the core, and returns its result. Throws TRAP after a trap or a RangeError, and
 * drops the instance, so that no later call uses it. A call that begins during `work` uses another
 * instance, so the memory of this one doesn't change.
 */
export function run (work, a, b, c, d) {
  const core = instance ?? new Core()
  instance = undefined
  try {
    const made = work(core, a, b, c, d)
    keep(core)
    return made
  } catch (error) {
    const reported = trapOf(error)
    if (reported === error) keep(core)
    throw reported
  }
}

/**
 * Returns the engine's getter of a property as a function. Objects and their classes can override
 * the property, but not this function.
 */
function getter (prototype, name) {
  return Function.prototype.call.bind(Object.getOwnPropertyDescriptor(prototype, name).get)
}

/** The class that all typed arrays extend. */
export const TypedArray = Object.getPrototypeOf(Uint8Array)
const typedArray = TypedArray.prototype
const isView = ArrayBuffer.isView
const typeOfArray = getter(typedArray, Symbol.toStringTag)
const arrayBuffer = getter(typedArray, 'buffer')
const arrayOffset = getter(typedArray, 'byteOffset')
const arraySize = getter(typedArray, 'byteLength')
const arrayKeys = Function.prototype.call.bind(typedArray.keys)
const viewBuffer = getter(DataView.prototype, 'buffer')
const viewOffset = getter(DataView.prototype, 'byteOffset')
const viewSize = getter(DataView.prototype, 'byteLength')
const bufferSize = getter(ArrayBuffer.prototype, 'byteLength')

/**
 * Returns whether the value is an ArrayBuffer. Returns false for a proxy of an ArrayBuffer, and for
 * other objects with its prototype.
 */
function isBuffer (value) {
  if (!(value instanceof ArrayBuffer)) return false
  try {
    bufferSize(value)
    return true
  } catch {
    return false
  }
}

/**
 * Returns whether the value is a Uint8Array of any realm. Returns false for a proxy of a
 * Uint8Array, and for other objects with its prototype.
 */
export function isBytes (value) { return typeOfArray(value) === 'Uint8Array' }

/**
 * Returns the size of a Uint8Array in bytes, even if its class overrides `length`. Returns 0 if its
 * buffer is detached.
 */
export function sizeOf (bytes) { return arraySize(bytes) }

/** Returns the error of an input whose buffer is detached or was resized. */
export function detached (cause) {
  return Object.assign(ofName('INPUT', undefined, ': its buffer is detached, or was resized'), { cause })
}

/**
 * Returns a view of the bytes of a typed array, a DataView or an ArrayBuffer. Returns undefined for
 * any other value. The view is a Uint8Array of a fixed length. No property that the input overrides
 * is read. Throws INPUT if the buffer is detached, or was resized and no longer contains the input.
 */
export function viewOf (input) {
  try {
    if (!isView(input)) {
      // With an explicit length the view doesn't follow a buffer that is resized.
      return isBuffer(input) ? new Uint8Array(input, 0, bufferSize(input)) : undefined
    }
    if (typeOfArray(input) === undefined) return new Uint8Array(viewBuffer(input), viewOffset(input), viewSize(input))
    const size = arraySize(input)
    // The size is also 0 if the buffer no longer contains the array. In that case `keys` throws.
    if (size === 0) arrayKeys(input)
    return new Uint8Array(arrayBuffer(input), arrayOffset(input), size)
  } catch (cause) {
    throw detached(cause)
  }
}

/**
 * Returns a view of the bytes of a typed array, a DataView or an ArrayBuffer, like `viewOf`. Throws
 * INPUT for any other value.
 */
export function bytesOf (input) {
  const bytes = viewOf(input)
  if (bytes === undefined) throw ofName('INPUT')
  return bytes
}

/** Returns an iterable. Throws INPUT, with `more` in the message, for any other value. */
export function iterableOf (value, more) {
  if (typeof value === 'object' && value !== null && (value[Symbol.asyncIterator] ?? value[Symbol.iterator]) !== undefined) return value
  throw ofName('INPUT', undefined, more)
}

/**
 * Returns a Uint8Array of any class unchanged, since that is faster than a view. Returns the result
 * of `bytesOf` for any other input. The result is for `sizeOf` and `place`.
 */
export function inputOf (input) { return isBytes(input) ? input : bytesOf(input) }

/**
 * Copies the bytes to the beginning of the room. `size` is their number by `sizeOf`. Reserves
 * `behind` bytes after them, from the next multiple of 16 on, and returns the address of these.
 * Throws NO_MEMORY if the room can't grow, and INPUT if the buffer is detached.
 */
export function place (core, bytes, size, behind) {
  // A longer input doesn't fit in the room, and the sum below is only right for numbers below 2^31.
  if (size > LARGEST) throw ofStatus(1)
  const after = (size + 15) & ~15
  core.reserve(after + behind)
  try {
    core.bytes.set(bytes, core.room)
  } catch (cause) {
    throw detached(cause)
  }
  // Another thread can grow a shared buffer. The copy then overwrites memory after the room, so
  // `run` drops the instance.
  if (sizeOf(bytes) !== size) throw new RangeError('a shared buffer grew while it was copied')
  return core.room + after
}

/**
 * Returns a number of at most 64 bits as a BigInt. Throws INPUT, with `what` in the message, unless
 * it is a safe integer or a BigInt, from `least` to `most`.
 */
export function longOf (number, what, least = 0n, most = (1n << 64n) - 1n) {
  if ((typeof number === 'bigint' || Number.isSafeInteger(number)) && number >= least && number <= most) return BigInt(number)
  throw ofName('INPUT', undefined, `: ${what}`)
}

const LEVELS = 1024

/** Returns the limit on nested levels for the core. 2^32 - 1 means no limit. */
export function levelsOf (options) { return limit(options?.levels, LEVELS) }

/** Returns the limit on the number of values for the core. 2^32 - 1 means no limit. */
export function valuesOf (options) { return limit(options?.values, 0xffffffff) }

function limit (given, usual) {
  if (given === undefined) return usual
  return given >= 0xffffffff ? 0xffffffff : Math.max(0, Math.floor(given))
}
