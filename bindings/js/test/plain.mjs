// A strict reader of DAG-CBOR in plain JavaScript, with which `bench.mjs` compares the package. It
// rejects the same blocks as the core, and has the same limit on levels. Its errors do not have
// offsets. It does not share code with the package.

const LEVELS = 1024
const utf8 = new TextDecoder('utf-8', { fatal: true, ignoreBOM: true })
const TWO_32 = 4294967296

class PlainCid {
  constructor (bytes) { this.bytes = bytes }
}

class Reader {
  constructor (bytes, makes) {
    this.bytes = bytes
    this.view = new DataView(bytes.buffer, bytes.byteOffset, bytes.byteLength)
    this.at = 0
    this.makes = makes
    this.links = []
  }

  head () {
    const { bytes } = this
    if (this.at >= bytes.length) throw new Error('end')
    const first = bytes[this.at++]
    const more = first & 31
    this.major = first >> 5
    if (more < 24) return more
    if (more > 27 || this.major === 7) throw new Error('unsupported')
    const width = 1 << (more - 24)
    if (bytes.length - this.at < width) throw new Error('end')
    const at = this.at
    this.at += width
    let number
    if (width === 1) number = bytes[at]
    else if (width === 2) number = bytes[at] << 8 | bytes[at + 1]
    else if (width === 4) number = this.view.getUint32(at)
    else {
      const high = this.view.getUint32(at)
      if (high === 0) throw new Error('not shortest')
      return high <= 0x1fffff ? high * TWO_32 + this.view.getUint32(at + 4) : this.view.getBigUint64(at)
    }
    if (number < (width === 1 ? 24 : width === 2 ? 256 : 65536)) throw new Error('not shortest')
    return number
  }

  part (length) {
    if (length > this.bytes.length - this.at) throw new Error('end')
    const at = this.at
    this.at += length
    return at
  }

  text (length) {
    const at = this.part(length)
    if (length < 24) {
      let text = ''
      let each = at
      for (; each < this.at; each++) {
        const unit = this.bytes[each]
        if (unit > 127) break
        text += String.fromCharCode(unit)
      }
      if (each === this.at) return text
    }
    return utf8.decode(this.bytes.subarray(at, this.at))
  }

  varint (at, end) {
    let number = 0
    for (let place = 0; place < 10; place++) {
      if (at + place >= end) throw new Error('end of a link')
      const byte = this.bytes[at + place]
      if (place === 9 && byte > 1) throw new Error('varint')
      number += (byte & 127) * 2 ** (7 * place)
      if (byte < 128) {
        if (byte === 0 && place > 0) throw new Error('varint')
        this.next = at + place + 1
        return number
      }
    }
    throw new Error('varint')
  }

  link (tag) {
    if (tag !== 42) throw new Error('tag')
    const length = this.head()
    if (this.major !== 2) throw new Error('link')
    const begins = this.part(length)
    const { bytes, at: end } = this
    if (length === 0 || bytes[begins] !== 0) throw new Error('link')
    let at = begins + 1
    if (bytes[at] === 0x12 && bytes[at + 1] === 0x20 && length > 2) {
      if (end - at !== 34) throw new Error('link')
    } else {
      if (this.varint(at, end) !== 1) throw new Error('version')
      this.varint(this.next, end)
      this.varint(this.next, end)
      const size = this.varint(this.next, end)
      at = this.next
      if (size > 64 || end - at !== size) throw new Error('digest')
    }
    const cid = new PlainCid(Uint8Array.prototype.slice.call(bytes, begins + 1, end))
    if (!this.makes) this.links.push(cid)
    return cid
  }

  value (level) {
    const { bytes } = this
    if (bytes[this.at] === 0xfb) {
      const at = this.part(9)
      const number = this.view.getFloat64(at + 1)
      if (!Number.isFinite(number)) throw new Error('float')
      return number
    }
    const argument = this.head()
    switch (this.major) {
      case 0: return argument
      case 1: return typeof argument === 'bigint' || argument === Number.MAX_SAFE_INTEGER ? -1n - BigInt(argument) : -1 - argument
      case 2: {
        const at = this.part(argument)
        return this.makes ? Uint8Array.prototype.slice.call(bytes, at, this.at) : undefined
      }
      case 3: return this.text(argument)
      case 4: {
        if (level === LEVELS) throw new Error('deep')
        if (!this.makes) {
          for (let each = 0; each < argument; each++) this.value(level + 1)
          return undefined
        }
        const list = []
        for (let each = 0; each < argument; each++) list.push(this.value(level + 1))
        return list
      }
      case 5: return this.map(argument, level)
      case 6: return this.link(argument)
      default:
        if (argument === 20) return false
        if (argument === 21) return true
        if (argument === 22) return null
        throw new Error('simple')
    }
  }

  map (count, level) {
    if (level === LEVELS) throw new Error('deep')
    const map = {}
    for (let each = 0; each < count; each++) {
      const length = this.head()
      if (this.major !== 3) throw new Error('key')
      const key = this.text(length)
      if (Object.hasOwn(map, key)) throw new Error('duplicate key')
      const value = this.value(level + 1)
      if (key === '__proto__') Object.defineProperty(map, key, { value, writable: true, enumerable: true, configurable: true })
      else map[key] = value
    }
    return map
  }

  all () {
    const value = this.value(0)
    if (this.at !== this.bytes.length) throw new Error('trailing bytes')
    return value
  }
}

/** Returns the value of a block. Throws if the block is invalid. */
export function decode (bytes) { return new Reader(bytes, true).all() }

/** Returns the CIDs of a block's links. Throws if the block is invalid. */
export function links (bytes) {
  const reader = new Reader(bytes, false)
  reader.all()
  return reader.links
}
