// Finds text and bytes in parts of a file. The worker uses it.

/** The number of bytes that are searched at once. */
export const CHUNK = 4 << 20

/** The number of bytes before and after a hit that are shown with it. */
const AROUND = 32

// This encoding has a different character for each byte, so a string has a byte at each place.
const bytewise = new TextDecoder('windows-1252')
const utf8 = new TextDecoder()
const encoder = new TextEncoder()

/** Returns a string with one character for each byte. */
export const stringOf = (bytes) => bytewise.decode(bytes)

/** Returns a regular expression for bytes. Those of `text` also match letters of the other case. */
function expressionOf (bytes, isText) {
  return Array.from(stringOf(bytes), (letter) => isText && /[a-z]/i.test(letter) ? `[${letter.toLowerCase()}${letter.toUpperCase()}]` : `\\u${letter.charCodeAt(0).toString(16).padStart(4, '0')}`).join('')
}

/**
 * Returns the regular expression for what the user looks for, and the length of its longest match:
 * the bytes after `0x`, or a text in UTF-8. A text also matches if its ASCII letters have the other
 * case. `cid` is the bytes of a CID that is looked for too.
 */
export function patternOf (text, cid) {
  const digits = /^0x((?:[0-9a-f]{2})+)$/i.exec(text)
  const looked = digits ? Uint8Array.from(digits[1].match(/../g), (digit) => parseInt(digit, 16)) : encoder.encode(text)
  const parts = [expressionOf(looked, !digits)]
  if (cid) parts.push(expressionOf(cid, false))
  return { expression: new RegExp(parts.join('|'), 'g'), longest: Math.max(looked.length, cid ? cid.length : 0) }
}

const readable = (bytes) => utf8.decode(bytes).replace(/[\p{C}\ufffd]/gu, '·')

/** Returns the text before, in and after a hit. */
export function snippetOf (bytes, at, length) {
  return [bytes.subarray(Math.max(0, at - AROUND), at), bytes.subarray(at, at + Math.min(length, 4 * AROUND)), bytes.subarray(at + length, at + length + AROUND)].map(readable)
}
