// Shows bytes in hexadecimal, 32 lines at a time.
const WIDTH = 16
const LINES = 32

const hex = (byte) => byte.toString(16).padStart(2, '0')
const letter = (byte) => byte >= 32 && byte < 127 ? String.fromCharCode(byte) : '·'

function span (text, name) {
  if (!name) return document.createTextNode(text)
  const made = document.createElement('mark')
  if (name === 'at') made.className = 'at'
  made.textContent = text
  return made
}

/**
 * Shows the bytes in `pre`, with the byte `at` marked as an error. `base` is the offset of the
 * first byte. `buttons` are the two buttons that page back and forward. `range` is the element for
 * the range of the bytes shown. Returns a function that marks and shows other bytes.
 */
export function showBytes (pre, bytes, { base = 0, at, buttons = [], range }) {
  const digits = String(base + bytes.length).length
  let begins = 0
  let marked = at === undefined ? [0, 0] : [at, at + 1]
  const kind = (offset) => offset === at ? 'at' : offset >= marked[0] && offset < marked[1] ? 'marked' : ''

  function draw () {
    const lines = []
    const ends = Math.min(begins + WIDTH * LINES, bytes.length + 1)
    for (let line = begins; line < ends; line += WIDTH) {
      lines.push(String(base + line).padStart(digits, ' ') + '  ')
      for (let offset = line; offset < line + WIDTH; offset++) {
        const there = offset < bytes.length
        // An error can also be at the end of the bytes.
        lines.push(span(there ? hex(bytes[offset]) : offset === at ? '--' : '  ', kind(offset)), offset % 8 === 7 ? '  ' : ' ')
      }
      for (let offset = line; offset < Math.min(line + WIDTH, bytes.length); offset++) lines.push(span(letter(bytes[offset]), kind(offset)))
      lines.push('\n')
    }
    pre.replaceChildren(...lines)
    const [before, after] = buttons
    if (before) {
      before.disabled = begins === 0
      after.disabled = begins + WIDTH * LINES >= bytes.length
      before.onclick = () => page(-1)
      after.onclick = () => page(1)
    }
    if (range) {
      range.textContent = bytes.length === 0 ? 'no bytes' : `bytes ${base + begins} to ${base + Math.min(begins + WIDTH * LINES, bytes.length) - 1} of ${bytes.length}`
      if (at !== undefined) range.textContent += `; the error is at byte ${base + at}`
    }
  }

  function page (step) {
    begins = Math.max(0, begins + step * WIDTH * LINES)
    draw()
  }

  function reveal (offset) {
    if (offset < begins || offset >= begins + WIDTH * LINES) begins = Math.max(0, Math.floor(offset / WIDTH) - 4) * WIDTH
  }

  if (at !== undefined) reveal(at)
  draw()
  return (offset, length) => {
    marked = [offset, offset + length]
    if (length) reveal(offset)
    draw()
  }
}
