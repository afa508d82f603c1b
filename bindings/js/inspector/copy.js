// Copies text to the clipboard, and saves files.

/** The maximum number of bytes that are copied. Longer contents can be saved. */
export const LONGEST_COPY = 8 << 20

const KEPT = 60000 // the number of milliseconds for which a saved file can be read

/** Copies by a selection. Pages that are not from localhost or by https have no other way. */
function copySelected (text) {
  const { activeElement } = document
  const area = document.createElement('textarea')
  area.value = text
  area.readOnly = true
  area.className = 'offscreen'
  document.body.append(area)
  area.select()
  try {
    return document.execCommand('copy')
  } finally {
    area.remove()
    activeElement?.focus({ preventScroll: true })
  }
}

/** Copies a text. Returns whether the browser allows it. */
export async function copyText (text) {
  try {
    await navigator.clipboard.writeText(text)
    return true
  } catch {
    return copySelected(text)
  }
}

/** Offers a Blob as a file with this name. */
export function save (blob, name) {
  const url = URL.createObjectURL(blob)
  const link = document.createElement('a')
  link.href = url
  link.download = name
  link.click()
  setTimeout(() => URL.revokeObjectURL(url), KEPT)
}
