// Shows the values of a block as a tree of the tape's entries. The items of a folded list or map
// are not created.
const MANY = 200
const LEVELS = 100 // the maximum number of levels that are unfolded to show a hit
const PAGES = 10 // the maximum number of times MANY items that are created to show a hit
const LONGEST = 300

const NAMES = ['null', 'false', 'true', 'integer', 'integer', 'float', 'string', 'bytes', 'link', 'list', 'map', 'key']
const LIST = 9
const MAP = 10
const text = new TextDecoder('utf-8', { ignoreBOM: true })

/**
 * Returns the kind, length and value of an entry. The value is a BigInt if it is an integer of the
 * block.
 */
function entry ({ kinds, lengths, values }, at) {
  const kind = kinds[at]
  return [kind, lengths[at], kind === 3 || kind === 4 ? values[at] : Number(values[at])]
}

/** Returns the number of entries that a value spans. */
const spanOf = ({ kinds, lengths }, at) => kinds[at] === LIST || kinds[at] === MAP ? lengths[at] : 1

function shorten (string) { return string.length > LONGEST ? `${string.slice(0, LONGEST)}… (${string.length} characters)` : string }

/** Returns one line of text for a value. */
function saying ([kind, length, value], bytes, link) {
  switch (kind) {
    case 0: case 1: case 2: return NAMES[kind]
    case 3: return String(value)
    case 4: return String(-1n - value)
    case 5: return String(new DataView(bytes.buffer, bytes.byteOffset + value, 8).getFloat64(0))
    case 6: return JSON.stringify(shorten(text.decode(bytes.subarray(value, value + length))))
    case 7: return `${Array.from(bytes.subarray(value, value + Math.min(length, 32)), (byte) => byte.toString(16).padStart(2, '0')).join(' ')}${length > 32 ? ' …' : ''} (${length} ${length === 1 ? 'byte' : 'bytes'})`
    case 8: return link.text
    case LIST: return `list of ${value}`
    default: return `map of ${value}`
  }
}

/** Returns the number of bytes in the head of a value of DAG-CBOR. */
const headOf = (argument) => argument < 24 ? 1 : argument < 0x100 ? 2 : argument < 0x10000 ? 3 : argument < 0x100000000 ? 5 : 9

/** Returns the number of bytes of an entry in the DAG-CBOR block, without the items in it. */
function sizeOf ({ kinds, lengths, values, names }, at) {
  const kind = kinds[at]
  if (kind <= 2) return 1
  if (kind === 5) return 9
  if (kind === 3 || kind === 4 || kind === LIST || kind === MAP) return headOf(Number(values[at]))
  const length = names.get(at)?.length ?? lengths[at]
  // A link is a tag of two bytes, and a byte string with a zero byte before the CID.
  return kind === 8 ? 3 + headOf(length + 1) + length : headOf(length) + length
}

/**
 * Returns where the value of the entry `at` begins and ends in its DAG-CBOR block. A path doesn't
 * lead to every value, because a key may be empty or have a slash.
 */
export function rangeOf (tape, at) {
  let begins = 0
  for (let each = 0; each < at; each++) begins += sizeOf(tape, each)
  let ends = begins
  for (let each = at; each < at + spanOf(tape, at); each++) ends += sizeOf(tape, each)
  return [begins, ends]
}

/**
 * Shows the block's values in the list `root`. Calls `select` with the offset and length of the
 * chosen item's bytes, its path, and a function that returns its range in the DAG-CBOR block of the
 * value. Calls `follow` with a link that the user opens. Returns a function that chooses the item
 * whose content is at an offset.
 */
export function showTree (root, { tape, bytes, links }, { select, follow }) {
  root.replaceChildren()
  if (!tape) return () => {}
  // The index in `links` for each entry that is a link. The links of a block are in the order of
  // its bytes.
  const numbers = new Map()
  tape.kinds.forEach((kind, at) => { if (kind === 8) numbers.set(at, numbers.size) })
  let chosen

  /** Returns the offset and the length of the content of an entry. */
  function placeOf (at) {
    const [, length, offset] = entry(tape, at)
    return [offset, length]
  }

  function keyOf (at) {
    const [offset, length] = placeOf(at)
    return tape.names.get(at) ?? shorten(text.decode(bytes.subarray(offset, offset + length)))
  }

  function item (at, label, level, keyed, path) {
    const [kind, length, value] = entry(tape, at)
    const holds = kind === LIST || kind === MAP
    const link = kind === 8 ? links[numbers.get(at)] : undefined
    const node = document.createElement('li')
    node.setAttribute('role', 'treeitem')
    node.setAttribute('aria-level', level)
    node.setAttribute('aria-selected', 'false')
    node.tabIndex = -1
    const row = document.createElement('span')
    row.className = 'row'
    const fold = document.createElement('span')
    fold.className = 'fold'
    fold.setAttribute('aria-hidden', 'true')
    row.append(fold)
    if (label !== undefined) {
      const key = document.createElement('span')
      key.className = 'key'
      key.textContent = `${label}: `
      row.append(key)
    }
    const said = document.createElement('span')
    said.textContent = saying([kind, length, value], bytes, link)
    if (holds) said.className = 'kind'
    if (link) {
      const isMissing = link.index === undefined && !link.isFar
      said.className = isMissing ? 'kind' : 'link'
      if (isMissing) said.textContent += ' (not in the file)'
    }
    row.append(said)
    node.append(row)
    node.setAttribute('aria-label', `${label === undefined ? '' : `${label}: `}${NAMES[kind]} ${said.textContent}`.slice(0, 400))
    if (holds && value > 0) node.setAttribute('aria-expanded', 'false')
    node.at = { entry: at, path, holds: holds && value > 0, fold, link, open: undefined }
    node.at.span = kind >= 5 && kind <= 8 ? [value, length] : keyed !== undefined ? placeOf(keyed) : [0, 0]
    node.at.open = () => {
      const group = document.createElement('ul')
      group.setAttribute('role', 'group')
      node.append(group)
      more(group, at + 1, 0, at, level + 1, path)
    }
    if (node.at.holds) fold.textContent = '▸'
    return node
  }

  /**
   * Adds items of the list or map at `parent` to its group, beginning with the entry `at`, which is
   * the item `number`.
   */
  function more (group, at, number, parent, level, path) {
    const [kind, span, count] = entry(tape, parent)
    const end = parent + span
    for (let made = 0; at < end; made++) {
      if (made === MANY) {
        const rest = document.createElement('li')
        rest.setAttribute('role', 'treeitem')
        rest.setAttribute('aria-level', level)
        rest.setAttribute('aria-selected', 'false')
        rest.tabIndex = -1
        const row = document.createElement('span')
        row.className = 'row link'
        row.textContent = `more of ${count}`
        rest.append(row)
        const next = at
        rest.at = {
          holds: false,
          span: [0, 0],
          act: () => {
            const before = rest.previousElementSibling
            rest.remove()
            more(group, next, number, parent, level, path)
            choose(before.nextElementSibling)
          },
          grow: () => {
            rest.remove()
            more(group, next, number, parent, level, path)
          }
        }
        group.append(rest)
        return
      }
      let label = String(number)
      let keyed
      if (kind === MAP) {
        keyed = at++
        label = keyOf(keyed)
      }
      group.append(item(at, label, level, keyed, [...path, label]))
      at += spanOf(tape, at)
      number++
    }
  }

  function unfold (node, open) {
    if (!node.at.holds || (node.getAttribute('aria-expanded') === 'true') === open) return
    node.setAttribute('aria-expanded', open)
    node.at.fold.textContent = open ? '▾' : '▸'
    if (open) node.at.open()
    else node.lastElementChild.remove()
  }

  function choose (node, focus = true) {
    if (!node) return
    if (chosen) {
      chosen.tabIndex = -1
      chosen.setAttribute('aria-selected', 'false')
    }
    chosen = node
    node.tabIndex = 0
    node.setAttribute('aria-selected', 'true')
    if (focus) node.focus()
    if (node.at.entry !== undefined) select(node.at.span, node.at.path, () => rangeOf(tape, node.at.entry))
  }

  function act (node) {
    if (node.at.act) node.at.act()
    else if (node.at.link) follow(node.at.link)
    else unfold(node, node.getAttribute('aria-expanded') !== 'true')
  }

  const all = () => [...root.querySelectorAll('[role=treeitem]')]
  const keys = {
    ArrowDown: (node) => { const list = all(); choose(list[list.indexOf(node) + 1]) },
    ArrowUp: (node) => { const list = all(); choose(list[list.indexOf(node) - 1]) },
    ArrowRight: (node) => {
      if (!node.at.holds) return
      if (node.getAttribute('aria-expanded') === 'true') choose(node.querySelector('[role=treeitem]'))
      else unfold(node, true)
    },
    ArrowLeft: (node) => {
      if (node.getAttribute('aria-expanded') === 'true') unfold(node, false)
      else choose(node.parentElement.closest('[role=treeitem]'))
    },
    Home: () => choose(all()[0]),
    End: () => choose(all().at(-1)),
    Enter: act,
    ' ': act
  }
  root.onkeydown = (event) => {
    const node = event.target.closest('[role=treeitem]')
    if (!node || !keys[event.key] || event.altKey || event.ctrlKey || event.metaKey) return
    event.preventDefault()
    keys[event.key](node)
  }
  root.onclick = ({ target }) => {
    const row = target.closest('.row')
    if (!row) return
    const node = row.parentElement
    choose(node)
    if (node.at.act || target.classList.contains('link') || node.at.holds) act(node)
  }

  const top = item(0, undefined, 1, undefined, [])
  root.append(top)
  top.tabIndex = 0
  chosen = top
  unfold(top, true)

  /** Returns the entry whose content is at an offset. For a key it is the entry of its value. */
  function entryAt (place) {
    const { kinds } = tape
    for (let at = 0; at < kinds.length; at++) {
      if (kinds[at] < 5 || kinds[at] === LIST || kinds[at] === MAP || tape.names.has(at)) continue
      const [offset, length] = placeOf(at)
      if (offset <= place && place < offset + (kinds[at] === 5 ? 8 : length)) return kinds[at] === 11 ? at + 1 : at
    }
    return undefined
  }

  return (place) => {
    const wanted = entryAt(place)
    if (wanted === undefined) return
    let node = top
    for (let level = 0; level < LEVELS && node.at.entry !== wanted; level++) {
      unfold(node, true)
      const group = node.lastElementChild
      const isAround = ({ at: { entry: begins } }) => begins <= wanted && wanted < begins + spanOf(tape, begins)
      let next
      for (let pages = 0; pages < PAGES; pages++) {
        next = [...group.children].slice(-MANY - 1).find((it) => it.at.entry !== undefined && isAround(it))
        if (next || !group.lastElementChild.at.grow) break
        group.lastElementChild.at.grow()
      }
      // The item is too far down in a long list or map.
      if (!next) break
      node = next
    }
    choose(node)
    node.firstElementChild.scrollIntoView({ block: 'nearest' })
  }
}
